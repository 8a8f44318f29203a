/*
 * A table of disks: CSV whose first line names the columns cost, load and delay, and disk and out if one likes, in any
 * order; or the settings sheet itself, as bytes.
 */
#ifndef TABLE_H
#define TABLE_H

#include <stdbool.h>
#include <stddef.h>
#include <stdint.h>

#include "rippleplank.h"

struct row {
    uint32_t cost;
    uint32_t load;
    uint32_t delay;
    bool out;           /* the disk was pulled */
    unsigned line;      /* where it stands in the file; 0 where it comes from a sheet */
};

/* How a disk's start comes from its delay and its load. */
enum start { SUM = RP_START_SUM, LARGER = RP_START_LARGER };

struct table {
    const char *name;   /* of the file, to be shown */
    struct row *rows;
    size_t count;
    uint32_t kind;      /* of the settings that it comes from; 0 of CSV, which does not say how disks start */
    enum start start;
    bool start_told;    /* by the table, an option or the calls; else it is the sum */
    bool start_sure;    /* by the table or the calls: an option may be wrong */
    bool marked;        /* it says of each disk whether that is out */
    bool aged;          /* the loads are what is left of them at an age */
    bool age_told;      /* by an option, the request's sheet or the calls; else there is none */
    uint32_t age;
};

struct expected;

/* Reads a table, or says everything that is wrong with it; of a sheet, unit and tenancy are as expected. */
bool table_read(const char *path, const struct expected *expected, struct table *table);
void table_free(struct table *table);

/* Names a start as the options do; false where a word names none. */
const char *start_name(enum start start);
bool start_named(const char *word, enum start *start);

/* The disks that are out; bit d stands for disk d. */
uint64_t table_out(const struct table *table);

/* Takes the loads at an age: each is then what is left of it, and 0 where the age is larger. */
void table_age(struct table *table, uint32_t age);

/* The library's answer for the settings sheet of a table. */
uint64_t table_write(const struct table *table, uint32_t unit, uint32_t tenancy, uint8_t sheet[RP_LONGEST_SETTINGS]);

/* The settings sheet of a table, of the kind that it needs; gives its length, or says why it is refused and gives 0. */
uint32_t table_sheet(const struct table *table, uint32_t unit, uint32_t tenancy,
    uint8_t sheet[RP_LONGEST_SETTINGS]);

#endif
