/*
 * What a sheet says, field by field: settings, a read request or a plan, of any kind, read left to right as the
 * documents have it, to the first refusal and its place. The library has the last word: whatever is read here is held
 * against it.
 */
#ifndef CONTENTS_H
#define CONTENTS_H

#include <stdbool.h>
#include <stddef.h>
#include <stdint.h>

#include "blocks.h"
#include "bytes.h"
#include "rippleplank.h"
#include "table.h"

/* What a sheet may be, and the kinds that it may have, by the number that it begins with. */
enum sort { NO_SORT, SETTINGS, REQUEST, PLAN };
enum {
    KIND_SETTINGS = 1, KIND_REQUEST = RP_REQUEST, KIND_PLAN = 3, KIND_AGED = RP_AGED_REQUEST, KIND_OVERLAP = 5,
    KIND_MARKED = 6
};

/* What is expected of a sheet; null for anything. */
struct expected {
    const uint32_t *unit;
    const uint32_t *tenancy;
    uint32_t disks;         /* N for a request, 64 where it is not known, 0 where there are no settings yet */
    enum sort sort;         /* NO_SORT for any of the three */
    bool not_rented;        /* every tenancy is refused */
    uint64_t out;           /* the disks that are out, for a request */
};
extern const struct expected ANYTHING;

struct contents {
    uint32_t kind;          /* 0 where it is none that there is, or none that is expected */
    enum sort sort;         /* of that kind */
    uint32_t unit;
    uint32_t tenancy;
    uint32_t age;           /* of a request; 0 where it has none */
    enum start start;       /* of settings */
    uint32_t count;         /* of disks or blocks */
    uint32_t time;          /* a plan's R */
    uint32_t short_size;
    struct row rows[RP_MOST_DISKS];
    uint64_t copies[RP_MOST_BLOCKS];
    unsigned refusal;       /* 0 where the sheet is accepted */
    size_t place;           /* of the number refused; the sheet's length for 1, the first byte that follows for 9 */
    char what[64];          /* what was to be read there */
    char why[128];          /* what stands there, or empty */
    bool inside;            /* for 1: whether the sheet ends inside that number */
};

/* Reads a sheet; the fields are added to `text` line by line, with their places, unless it is null. */
void contents_read(const struct bytes *sheet, const struct expected *expected, struct contents *contents,
    struct bytes *text);

/* The disks that settings have out; bit d stands for disk d. */
uint64_t contents_out(const struct contents *contents);

/* Whether the first three fields are those of a sheet of this sort, unit and tenancy. */
bool contents_is_of(const struct bytes *sheet, enum sort sort, uint32_t unit, uint32_t tenancy);

/* Adds the field at which a sheet is refused, and what stands there. */
void contents_add(const struct contents *contents, struct bytes *what);

/* Says that a sheet is refused: number, place, the field and what stands there. The name of the sheet may be null. */
void contents_say(const struct contents *contents, const char *name, const char *what_to_do);

/* Whether the library's answer for a plan is what was read of it: the same refusal at the same place, or none. */
bool contents_agree(const struct contents *contents, uint64_t answer);
extern const char SAYS_OTHERWISE[];

/* Whether bytes begin with the kind of a sheet, as no text does. */
bool contents_begin(const struct bytes *bytes);

/*
 * The table of a settings sheet, and the blocks of a read request; or says why there are none. What is expected of the
 * sort is known here.
 */
bool contents_table(const struct bytes *sheet, const char *name, struct expected expected, struct table *table);
bool contents_blocks(const struct bytes *sheet, const char *name, struct expected expected, struct blocks *blocks);

/*
 * Shows a sheet on standard output, field by field; says where it is refused, if it is. Where the unit's disks are not
 * known, a whole request is shown as one that was not held against them. `title` may be null.
 */
int contents_show(const struct bytes *sheet, const struct expected *expected, bool disks_known, const char *title);

#endif
