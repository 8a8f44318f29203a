/*
 * Sheets as they come: the bytes themselves; hex digits, or a dump of xxd, hexdump or od; or the lines that the shelf
 * prints, among them `plan` and hex digits, `reason` and its numbers, and whatever it refused.
 */
#ifndef SHEET_H
#define SHEET_H

#include <limits.h>
#include <stdbool.h>
#include <stddef.h>
#include <stdint.h>

#include "bytes.h"
#include "calls.h"

/* One sheet of a file. */
struct found {
    struct bytes sheet;
    unsigned line;      /* where it stands, 0 where it is the whole file */
    const struct call *call, *settings;     /* that it answers, and whose settings the unit had; null where not known */
};

/* The reasons that a shelf tells for a block and a disk, by their numbers in its lines. */
enum { NO_COPY = 1, LATER, NOT_KEPT, LOWER, CHOSEN };

/* One that it told. */
struct why {
    unsigned line;
    uint32_t reason;
    uint32_t time;      /* the least time with the block read there, of LATER; 0 of the others */
    const struct call *call, *settings;     /* as above */
};

struct sheets {
    const char *name;
    struct found *list;
    size_t count;
    struct bytes told;  /* what the shelf refused, as it is to be said */
    unsigned refusals;  /* how often it refused or stopped */
    unsigned most_told; /* how many of them are told */
    struct why *whys;
    size_t why_count;
    struct calls sent;  /* the calls; its name is null where they are not known */
    unsigned lines;     /* of the shelf, one for each call */
    const struct call *settings;    /* that the unit has after them; null where not known */
    bool stopped;
    bool cut;           /* the last line has no line feed: nothing is taken from it */
    bool astray;        /* they do not answer those calls, and it was said */
};

/* How many refusals are told beside a plan or reasons, and where they are what is asked for. */
#define FIRST_TOLD 50
#define ALL_TOLD UINT_MAX

/*
 * Reads a file, or says why it can not be read. With the file of the calls that were sent, if it is not null, the
 * shelf's refusals are told with the field at their place.
 */
bool sheets_read(const char *path, const char *calls_path, unsigned most_told, struct sheets *sheets);
void sheets_free(struct sheets *sheets);

/* Says what the shelf refused, line by line. */
void sheets_tell(const struct sheets *sheets);

/* Whether the shelf's lines tell of anything that is not well. */
bool sheets_trouble(const struct sheets *sheets);

/* The plan of a unit and tenancy, of several the nth (from 1; 0 for none asked); or says why there is none. */
const struct found *sheets_plan(const struct sheets *sheets, uint32_t unit, uint32_t tenancy, uint32_t nth);

#endif
