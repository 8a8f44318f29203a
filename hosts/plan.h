/* A plan as it is shown: by block, by disk and, with a table of the disks, in time. */
#ifndef PLAN_H
#define PLAN_H

#include <stdbool.h>
#include <stdint.h>

#include "blocks.h"
#include "bytes.h"
#include "rippleplank.h"
#include "sheet.h"
#include "table.h"

struct plan {
    uint32_t unit;
    uint32_t tenancy;
    uint32_t blocks;                    /* Q */
    uint32_t time;                      /* R */
    uint32_t short_size;                /* m */
    uint8_t disk[RP_MOST_BLOCKS];       /* of each block */
    bool is_short[RP_MOST_BLOCKS];      /* whether a block is of the short set */
    uint32_t counts[RP_MOST_DISKS];     /* how many blocks are read from a disk */
    const char *calls;                  /* the file of the calls that it is held against; null for a table and a list */
    const char *name;                   /* with calls: the file that it stands in, and its line */
    unsigned line;
};

/* Why R is least: the disks in use that hold any block of the short set, and their room one microsecond before R. */
struct reason {
    uint64_t disks;                     /* bit d stands for disk d */
    uint64_t room[RP_MOST_DISKS];
    uint64_t sum;                       /* below m */
};

/* All that there is to show; a null leaves out what needs it. */
struct view {
    const struct plan *plan;
    const struct table *table;
    const struct blocks *blocks;        /* the request's */
    const struct reason *reason;        /* with both of them */
    bool by_block;
    unsigned width;                     /* of a line of text */
};

/* Reads a plan sheet of a file, or says why it is refused and where. */
bool plan_read(const char *name, const struct found *found, uint32_t unit, uint32_t tenancy, struct plan *plan);

/* When a disk can begin its first block: by delay and load, or what is left of it, as the table has it. */
uint64_t start_of(const struct table *table, uint32_t disk);

/* When a disk has read so many blocks; an idle disk ends at 0, whatever its load. */
uint64_t end_of(const struct table *table, uint32_t disk, uint32_t blocks);

/* Whether a table is the plan's: it has every disk in use, and the latest end is R; or says why not. */
bool plan_fits(const struct plan *plan, const struct table *table);

/* Whether every block is read from a disk that holds it; or says which are not. */
bool plan_holds(const struct plan *plan, const struct blocks *blocks);

/*
 * Finds why R is least, or says that the short set is not short: then the plan is of other settings or damaged. The
 * blocks are on disks of the table.
 */
bool plan_reason(const struct plan *plan, const struct blocks *blocks, const struct table *table,
    struct reason *reason);

/* The next block that is read from a disk, from a block on; plan->blocks where there is none. */
uint32_t next_on(const struct plan *plan, uint32_t disk, uint32_t from);

/* The last block of a run that begins with a block: neighbours on one disk, all of the short set or none. */
uint32_t run_end(const struct plan *plan, uint32_t first);

/* A run as a word: 5, or 5-9. */
struct digits range(uint32_t first, uint32_t last);

/* Adds which disks are out, and how starts come about where not by the sum of delay and load as they are: lines. */
void add_remarks(struct bytes *text, const struct table *table);

/* Adds the short set as words: " 0-6 16". */
void add_short_set(struct bytes *text, const struct plan *plan);

/* Adds the plan as text, as the bench's line, as one line of JSON, and its timeline as a picture in SVG. */
void plan_show(const struct view *view, struct bytes *text);
void plan_line(const struct plan *plan, struct bytes *text);
void plan_json(const struct view *view, struct bytes *text);
void plan_draw(const struct view *view, struct bytes *svg);

#endif
