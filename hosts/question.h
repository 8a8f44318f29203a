/* What a shelf told of one request, block by block and disk by disk: why its plan reads a block from a disk, or not. */
#ifndef QUESTION_H
#define QUESTION_H

#include <stdbool.h>
#include <stddef.h>
#include <stdint.h>

#include "blocks.h"
#include "plan.h"
#include "sheet.h"
#include "table.h"

/* A block, a disk and the reason. */
struct pair {
    uint32_t block, disk;
    uint32_t reason;        /* NO_COPY to CHOSEN */
    uint32_t time;          /* of LATER */
    unsigned line;          /* where the shelf told it */
};

struct question {
    uint32_t unit, tenancy;
    struct blocks blocks;       /* the request's */
    struct table table;         /* the settings', with the loads at the request's age */
    struct plan plan;
    unsigned plan_line;         /* 0 where its plan under these settings is not among the shelf's lines */
    bool planned_before;        /* it is there under other settings */
    struct pair *pairs;         /* by block and disk, none twice */
    size_t count;
    uint64_t unanswered[RP_MOST_BLOCKS];    /* of each block the disks, as bits, that the calls ask about after the last line */
};

/*
 * The request of a unit and tenancy that a file's reasons are about, of several the nth (from 1; 0 for none asked); or
 * says why there is none. The plan is held against its request and settings, and the reasons against all of them; where
 * the plan is not there, against the others alone.
 */
bool question_read(const struct sheets *sheets, uint32_t unit, uint32_t tenancy, uint32_t nth,
    struct question *question);
void question_free(struct question *question);

/* What was told of a block and a disk; null where it was not asked, or has no answer. */
const struct pair *question_pair(const struct question *question, uint32_t block, uint32_t disk);

/* Whether a block and a disk were asked about, and the lines end before the answer. */
bool question_unanswered(const struct question *question, uint32_t block, uint32_t disk);

/* Whether a disk in use holds a copy of a block, and whether one does that is out. */
bool question_holds(const struct question *question, uint32_t block, uint32_t disk);
bool question_out(const struct question *question, uint32_t block, uint32_t disk);

/* The disk that the plan reads a block from; RP_MOST_DISKS where it is not known. */
uint32_t question_chosen(const struct question *question, uint32_t block);

#endif
