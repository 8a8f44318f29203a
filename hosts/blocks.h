/*
 * A list of blocks: a line for each block in turn, with the numbers of the disks that hold it, in any order, parted by
 * blanks or any of , ; | / and a line of a single - for a block that no disk holds. The block's number and a colon may
 * stand before them. Comments from # on are passed over, and empty lines; blocks that they may stand for are told. Or
 * the read request itself, as bytes.
 */
#ifndef BLOCKS_H
#define BLOCKS_H

#include <stdbool.h>
#include <stddef.h>
#include <stdint.h>

#include "bytes.h"
#include "rippleplank.h"

struct block {
    uint64_t copies;    /* bit d stands for disk d */
    unsigned line;      /* 0 where it comes from a sheet */
};

struct blocks {
    const char *name;
    struct block *list;
    size_t count;
    uint32_t kind;      /* of the read request that it is or is to be; 0 of a list, which is one without an age */
    uint32_t age;       /* of the settings, in microseconds, where the kind has one */
};

struct expected;

/* Reads a list, or says everything that is wrong with it; of a sheet, unit and tenancy are as expected. */
bool blocks_read(const char *path, const struct expected *expected, struct blocks *blocks);
void blocks_free(struct blocks *blocks);

/* The read request of a list; gives its length, or says why it is refused and gives 0. */
uint32_t blocks_sheet(const struct blocks *blocks, uint32_t unit, uint32_t tenancy, uint32_t disks,
    uint8_t sheet[RP_LONGEST_REQUEST]);

/* Whether every block has a copy on a disk in use; or says, as the unit would, which have not. */
bool blocks_in_use(const struct blocks *blocks, uint64_t out);

/* Adds the disks of a set as words: " 0 1 5". */
void add_disks(struct bytes *text, uint64_t copies);

#endif
