/* Calls as `stream` frames them for the shelf: with those that were sent, its refusals are told field by field. */
#ifndef CALLS_H
#define CALLS_H

#include <stdbool.h>
#include <stddef.h>
#include <stdint.h>

#include "bytes.h"

enum { CALL_RENT = 1, CALL_SETTINGS, CALL_REQUEST, CALL_RETURN, CALL_WHY };
enum { MOST_ROOM = 4096 };

struct call {
    uint32_t kind;
    uint32_t number;        /* the tenancy, or the room for a plan */
    uint32_t block, disk;   /* that are asked about */
    struct bytes sheet;     /* a part of all bytes; empty where the call has none */
};

struct calls {
    const char *name;
    struct bytes all;
    uint32_t unit;
    struct call *list;
    size_t count;
};

/* Reads the calls of a file up to one that is damaged, where the shelf stops; or says why it can not be read. */
bool calls_read(const char *path, struct calls *calls);
void calls_free(struct calls *calls);

/* Whether two calls have the same sheet. */
bool call_same_sheet(const struct call *a, const struct call *b);

/* A call's kind in words. */
const char *call_name(uint32_t kind);

#endif
