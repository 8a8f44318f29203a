#include "calls.h"

#include <stdlib.h>
#include <string.h>

#include "input.h"
#include "number.h"

/* Where the reader is. */
struct reader {
    const struct bytes *all;
    size_t at;
};

static bool take(struct reader *r, uint32_t *value)
{
    size_t used;
    if (number_read(r->all->at + r->at, r->all->len - r->at, value, &used) != FORM_GOOD)
        return false;
    r->at += used;
    return true;
}

/* A length and a sheet. */
static bool take_sheet(struct reader *r, struct bytes *sheet)
{
    uint32_t len;
    if (!take(r, &len) || len > r->all->len - r->at)
        return false;
    *sheet = (struct bytes){ r->all->at + r->at, len, len };
    r->at += len;
    return true;
}

static bool take_call(struct reader *r, struct call *call)
{
    *call = (struct call){ 0, 0, 0, 0, { NULL, 0, 0 } };
    if (!take(r, &call->kind))
        return false;
    switch (call->kind) {
    case CALL_RENT: case CALL_RETURN: return take(r, &call->number);
    case CALL_SETTINGS: return take_sheet(r, &call->sheet);
    case CALL_REQUEST: return take(r, &call->number) && take_sheet(r, &call->sheet);
    case CALL_WHY: return take(r, &call->block) && take(r, &call->disk) && take_sheet(r, &call->sheet);
    default: return false;
    }
}

bool calls_read(const char *path, struct calls *calls)
{
    struct reader r = { &calls->all, 0 };
    struct bytes list = bytes_new();
    struct call call;
    bool good;
    *calls = (struct calls){ input_name(path), bytes_new(), 0, NULL, 0 };
    good = input_read(path, &calls->all);
    if (good && take(&r, &calls->unit))
        while (take_call(&r, &call))
            bytes_add(&list, &call, sizeof call);
    calls->list = (struct call *)(void *)list.at;
    calls->count = list.len / sizeof call;
    if (!good)
        calls_free(calls);
    return good;
}

void calls_free(struct calls *calls)
{
    bytes_free(&calls->all);
    free(calls->list);
    calls->list = NULL;
    calls->count = 0;
}

bool call_same_sheet(const struct call *a, const struct call *b)
{
    return a->sheet.len == b->sheet.len && (a->sheet.len == 0 || memcmp(a->sheet.at, b->sheet.at, a->sheet.len) == 0);
}

const char *call_name(uint32_t kind)
{
    static const char *const NAMES[] = {
        [CALL_RENT] = "rent", [CALL_SETTINGS] = "settings", [CALL_REQUEST] = "request", [CALL_RETURN] = "return",
        [CALL_WHY] = "why"
    };
    return NAMES[kind];
}
