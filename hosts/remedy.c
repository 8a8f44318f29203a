#include "remedy.h"

#include <stddef.h>

#include "rippleplank.h"

struct remedy {
    const char *here;
    const char *at_shelf;
};

/* By number, a row each. A refusal that no sheet gets here has no words for it. */
static const struct remedy REMEDIES[] = {
    [RP_SHEET_ENDS] = { "the sheet is cut short; fetch it again, whole",
        "the sheet was cut short; send it again, whole" },
    [RP_BAD_NUMBER] = { "the sheet is damaged; fetch it again",
        "the sheet is damaged; write it again and send that" },
    [RP_WRONG_KIND] = { "this is another kind of sheet; give the one that is asked for",
        "send a settings sheet with settings, and a read request with request or why" },
    [RP_WRONG_UNIT] = { "the sheet is of another unit; check UNIT",
        "the sheet is of another unit; send it there, or write it for this one" },
    [RP_WRONG_TENANCY] = { "the sheet is of another tenancy, or TENANCY is 0; check TENANCY",
        "rent the unit first; if it is rented, write the sheet for that tenancy" },
    [RP_OUT_OF_RANGE] = { "the sheet has a count that no such sheet can have; fetch it again",
        "correct that count in the table or list; write the sheet again" },
    [RP_NO_COPY] = { "give every block at least one disk that holds it",
        "give every block at least one disk that holds it" },
    [RP_NOT_RISING] = { "the sheet's list is out of order or repeats a number; fetch it again",
        "a list of disks is out of order or repeats one; write the sheet again" },
    [RP_BYTES_FOLLOW] = { "give the sheet alone, with nothing after it",
        "send the sheet alone, with nothing after it" },
    [RP_NO_SETTINGS] = { NULL, "send the unit its settings sheet first" },
    [RP_NO_ROOM] = { "lend a buffer of the length that is needed",
        "ask with more room; 2,964 bytes hold every plan" },
    [RP_RENTED] = { NULL, "return the tenancy that the unit has first" },
    [RP_NOT_ABOVE] = { NULL, "rent with a tenancy number above all earlier ones" },
    [RP_NOT_THE_TENANT] = { NULL, "return with the tenancy number that the unit is rented under" },
    [RP_BAD_AMOUNT] = { "the sheet has a time that no such sheet can have; fetch it again",
        "correct that cost, load, delay, rule or mark in the table; write the settings again" },
    [RP_BAD_INDEX] = { "the sheet names a disk or block that is not there; fetch it again",
        "the list is of another unit, or the settings are too short; name only disks that the settings have" },
    [RP_ALL_OUT] = { "name a copy of that block on a disk in use, or put one of its disks back in use in the settings",
        "name a copy of that block on a disk in use, or send settings that have one of its disks in use again" },
};

/* The row of a refusal, or an empty one. */
static struct remedy row(unsigned refusal)
{
    static const struct remedy none = { NULL, NULL };
    return refusal < sizeof REMEDIES / sizeof REMEDIES[0] ? REMEDIES[refusal] : none;
}

static const char NEWER[] = "use the tools of the same version as the library";

/* Whether a table or list is at fault: the sheet that was made of it is the same when it is fetched again. */
static bool is_of_list(unsigned refusal)
{
    return refusal == RP_OUT_OF_RANGE || refusal == RP_NOT_RISING || refusal == RP_BAD_AMOUNT
        || refusal == RP_BAD_INDEX;
}

const char *remedy_here(unsigned refusal, enum sort sort)
{
    const bool of_list = (sort == SETTINGS || sort == REQUEST) && is_of_list(refusal);
    const char *words = of_list ? row(refusal).at_shelf : row(refusal).here;
    return words != NULL ? words : NEWER;
}

const char *remedy_at_shelf(unsigned refusal, bool rented)
{
    const char *words = row(refusal).at_shelf;
    if (refusal == RP_WRONG_TENANCY && rented)
        return "the sheet is of another tenancy than the unit is rented under; write it for that one";
    if (refusal == RP_NOT_THE_TENANT && !rented)
        return "nothing, if nobody has rented the unit; else return with the tenancy number that it is rented under";
    return words != NULL ? words : "use the tools of the same version as the shelf";
}

const char *remedy_at_older(uint32_t kind)
{
    switch (kind) {
    case KIND_AGED: return "use a newer shelf: one older than this kind refuses it; or write the request without --age";
    case KIND_OVERLAP: return "use a newer shelf: one older than this kind refuses it; or write the settings without "
        "--start larger";
    case KIND_MARKED: return "use a newer shelf: one older than this kind refuses it; or, if no disk is out, write the "
        "settings without the column out";
    default: return NULL;
    }
}

const char *why_stopped(unsigned number)
{
    switch (number) {
    case RP_SHEET_ENDS: return "the stream ends inside a call";
    case RP_BAD_NUMBER: return "a number of the stream is not in shortest form or is too large";
    case RP_WRONG_KIND: return "there is no call of that kind";
    case RP_OUT_OF_RANGE: return "a length or room is above what any sheet has";
    default: return "the stream is damaged";
    }
}
