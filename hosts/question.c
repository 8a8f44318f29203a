#include "question.h"

#include <stdlib.h>
#include <string.h>

#include "contents.h"
#include "say.h"

bool question_holds(const struct question *q, uint32_t block, uint32_t disk)
{
    return disk < RP_MOST_DISKS && ((q->blocks.list[block].copies & ~table_out(&q->table)) >> disk & 1);
}

bool question_out(const struct question *q, uint32_t block, uint32_t disk)
{
    return disk < RP_MOST_DISKS && ((q->blocks.list[block].copies & table_out(&q->table)) >> disk & 1);
}

bool question_unanswered(const struct question *q, uint32_t block, uint32_t disk)
{
    return disk < RP_MOST_DISKS && (q->unanswered[block] >> disk & 1) && question_pair(q, block, disk) == NULL;
}

/* By block and disk, and then as the shelf told them. */
static int by_place(const void *left, const void *right)
{
    const struct pair *a = left, *b = right;
    if (a->block != b->block)
        return a->block < b->block ? -1 : 1;
    if (a->disk != b->disk)
        return a->disk < b->disk ? -1 : 1;
    return a->line < b->line ? -1 : a->line > b->line;
}

const struct pair *question_pair(const struct question *q, uint32_t block, uint32_t disk)
{
    size_t from = 0, to = q->count;
    while (from < to) {
        size_t middle = from + (to - from) / 2;
        const struct pair *p = &q->pairs[middle];
        if (p->block == block && p->disk == disk)
            return p;
        if (p->block < block || (p->block == block && p->disk < disk))
            from = middle + 1;
        else
            to = middle;
    }
    return NULL;
}

uint32_t question_chosen(const struct question *q, uint32_t block)
{
    if (q->plan_line > 0)
        return q->plan.disk[block];
    for (uint32_t d = 0; d < q->table.count; d++) {
        const struct pair *p = question_pair(q, block, d);
        if (p != NULL && p->reason == CHOSEN)
            return d;
    }
    return RP_MOST_DISKS;
}

/* ---- what can not be ---- */

/* Whether a schedule can end at a time: some disk has then read a number of blocks. */
static bool is_an_end(const struct question *q, uint64_t time)
{
    for (uint32_t d = 0; d < q->table.count; d++) {
        const uint64_t start = start_of(&q->table, d), cost = q->table.rows[d].cost;
        if (time > start && (time - start) % cost == 0 && (time - start) / cost <= q->blocks.count)
            return true;
    }
    return false;
}

/*
 * Why a reason can not be true by request, settings and plan; null where nothing is against it. One schedule reads the
 * block from this disk and all others as the plan does: it ends at `moved`, or at R.
 */
static const char *against_plan(const struct question *q, const struct pair *p)
{
    const uint32_t chosen = q->plan.disk[p->block];
    const uint64_t moved = end_of(&q->table, p->disk, q->plan.counts[p->disk] + 1);
    if ((p->reason == CHOSEN) != (p->disk == chosen))
        return p->reason == CHOSEN ? "the plan reads the block from another disk" : "the plan reads the block there";
    if (p->reason == LATER && p->time <= q->plan.time)
        return "that is no later than the plan";
    if (p->reason == LATER && p->time > moved)
        return "the plan with this block read there is sooner";
    if ((p->reason == NOT_KEPT || p->reason == LOWER) && end_of(&q->table, p->disk, 1) > q->plan.time)
        return "the disk has not read one block by the plan's time";
    if (p->reason == NOT_KEPT && moved <= q->plan.time)
        return "the plan with this block read there is as soon";
    if (p->reason == LOWER && p->disk < chosen)
        return "the plan reads the block from a disk of a higher number";
    return NULL;
}

/* The same by request and settings, and by what was told of other disks where the plan is not known. */
static const char *against(const struct question *q, const struct pair *p)
{
    const uint32_t chosen = question_chosen(q, p->block);
    if ((p->reason == NO_COPY) == question_holds(q, p->block, p->disk))
        return p->reason == NO_COPY ? "the request has a copy there" : question_out(q, p->block, p->disk)
            ? "the disk is out" : "the request has no copy there";
    if (p->reason == NO_COPY)
        return NULL;
    if (p->reason == NOT_KEPT && p->block == 0)
        return "no block is before block 0";
    if (p->reason == LATER && p->time < end_of(&q->table, p->disk, 1))
        return "the disk has not read one block by then";
    if (p->reason == LATER && !is_an_end(q, p->time))
        return "no disk ends at that time";
    if (q->plan_line > 0)
        return against_plan(q, p);
    if (p->reason == CHOSEN && p->disk != chosen)
        return "another disk is the one chosen too";
    if (p->reason == LOWER && chosen < RP_MOST_DISKS && p->disk < chosen)
        return "the one chosen has a higher number";
    return NULL;
}

static const char OTHERS[] = "the lines are damaged, or answer other calls";

/* Whether each disk that holds a block was told, and none as the one chosen. */
static bool none_chosen(const struct question *q, uint32_t block)
{
    for (uint32_t d = 0; d < q->table.count; d++)
        if (question_holds(q, block, d) && question_pair(q, block, d) == NULL)
            return false;
    return question_chosen(q, block) == RP_MOST_DISKS;
}

/* Whether nothing is against any of the reasons; or says what is. */
static bool all_hold(const struct sheets *sheets, const struct question *q)
{
    for (size_t i = 0; i < q->count; i++) {
        const struct pair *p = &q->pairs[i];
        const char *why = against(q, p);
        if (why != NULL) {
            say("%s:%u: reason %u %u for block %u and disk %u can not be true: %s; %s", sheets->name, p->line,
                (unsigned)p->reason, (unsigned)p->time, (unsigned)p->block, (unsigned)p->disk, why, OTHERS);
            return false;
        }
        if (none_chosen(q, p->block)) {
            say("%s: every disk that holds block %u is told, and none as the one chosen; %s", sheets->name,
                (unsigned)p->block, OTHERS);
            return false;
        }
    }
    return true;
}

/* Sorts the reasons; of one that was told twice the first is kept, or it is said that the two differ. */
static bool sort(const struct sheets *sheets, struct question *q)
{
    size_t kept = 0;
    if (q->count > 0)
        qsort(q->pairs, q->count, sizeof q->pairs[0], by_place);
    for (size_t i = 0; i < q->count; i++) {
        const struct pair *p = &q->pairs[i], *last = kept > 0 ? &q->pairs[kept - 1] : NULL;
        if (last == NULL || last->block != p->block || last->disk != p->disk) {
            q->pairs[kept++] = *p;
        } else if (last->reason != p->reason || last->time != p->time) {
            say("%s:%u: reason %u %u for block %u and disk %u, and line %u has reason %u %u for them; %s", sheets->name,
                p->line, (unsigned)p->reason, (unsigned)p->time, (unsigned)p->block, (unsigned)p->disk, last->line,
                (unsigned)last->reason, (unsigned)last->time, OTHERS);
            return false;
        }
    }
    q->count = kept;
    return true;
}

/* ---- one request of several ---- */

/* Whether a call is about the request of a reason, under the same settings. */
static bool same_request(const struct why *why, const struct call *call, const struct call *settings)
{
    return call != NULL && settings != NULL && call_same_sheet(why->call, call)
        && call_same_sheet(why->settings, settings);
}

/* The first reason about the nth request, from 1; how many requests there are. */
static size_t find(const struct sheets *sheets, uint32_t unit, uint32_t tenancy, uint32_t nth, const struct why **first)
{
    size_t count = 0;
    for (size_t i = 0; i < sheets->why_count; i++) {
        const struct why *why = &sheets->whys[i];
        bool known = !contents_is_of(&why->call->sheet, REQUEST, unit, tenancy);
        for (size_t j = 0; j < i && !known; j++)
            known = same_request(&sheets->whys[j], why->call, why->settings);
        if (!known && ++count == nth)
            *first = why;
    }
    return count;
}

static const struct why *choose(const struct sheets *sheets, uint32_t unit, uint32_t tenancy, uint32_t nth)
{
    const struct why *first = NULL;
    size_t count = find(sheets, unit, tenancy, nth == 0 ? 1 : nth, &first);
    if (count == 0)
        say("%s: no reason in it is about a request of tenancy %u", sheets->name, (unsigned)tenancy);
    else if (nth == 0 && count > 1) {
        say("%s: reasons about %zu requests of unit %u and tenancy %u, or about one under several settings; choose one "
            "with --nth 1 to --nth %zu", sheets->name, count, (unsigned)unit, (unsigned)tenancy, count);
        return NULL;
    } else if (nth > count)
        say("%s: there is no request %u: it has reasons about %zu of unit %u and tenancy %u", sheets->name,
            (unsigned)nth, count, (unsigned)unit, (unsigned)tenancy);
    return first;
}

/* Takes the plan of the request, if it is among the lines: it has to be right by request and settings. */
static bool take_plan(const struct sheets *sheets, const struct why *first, struct question *q)
{
    struct reason least;
    const struct found *found = NULL;
    for (size_t i = 0; i < sheets->count && found == NULL; i++) {
        if (same_request(first, sheets->list[i].call, sheets->list[i].settings))
            found = &sheets->list[i];
        else if (sheets->list[i].call != NULL && call_same_sheet(first->call, sheets->list[i].call))
            q->planned_before = true;
    }
    if (found == NULL)
        return true;
    q->plan_line = found->line;
    if (!plan_read(sheets->name, found, q->unit, q->tenancy, &q->plan))
        return false;
    q->plan.calls = sheets->sent.name;
    q->plan.name = sheets->name;
    q->plan.line = found->line;
    return plan_fits(&q->plan, &q->table) && plan_holds(&q->plan, &q->blocks)
        && plan_reason(&q->plan, &q->blocks, &q->table, &least);
}

/* Takes what the calls ask about the request after the last line, under the same settings. */
static void take_unanswered(const struct sheets *sheets, const struct why *first, struct question *q)
{
    const struct call *settings = sheets->settings;
    for (size_t i = sheets->lines - sheets->stopped; i < sheets->sent.count; i++) {
        const struct call *call = &sheets->sent.list[i];
        if (call->kind == CALL_SETTINGS)
            settings = call;
        else if (call->kind == CALL_RENT || call->kind == CALL_RETURN)
            settings = NULL;
        else if (call->kind == CALL_WHY && call->block < q->blocks.count && call->disk < q->table.count
            && same_request(first, call, settings))
            q->unanswered[call->block] |= (uint64_t)1 << call->disk;
    }
}

/* Takes every reason about the request. */
static void take_pairs(const struct sheets *sheets, const struct why *first, struct question *q)
{
    struct bytes pairs = bytes_new();
    for (size_t i = 0; i < sheets->why_count; i++) {
        const struct why *w = &sheets->whys[i];
        const struct pair pair = { w->call->block, w->call->disk, w->reason, w->time, w->line };
        if (same_request(first, w->call, w->settings))
            bytes_add(&pairs, &pair, sizeof pair);
    }
    q->pairs = (struct pair *)(void *)pairs.at;
    q->count = pairs.len / sizeof(struct pair);
}

/* Whether the lines are the calls' and have a reason at all; or says what is wrong. */
static bool answered(const struct sheets *sheets, uint32_t unit)
{
    if (sheets->astray)
        return false;
    if (sheets->sent.unit != unit) {
        say("%s: these calls are to unit %u, not %u", sheets->sent.name, (unsigned)sheets->sent.unit, (unsigned)unit);
        return false;
    }
    if (sheets->lines > sheets->sent.count + sheets->stopped) {
        say("%s: %u lines of a shelf, and %zu calls in %s: other calls were sent", sheets->name, sheets->lines,
            sheets->sent.count, sheets->sent.name);
        return false;
    }
    if (sheets->lines < sheets->sent.count && !sheets->stopped)
        say("%s: %u lines of a shelf for the %zu calls of %s: it ended before the others", sheets->name, sheets->lines,
            sheets->sent.count, sheets->sent.name);
    if (sheets->why_count == 0)
        say("%s: there is no reason in it", sheets->name);
    return sheets->why_count > 0;
}

bool question_read(const struct sheets *sheets, uint32_t unit, uint32_t tenancy, uint32_t nth, struct question *q)
{
    const struct expected expected = { .unit = &unit, .tenancy = &tenancy, .disks = RP_MOST_DISKS };
    const struct why *first;
    memset(q, 0, sizeof *q);
    if (!answered(sheets, unit) || (first = choose(sheets, unit, tenancy, nth)) == NULL)
        return false;
    q->unit = unit;
    q->tenancy = tenancy;
    take_pairs(sheets, first, q);
    if (!contents_blocks(&first->call->sheet, sheets->sent.name, expected, &q->blocks)
        || !contents_table(&first->settings->sheet, sheets->sent.name, expected, &q->table))
        return false;
    if (q->blocks.kind == RP_AGED_REQUEST)
        table_age(&q->table, q->blocks.age);
    take_unanswered(sheets, first, q);
    return take_plan(sheets, first, q) && sort(sheets, q) && all_hold(sheets, q);
}

void question_free(struct question *q)
{
    table_free(&q->table);
    blocks_free(&q->blocks);
    free(q->pairs);
    q->pairs = NULL;
    q->count = 0;
}
