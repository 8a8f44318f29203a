#include "plan.h"

#include <stdio.h>
#include <string.h>

#include "contents.h"
#include "faults.h"
#include "remedy.h"
#include "say.h"

/* Says what stands at the place where the library refused the sheet. */
static void say_place(const char *name, const struct found *found, uint32_t unit, uint32_t tenancy, uint64_t answer)
{
    static struct contents contents;
    const struct expected expected = { .unit = &unit, .tenancy = &tenancy, .disks = RP_MOST_DISKS, .sort = PLAN };
    struct bytes whose = bytes_new();
    bytes_addf(&whose, "%s", name);
    if (found->line > 0)
        bytes_addf(&whose, ":%u", found->line);
    contents_read(&found->sheet, &expected, &contents, NULL);
    if (contents_agree(&contents, answer))
        contents_say(&contents, bytes_text(&whose), remedy_here(rp_refusal(answer), PLAN));
    else
        say_refused_at(rp_refusal(answer), rp_place(answer), SAYS_OTHERWISE, bytes_text(&whose),
            remedy_here(rp_refusal(answer), PLAN));
    bytes_free(&whose);
}

bool plan_read(const char *name, const struct found *found, uint32_t unit, uint32_t tenancy, struct plan *plan)
{
    uint8_t short_set[2 * RP_MOST_BLOCKS];
    uint64_t answer;
    memset(plan, 0, sizeof *plan);
    answer = rp_read_plan(unit, tenancy, found->sheet.at, found->sheet.len, plan->disk, sizeof plan->disk,
        short_set, sizeof short_set);
    if (rp_refusal(answer) != RP_ACCEPTED) {
        say_place(name, found, unit, tenancy, answer);
        return false;
    }
    plan->unit = unit;
    plan->tenancy = tenancy;
    plan->blocks = rp_blocks(answer);
    plan->time = rp_time(answer);
    plan->short_size = rp_short_size(answer);
    for (uint32_t i = 0; i < plan->short_size; i++)
        plan->is_short[rp_get16(short_set, i)] = true;
    for (uint32_t b = 0; b < plan->blocks; b++)
        plan->counts[plan->disk[b]]++;
    return true;
}

uint64_t start_of(const struct table *table, uint32_t disk)
{
    const struct row *row = &table->rows[disk];
    if (table->start == LARGER)
        return row->delay > row->load ? row->delay : row->load;
    return (uint64_t)row->delay + row->load;
}

uint64_t end_of(const struct table *table, uint32_t disk, uint32_t blocks)
{
    return blocks == 0 ? 0 : start_of(table, disk) + (uint64_t)blocks * table->rows[disk].cost;
}

/* When the last disk has read its blocks; all are the table's. */
static uint64_t latest_end(const struct plan *plan, const struct table *table)
{
    uint64_t latest = 0;
    for (uint32_t d = 0; d < table->count; d++) {
        uint64_t end = end_of(table, d, plan->counts[d]);
        latest = end > latest ? end : latest;
    }
    return latest;
}

static const char OTHER_TABLE[] = "it is another unit's table, or an older one, or the plan is damaged";
static const char OTHER_LIST[] = "it is another request's plan, or it is damaged";
static const char OTHER_CALLS[] = "the line is damaged, or answers other calls";

/* Adds a fault: of the table or list that the plan is held against or, with calls, of the line where the plan stands. */
static void add_fault(struct faults *faults, const struct plan *plan, const char *name, struct bytes *fault,
    const char *other)
{
    if (plan->calls == NULL)
        faults_add(faults, "%s: %s; %s", name, bytes_text(fault), other);
    else
        faults_add(faults, "%s:%u: %s; %s", plan->name, plan->line, bytes_text(fault), OTHER_CALLS);
    fault->len = 0;
}

/* Adds what a plan is held against: the table or list by its own words, or what the calls have of it. */
static void add_held(struct bytes *text, const struct plan *plan, const char *own, const char *sent)
{
    bytes_addf(text, "%s%s", plan->calls == NULL ? own : sent, plan->calls == NULL ? "" : plan->calls);
}

/* Says the faults; whether there are none. */
static bool none_said(struct faults *faults, struct bytes *fault)
{
    const bool good = faults->count == 0;
    faults_say(faults);
    faults_free(faults);
    bytes_free(fault);
    return good;
}

/* Adds when a plan ends by a table that is not its own. */
static void add_end(struct bytes *text, const struct plan *plan, const struct table *table)
{
    bytes_addf(text, " it ends at %s", grouped(latest_end(plan, table)).text);
    if (table->start == LARGER)
        bytes_addf(text, ", with each start the larger of delay and load");
    if (table->aged)
        bytes_addf(text, ", with the loads at an age of %s", grouped(table->age).text);
}

/* Adds what may be the matter with a plan that ends at another time by a table; among it is what nothing tells. */
static void add_causes(struct bytes *text, const struct table *table)
{
    bytes_addf(text, "it is another unit's table, or an older one%s%s, or the plan is damaged",
        table->start_told ? "" : ", or its disks start at the larger (--start larger)",
        table->aged ? ", or the request has another age" : table->age_told ? "" : ", or the request has an age (--age)");
}

bool plan_fits(const struct plan *plan, const struct table *table)
{
    struct faults faults = faults_new();
    struct bytes fault = bytes_new(), causes = bytes_new();
    for (uint32_t d = 0; d < RP_MOST_DISKS && faults.count == 0; d++) {
        if (plan->counts[d] == 0 || (d < table->count && !table->rows[d].out))
            continue;
        bytes_addf(&fault, "the plan reads from disk %u, and by ", (unsigned)d);
        add_held(&fault, plan, "this table", "the settings in ");
        if (d < table->count)
            bytes_addf(&fault, " it is out");
        else
            bytes_addf(&fault, " the last is disk %zu", table->count - 1);
        add_fault(&faults, plan, table->name, &fault, OTHER_TABLE);
    }
    if (faults.count == 0 && latest_end(plan, table) != plan->time) {
        bytes_addf(&fault, "the plan's time is %s, and by ", grouped(plan->time).text);
        add_held(&fault, plan, "this table", "the settings in ");
        add_end(&fault, plan, table);
        add_causes(&causes, table);
        add_fault(&faults, plan, table->name, &fault, bytes_text(&causes));
    }
    bytes_free(&causes);
    return none_said(&faults, &fault);
}

bool plan_holds(const struct plan *plan, const struct blocks *blocks)
{
    struct faults faults = faults_new();
    struct bytes fault = bytes_new();
    if (blocks->count != plan->blocks) {
        bytes_addf(&fault, "the plan has %u blocks, and ", (unsigned)plan->blocks);
        add_held(&fault, plan, "this request", "the request in ");
        bytes_addf(&fault, " %zu", blocks->count);
        add_fault(&faults, plan, blocks->name, &fault, OTHER_LIST);
    }
    for (uint32_t b = 0; b < plan->blocks && blocks->count == plan->blocks; b++) {
        if (blocks->list[b].copies >> plan->disk[b] & 1)
            continue;
        bytes_addf(&fault, "block %u is read from disk %u, and ", (unsigned)b, plan->disk[b]);
        add_held(&fault, plan, "", "by the request in ");
        bytes_addf(&fault, "%sit is on", plan->calls == NULL ? "" : " ");
        add_disks(&fault, blocks->list[b].copies);
        add_fault(&faults, plan, blocks->name, &fault, OTHER_LIST);
    }
    return none_said(&faults, &fault);
}

/* How many blocks a disk can have read by a time. */
static uint64_t room_of(const struct table *table, uint32_t disk, uint64_t time)
{
    const uint64_t start = start_of(table, disk);
    return time < start ? 0 : (time - start) / table->rows[disk].cost;
}

bool plan_reason(const struct plan *plan, const struct blocks *blocks, const struct table *table,
    struct reason *reason)
{
    struct bytes fault;
    *reason = (struct reason){ 0, { 0 }, 0 };
    for (uint32_t b = 0; b < plan->blocks; b++)
        if (plan->is_short[b])
            reason->disks |= blocks->list[b].copies & ~table_out(table);
    for (uint32_t d = 0; d < table->count; d++) {
        if (reason->disks >> d & 1)
            reason->room[d] = room_of(table, d, plan->time - 1);
        reason->sum += reason->room[d];
    }
    if (plan->blocks == 0 || reason->sum < plan->short_size)
        return true;
    fault = bytes_new();
    bytes_addf(&fault, "the short set is not short, so R may not be least: by %s the disks that hold its %u block%s have "
        "room for %s", grouped(plan->time - 1).text, (unsigned)plan->short_size, plan->short_size == 1 ? "" : "s",
        grouped(reason->sum).text);
    if (plan->calls == NULL)
        say("%s (%s, %s); it is another request's plan%s%s%s, or it is damaged", bytes_text(&fault), table->name, blocks->name,
            table->start == LARGER && !table->start_sure ? ", or its disks start otherwise (--start)" : "",
            table->aged ? ", or the request has another age" : "",
            table->kind == 0 && !table->marked ? ", or a disk was out that this table has in use" : "");
    else
        say("%s:%u: %s, by the settings in %s; %s", plan->name, plan->line, bytes_text(&fault), plan->calls, OTHER_CALLS);
    bytes_free(&fault);
    return false;
}

uint32_t next_on(const struct plan *plan, uint32_t disk, uint32_t from)
{
    while (from < plan->blocks && plan->disk[from] != disk)
        from++;
    return from;
}

uint32_t run_end(const struct plan *plan, uint32_t first)
{
    uint32_t last = first;
    while (last + 1 < plan->blocks && plan->disk[last + 1] == plan->disk[first]
        && plan->is_short[last + 1] == plan->is_short[first])
        last++;
    return last;
}

struct digits range(uint32_t first, uint32_t last)
{
    struct digits word;
    if (first == last)
        return plain(first);
    snprintf(word.text, sizeof word.text, "%u-%u", (unsigned)first, (unsigned)last);
    return word;
}

void add_remarks(struct bytes *text, const struct table *table)
{
    const uint64_t out = table_out(table);
    if (out != 0) {
        bytes_addf(text, "disk%s", (out & (out - 1)) == 0 ? "" : "s");
        add_disks(text, out);
        bytes_addf(text, (out & (out - 1)) == 0 ? " is out: no block is read from it\n"
            : " are out: no block is read from them\n");
    }
    if (table->start == LARGER)
        bytes_addf(text, "each disk starts at the larger of its delay and its load\n");
    if (table->aged)
        bytes_addf(text, "loads are what is left of them at an age of %s microsecond%s\n", grouped(table->age).text,
            table->age == 1 ? "" : "s");
}

void add_short_set(struct bytes *text, const struct plan *plan)
{
    for (uint32_t b = 0; b < plan->blocks; b++) {
        uint32_t last = b;
        if (!plan->is_short[b])
            continue;
        while (last + 1 < plan->blocks && plan->is_short[last + 1])
            last++;
        bytes_addf(text, " %s", range(b, last).text);
        b = last;
    }
}

void plan_line(const struct plan *plan, struct bytes *text)
{
    bytes_addf(text, "plan %u %u %u %u |", (unsigned)plan->unit, (unsigned)plan->tenancy, (unsigned)plan->blocks,
        (unsigned)plan->time);
    for (uint32_t b = 0; b < plan->blocks; b++)
        bytes_addf(text, " %u", plan->disk[b]);
    bytes_addf(text, " |");
    for (uint32_t b = 0; b < plan->blocks; b++)
        if (plan->is_short[b])
            bytes_addf(text, " %u", (unsigned)b);
    bytes_addf(text, "\n");
}
