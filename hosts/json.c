/* A plan as one line of JSON. */
#include "plan.h"

/* A comma before every item but the first of a list, which ends in a bracket so far. */
static void next_item(struct bytes *text)
{
    uint8_t last = text->at[text->len - 1];
    if (last != '[' && last != '{')
        bytes_addf(text, ",");
}

static void add_number(struct bytes *text, uint64_t value)
{
    next_item(text);
    bytes_addf(text, "%s", plain(value).text);
}

static void add_named(struct bytes *text, const char *name, uint64_t value)
{
    next_item(text);
    bytes_addf(text, "\"%s\":%s", name, plain(value).text);
}

/* One disk that is read from: its blocks, and with a table when it starts and ends. */
static void add_disk(const struct view *view, uint32_t disk, struct bytes *text)
{
    const struct plan *plan = view->plan;
    next_item(text);
    bytes_addf(text, "{\"disk\":%u", (unsigned)disk);
    if (view->table != NULL) {
        add_named(text, "start", start_of(view->table, disk));
        add_named(text, "end", end_of(view->table, disk, plan->counts[disk]));
    }
    bytes_addf(text, ",\"blocks\":[");
    for (uint32_t b = next_on(plan, disk, 0); b < plan->blocks; b = next_on(plan, disk, b + 1))
        add_number(text, b);
    bytes_addf(text, "]}");
}

static void add_reason(const struct view *view, struct bytes *text)
{
    const struct reason *reason = view->reason;
    bytes_addf(text, ",\"reason\":{");
    add_named(text, "by", view->plan->blocks == 0 ? 0 : view->plan->time - 1);
    add_named(text, "blocks", view->plan->short_size);
    add_named(text, "room", reason->sum);
    bytes_addf(text, ",\"disks\":[");
    for (uint32_t d = 0; d < RP_MOST_DISKS; d++) {
        if (!(reason->disks >> d & 1))
            continue;
        next_item(text);
        bytes_addf(text, "{\"disk\":%u,\"room\":%s}", (unsigned)d, plain(reason->room[d]).text);
    }
    bytes_addf(text, "]}");
}

void plan_json(const struct view *view, struct bytes *text)
{
    const struct plan *plan = view->plan;
    bytes_addf(text, "{");
    add_named(text, "unit", plan->unit);
    add_named(text, "tenancy", plan->tenancy);
    add_named(text, "blocks", plan->blocks);
    add_named(text, "time", plan->time);
    if (view->table != NULL && view->table->aged)
        add_named(text, "age", view->table->age);
    if (view->table != NULL)
        bytes_addf(text, ",\"start_rule\":\"%s\"", start_name(view->table->start));
    if (view->table != NULL && view->table->marked) {
        bytes_addf(text, ",\"out\":[");
        for (uint32_t d = 0; d < view->table->count; d++)
            if (view->table->rows[d].out)
                add_number(text, d);
        bytes_addf(text, "]");
    }
    bytes_addf(text, ",\"disk_of_block\":[");
    for (uint32_t b = 0; b < plan->blocks; b++)
        add_number(text, plan->disk[b]);
    bytes_addf(text, "],\"short_set\":[");
    for (uint32_t b = 0; b < plan->blocks; b++)
        if (plan->is_short[b])
            add_number(text, b);
    bytes_addf(text, "],\"disks\":[");
    for (uint32_t d = 0; d < RP_MOST_DISKS; d++)
        if (plan->counts[d] > 0)
            add_disk(view, d, text);
    bytes_addf(text, "]");
    if (view->reason != NULL)
        add_reason(view, text);
    bytes_addf(text, "}\n");
}
