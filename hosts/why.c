#include "why.h"

bool choice_has(const struct choice *choice, const struct pair *pair)
{
    return (!choice->of_block || pair->block == choice->block) && (!choice->of_disk || pair->disk == choice->disk);
}

uint64_t in_by(const struct question *q, const struct pair *pair)
{
    return pair->reason == LATER ? pair->time : q->plan.time;
}

static const char *plural(uint64_t count)
{
    return count == 1 ? "" : "s";
}

void add_why(struct bytes *text, const struct question *q, const struct pair *pair)
{
    const uint32_t chosen = question_chosen(q, pair->block);
    switch (pair->reason) {
    case NO_COPY:
        bytes_addf(text, question_out(q, pair->block, pair->disk) ? "the disk is out" : "it holds no copy");
        break;
    case LATER:
        bytes_addf(text, "it holds a copy, but read there the last block would be in after %s microsecond%s",
            grouped(pair->time).text, plural(pair->time));
        if (q->plan_line > 0)
            bytes_addf(text, ", not %s", grouped(q->plan.time).text);
        else
            bytes_addf(text, ", which is later than the plan");
        break;
    case NOT_KEPT:
        bytes_addf(text, "it holds a copy, and read there the last block could be in as soon, but not with the earlier "
            "blocks where the plan reads them");
        break;
    case LOWER:
        bytes_addf(text, "it would do as well, with the earlier blocks where the plan reads them, but ");
        if (chosen < RP_MOST_DISKS)
            bytes_addf(text, "so would disk %u, which has the lower number", (unsigned)chosen);
        else
            bytes_addf(text, "so would a disk of a lower number");
        break;
    default:
        bytes_addf(text, "it is the one chosen");
    }
}

/* ---- tables ---- */

/* The same for a column beside the time. */
static void add_short(struct bytes *text, const struct question *q, const struct pair *pair)
{
    const uint32_t chosen = question_chosen(q, pair->block);
    if (pair->reason == NO_COPY)
        bytes_addf(text, question_out(q, pair->block, pair->disk) ? "out" : "no copy");
    else if (pair->reason == LATER && q->plan_line > 0)
        bytes_addf(text, "later, by %s", grouped(pair->time - q->plan.time).text);
    else if (pair->reason == LATER)
        bytes_addf(text, "later");
    else if (pair->reason == NOT_KEPT)
        bytes_addf(text, "as soon, but not with the earlier blocks where they are");
    else if (pair->reason == LOWER && chosen < RP_MOST_DISKS)
        bytes_addf(text, "as soon, but so is disk %u, a lower number", (unsigned)chosen);
    else if (pair->reason == LOWER)
        bytes_addf(text, "as soon, but so is a lower number");
    else
        bytes_addf(text, "chosen");
}

/* The columns that every table has: when the last block is in, the reason's number, and the reason. */
static void add_columns(struct bytes *text, const struct question *q, const struct pair *pair)
{
    const bool known = pair->reason != NO_COPY && (q->plan_line > 0 || pair->reason == LATER);
    bytes_addf(text, "  %13s  %6u  ", pair->reason == NO_COPY ? "-" : known ? grouped(in_by(q, pair)).text : "R",
        (unsigned)pair->reason);
    add_short(text, q, pair);
    bytes_addf(text, "\n");
}

static const char COLUMNS[] = "  last block in  reason\n";

/* What is said above a table. */
static void add_title(struct bytes *text, const struct question *q)
{
    bytes_addf(text, "unit %u, tenancy %u: ", (unsigned)q->unit, (unsigned)q->tenancy);
    if (q->plan_line > 0)
        bytes_addf(text, "%zu block%s, R = %s microsecond%s\n", q->blocks.count, plural(q->blocks.count),
            grouped(q->plan.time).text, plural(q->plan.time));
    else
        bytes_addf(text, "%zu block%s; no plan of this request under these settings, so R is not known\n",
            q->blocks.count, plural(q->blocks.count));
    add_remarks(text, &q->table);
}

/* Whether two neighbours on a disk have one line in its table. */
static bool are_alike(const struct question *q, const struct pair *a, const struct pair *b)
{
    return b != NULL && b->block == a->block + 1 && a->reason == b->reason && a->time == b->time
        && question_out(q, a->block, a->disk) == question_out(q, b->block, b->disk)
        && (a->reason != LOWER || question_chosen(q, a->block) == question_chosen(q, b->block));
}

/* The blocks with a copy on the disk that have no line: of those that were asked about, or of the others. */
static void add_blocks(struct bytes *text, const struct choice *choice, bool asked)
{
    const struct question *q = choice->question;
    struct bytes open = bytes_new();
    uint32_t count = 0;
    for (uint32_t b = 0; b < q->blocks.count; b++)
        if (question_pair(q, b, choice->disk) == NULL && question_holds(q, b, choice->disk)
            && question_unanswered(q, b, choice->disk) == asked) {
            bytes_addf(&open, " %u", (unsigned)b);
            count++;
        }
    if (count > 0)
        bytes_addf(text, "%s: block%s%s\n", asked ? "no answer" : "not asked", plural(count), bytes_text(&open));
    bytes_free(&open);
}

/* One disk: a line for each run of blocks that have a copy there, or that were asked about. */
static void show_disk(const struct choice *choice, struct bytes *text)
{
    const struct question *q = choice->question;
    uint32_t none = 0;
    bytes_addf(text, "disk %u\n\nblocks    %s", (unsigned)choice->disk, COLUMNS);
    for (uint32_t b = 0; b < q->blocks.count; b++) {
        const struct pair *pair = question_pair(q, b, choice->disk), *next;
        uint32_t first = b;
        none += !question_holds(q, b, choice->disk);
        if (pair == NULL)
            continue;
        while (b + 1 < q->blocks.count && are_alike(q, pair, next = question_pair(q, b + 1, choice->disk))) {
            pair = next;
            b++;
            none += !question_holds(q, b, choice->disk);
        }
        bytes_addf(text, "%-10s", range(first, b).text);
        add_columns(text, q, pair);
    }
    if (!q->table.rows[choice->disk].out)
        bytes_addf(text, "%u of the %zu block%s %s a copy there\n", (unsigned)(q->blocks.count - none), q->blocks.count,
            plural(q->blocks.count), q->blocks.count - none == 1 ? "has" : "have");
    add_blocks(text, choice, true);
    add_blocks(text, choice, false);
}

/* The disks that have no line, and why. */
static void add_others(struct bytes *text, const char *why, uint64_t disks)
{
    if (disks == 0)
        return;
    bytes_addf(text, "%s: disk%s", why, (disks & (disks - 1)) == 0 ? "" : "s");
    add_disks(text, disks);
    bytes_addf(text, "\n");
}

/* One block: a line for each disk that holds it, or that was asked about. */
static void show_block(const struct choice *choice, struct bytes *text)
{
    const struct question *q = choice->question;
    uint64_t none = 0, out = 0, open = 0, unanswered = 0;
    bytes_addf(text, "block %u", (unsigned)choice->block);
    if (q->plan_line > 0)
        bytes_addf(text, ", which the plan reads from disk %u", q->plan.disk[choice->block]);
    bytes_addf(text, "\n\ndisk%s", COLUMNS);
    for (uint32_t d = 0; d < q->table.count; d++) {
        const struct pair *pair = question_pair(q, choice->block, d);
        if (pair != NULL) {
            bytes_addf(text, "%4u", (unsigned)d);
            add_columns(text, q, pair);
        } else if (question_out(q, choice->block, d)) {
            out |= (uint64_t)1 << d;
        } else if (!question_holds(q, choice->block, d)) {
            none |= (uint64_t)1 << d;
        } else if (question_unanswered(q, choice->block, d)) {
            unanswered |= (uint64_t)1 << d;
        } else {
            open |= (uint64_t)1 << d;
        }
    }
    add_others(text, "out", out);
    add_others(text, "no copy", none);
    add_others(text, "no answer", unanswered);
    add_others(text, "not asked", open);
}

/* All that was asked. */
static void show_all(const struct question *q, struct bytes *text)
{
    bytes_addf(text, "\nblock  disk%s", COLUMNS);
    for (size_t i = 0; i < q->count; i++) {
        bytes_addf(text, "%5u  %4u", (unsigned)q->pairs[i].block, (unsigned)q->pairs[i].disk);
        add_columns(text, q, &q->pairs[i]);
    }
}

/* One block and one disk, or the one pair that was asked: a sentence. */
static void show_pair(const struct question *q, const struct pair *pair, struct bytes *text)
{
    bytes_addf(text, "block %u, disk %u: ", (unsigned)pair->block, (unsigned)pair->disk);
    add_why(text, q, pair);
    bytes_addf(text, "\n");
}

void why_show(const struct choice *choice, struct bytes *text)
{
    const struct question *q = choice->question;
    if (choice->of_block && choice->of_disk) {
        show_pair(q, question_pair(q, choice->block, choice->disk), text);
        return;
    }
    if (!choice->of_block && !choice->of_disk && q->count == 1) {
        show_pair(q, &q->pairs[0], text);
        return;
    }
    add_title(text, q);
    if (choice->of_block)
        show_block(choice, text);
    else if (choice->of_disk)
        show_disk(choice, text);
    else
        show_all(q, text);
}

/* ---- JSON ---- */

void why_json(const struct choice *choice, struct bytes *text)
{
    const struct question *q = choice->question;
    const char *comma = "";
    bytes_addf(text, "{\"unit\":%u,\"tenancy\":%u,\"blocks\":%zu,\"disks\":%zu", (unsigned)q->unit,
        (unsigned)q->tenancy, q->blocks.count, q->table.count);
    if (q->plan_line > 0)
        bytes_addf(text, ",\"time\":%u", (unsigned)q->plan.time);
    if (q->table.aged)
        bytes_addf(text, ",\"age\":%u", (unsigned)q->table.age);
    if (q->table.start != SUM)
        bytes_addf(text, ",\"start_rule\":\"%s\"", start_name(q->table.start));
    if (q->table.marked) {
        bytes_addf(text, ",\"out\":[");
        for (uint32_t d = 0; d < q->table.count; d++) {
            if (q->table.rows[d].out)
                bytes_addf(text, "%s%u", comma, (unsigned)d);
            comma = q->table.rows[d].out ? "," : comma;
        }
        bytes_addf(text, "]");
        comma = "";
    }
    bytes_addf(text, ",\"held\":%s,\"reasons\":[", q->plan_line > 0 ? "true" : "false");
    for (size_t i = 0; i < q->count; i++) {
        const struct pair *pair = &q->pairs[i];
        const uint32_t chosen = question_chosen(q, pair->block);
        if (!choice_has(choice, pair))
            continue;
        bytes_addf(text, "%s{\"block\":%u,\"disk\":%u,\"reason\":%u", comma, (unsigned)pair->block,
            (unsigned)pair->disk, (unsigned)pair->reason);
        if (pair->reason == LATER)
            bytes_addf(text, ",\"time\":%u", (unsigned)pair->time);
        if (chosen < RP_MOST_DISKS)
            bytes_addf(text, ",\"chosen\":%u", (unsigned)chosen);
        bytes_addf(text, "}");
        comma = ",";
    }
    bytes_addf(text, "]}\n");
}
