/* A plan as text. */
#include <stdarg.h>
#include <stdio.h>
#include <string.h>

#include "plan.h"

enum { BAR = 24, LEAST_LINE = 20, MOST_LINE = 400, BESIDE_LINE = 36, IN_BRACKETS = 3 };

/* Adds a word to a list that goes on below its first line at column `indent`. */
static void add_word(const struct view *view, struct bytes *text, size_t *line_start, size_t indent, const char *word)
{
    if (text->len - *line_start + 1 + strlen(word) > view->width && text->len - *line_start > indent) {
        bytes_addf(text, "\n");
        *line_start = text->len;
        bytes_addf(text, "%*s", (int)indent, "");
    }
    bytes_addf(text, " %s", word);
}

/* Adds a sentence, which goes on below its first line where that is full. */
#if defined(__GNUC__)
__attribute__((format(printf, 3, 4)))
#endif
static void add_sentence(const struct view *view, struct bytes *text, const char *form, ...)
{
    char sentence[256];
    size_t start = text->len;
    va_list values;
    va_start(values, form);
    vsnprintf(sentence, sizeof sentence, form, values);
    va_end(values);
    for (char *word = strtok(sentence, " "); word != NULL; word = strtok(NULL, " ")) {
        if (text->len == start)
            bytes_addf(text, "%s", word);
        else
            add_word(view, text, &start, 1, word);
    }
    bytes_addf(text, "\n");
}

/* A run of blocks as a word, marked if they are of the short set. */
static struct digits run_word(const struct plan *plan, uint32_t first, uint32_t last)
{
    struct digits word = range(first, last);
    if (plan->is_short[first])
        strcat(word.text, "*");
    return word;
}

static uint32_t most_on_a_disk(const struct plan *plan)
{
    uint32_t most = 0;
    for (uint32_t d = 0; d < RP_MOST_DISKS; d++)
        most = plan->counts[d] > most ? plan->counts[d] : most;
    return most;
}

/* How long a disk's bar is: a mark a block where that fits, else in proportion, and never none. */
static uint32_t bar_of(uint32_t count, uint32_t most)
{
    if (most <= BAR)
        return count;
    return (count * BAR + most - 1) / most;
}

/* One disk: how many blocks, a bar, and which. */
static void show_disk(const struct view *view, uint32_t disk, uint32_t most, struct bytes *text)
{
    const struct plan *plan = view->plan;
    size_t start = text->len, indent;
    uint32_t bar = bar_of(plan->counts[disk], most);
    uint32_t width = most < BAR ? most : BAR;
    bytes_addf(text, "%4u  %6u  ", (unsigned)disk, (unsigned)plan->counts[disk]);
    for (uint32_t i = 0; i < width; i++)
        bytes_addf(text, "%s", i < bar ? "#" : " ");
    bytes_addf(text, " ");
    indent = text->len - start;
    for (uint32_t b = next_on(plan, disk, 0); b < plan->blocks; b = next_on(plan, disk, b + 1)) {
        uint32_t last = run_end(plan, b);
        add_word(view, text, &start, indent, run_word(plan, b, last).text);
        b = last;
    }
    bytes_addf(text, "\n");
}

/* The disks that hold a block, those that are out apart. */
static void show_copies(struct bytes *text, uint64_t copies, uint64_t out)
{
    bytes_addf(text, " ");
    add_disks(text, copies & ~out);
    if (copies & out) {
        bytes_addf(text, ", out:");
        add_disks(text, copies & out);
    }
}

/* Each run of blocks: its disk and, with a request, the disks that hold it. */
static void show_blocks(const struct view *view, struct bytes *text)
{
    const struct plan *plan = view->plan;
    uint32_t last;
    bytes_addf(text, "\nblocks      disk%s\n", view->blocks == NULL ? "" : "  of");
    for (uint32_t b = 0; b < plan->blocks; b = last + 1) {
        last = run_end(plan, b);
        for (uint32_t i = b + 1; view->blocks != NULL && i <= last; i++)
            if (view->blocks->list[i].copies != view->blocks->list[b].copies)
                last = i - 1;
        bytes_addf(text, "%-10s  %4u", run_word(plan, b, last).text, plan->disk[b]);
        if (view->blocks != NULL)
            show_copies(text, view->blocks->list[b].copies, view->table == NULL ? 0 : table_out(view->table));
        bytes_addf(text, "\n");
    }
}

/* Marks the columns from one to another for a block; one of the short set is never covered. */
static void mark(char *line, size_t from, size_t to, bool is_short)
{
    for (size_t i = from; i < to; i++)
        if (is_short || line[i] != '#')
            line[i] = is_short ? '#' : '=';
}

/* Puts a block's number in brackets between two columns. */
static void bracket(char *line, size_t from, size_t to, uint32_t block)
{
    struct digits word = plain(block);
    size_t len = strlen(word.text);
    line[from] = '[';
    line[to - 1] = ']';
    if (to - from >= len + 2)
        memcpy(line + from + 1, word.text, len);
}

/*
 * What a disk waits for before its first block: delay and load after each other or, where they overlap, from 0 both, so
 * that first they are at once and then one of them is alone.
 */
static void draw_wait(const struct table *table, uint32_t disk, uint64_t time, char *line, size_t width)
{
    const struct row *row = &table->rows[disk];
    const uint32_t both = row->delay < row->load ? row->delay : row->load;
    memset(line, '.', start_of(table, disk) * width / time);
    if (table->start == LARGER) {
        memset(line, row->delay > row->load ? '-' : '.', start_of(table, disk) * width / time);
        memset(line, ':', both * width / time);
    }
}

/* One disk from 0 to R. A block that is narrower than a column has one all the same. */
static void draw_line(const struct plan *plan, const struct table *table, uint32_t disk, char *line, size_t width)
{
    const struct row *row = &table->rows[disk];
    uint64_t at = start_of(table, disk);
    bool brackets = plan->time > 0 && row->cost * width / plan->time >= IN_BRACKETS;
    memset(line, ' ', width);
    line[width] = '\0';
    if (plan->counts[disk] == 0)
        return;
    draw_wait(table, disk, plan->time, line, width);
    for (uint32_t b = next_on(plan, disk, 0); b < plan->blocks; b = next_on(plan, disk, b + 1)) {
        size_t from = at * width / plan->time, to = (at + row->cost) * width / plan->time;
        if (to == from)
            from = from < width ? from : width - 1, to = from + 1;
        mark(line, from, to, plan->is_short[b]);
        if (brackets)
            bracket(line, from, to, b);
        at += row->cost;
    }
}

/* Whether nothing tells how disks start, and it is not the same for all in use. */
static bool start_is_open(const struct table *table)
{
    for (size_t d = 0; d < table->count && !table->start_told; d++)
        if (!table->rows[d].out && table->rows[d].load > 0 && table->rows[d].delay > 0)
            return true;
    return false;
}

/* What the marks of the timeline are, and what else there is to know of the disks. */
static void show_marks(const struct view *view, struct bytes *text)
{
    const char *left = view->table->aged ? " left" : "";
    struct bytes remarks = bytes_new();
    if (view->table->start == LARGER)
        add_sentence(view, text, "times in microseconds; : delay and load%s at once, - delay alone, . load%s alone, "
            "= a block, # a block of the short set", left, left);
    else
        add_sentence(view, text, "times in microseconds; . delay and load%s, = a block, # a block of the short set",
            left);
    if (start_is_open(view->table))
        add_sentence(view, text, "starts taken as the sum of delay and load (--start, or --calls, tells)");
    add_remarks(&remarks, view->table);
    for (char *one = bytes_text(&remarks), *end; *one != '\0'; one = end + 1) {
        end = strchr(one, '\n');
        add_sentence(view, text, "%.*s", (int)(end - one), one);
    }
    bytes_free(&remarks);
}

static void show_timeline(const struct view *view, struct bytes *text)
{
    const struct plan *plan = view->plan;
    size_t width = view->width < BESIDE_LINE + LEAST_LINE ? LEAST_LINE : view->width - BESIDE_LINE;
    char line[MOST_LINE + 1];
    width = width > MOST_LINE ? MOST_LINE : width;
    bytes_addf(text, "\ndisk        start          end  0%*s\n", (int)width, "R");
    for (uint32_t d = 0; d < view->table->count; d++) {
        draw_line(plan, view->table, d, line, width);
        bytes_addf(text, "%4u  %11s  %11s  |%s|\n", (unsigned)d, view->table->rows[d].out ? "out"
            : plan->counts[d] == 0 ? "idle" : grouped(start_of(view->table, d)).text,
            view->table->rows[d].out ? "-" : grouped(end_of(view->table, d, plan->counts[d])).text, line);
    }
    show_marks(view, text);
}

static void show_short_set(const struct view *view, struct bytes *text)
{
    const struct plan *plan = view->plan;
    struct bytes set = bytes_new();
    char *word;
    size_t start;
    if (plan->blocks == 0) {
        bytes_addf(text, "\nshort set: none\n");
        bytes_free(&set);
        return;
    }
    bytes_addf(text, "\n");
    add_sentence(view, text, "short set: %u of %u block%s (marked * above), which no schedule reads by %s "
        "microseconds", (unsigned)plan->short_size, (unsigned)plan->blocks, plan->blocks == 1 ? "" : "s",
        grouped(plan->time - 1).text);
    start = text->len;
    bytes_addf(text, " ");
    add_short_set(&set, plan);
    for (word = strtok(bytes_text(&set), " "); word != NULL; word = strtok(NULL, " "))
        add_word(view, text, &start, 1, word);
    bytes_addf(text, "\n");
    bytes_free(&set);
}

/* The disks that hold the short set, and their room before R. */
static void show_reason(const struct view *view, struct bytes *text)
{
    const struct plan *plan = view->plan;
    bytes_addf(text, "\n");
    add_sentence(view, text, "why R is least: by %s the disks that hold blocks of the short set have room for %s of "
        "its %u", grouped(plan->time - 1).text, grouped(view->reason->sum).text, (unsigned)plan->short_size);
    bytes_addf(text, "disk        start      a block         room\n");
    for (uint32_t d = 0; d < view->table->count; d++)
        if (view->reason->disks >> d & 1)
            bytes_addf(text, "%4u  %11s  %11s  %11s\n", (unsigned)d, grouped(start_of(view->table, d)).text,
                grouped(view->table->rows[d].cost).text, grouped(view->reason->room[d]).text);
    bytes_addf(text, " sum  %11s  %11s  %11s\n", "", "", grouped(view->reason->sum).text);
}

void plan_show(const struct view *view, struct bytes *text)
{
    const struct plan *plan = view->plan;
    uint32_t most = most_on_a_disk(plan);
    bytes_addf(text, "unit %u, tenancy %u: %u block%s\n", (unsigned)plan->unit, (unsigned)plan->tenancy,
        (unsigned)plan->blocks, plan->blocks == 1 ? "" : "s");
    bytes_addf(text, "R = %s microseconds = %u.%06u seconds\n", grouped(plan->time).text,
        (unsigned)(plan->time / 1000000), (unsigned)(plan->time % 1000000));
    if (plan->blocks > 0)
        bytes_addf(text, "\ndisk  blocks\n");
    for (uint32_t d = 0; d < RP_MOST_DISKS; d++)
        if (plan->counts[d] > 0)
            show_disk(view, d, most, text);
    if (view->by_block && plan->blocks > 0)
        show_blocks(view, text);
    if (view->table != NULL && plan->blocks > 0)
        show_timeline(view, text);
    show_short_set(view, text);
    if (view->blocks != NULL)
        bytes_addf(text, "\nevery block is read from a disk that holds it\n");
    if (view->reason != NULL && plan->blocks > 0)
        show_reason(view, text);
}
