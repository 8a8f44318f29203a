/* A plan's timeline as a picture in SVG. */
#include <string.h>

#include "plan.h"
#include "svg.h"

/*
 * Blocks narrower than CROWDED are drawn together, with a count. All blocks of a lane have at least a MARK, and
 * neighbours of one colour at least a HAIR.
 */
static const double CROWDED = 5, MARK = 3, HAIR = 1;

/* Where a time is. */
static double place(const struct plan *plan, uint64_t time)
{
    return svg_place(plan->time, time);
}

/* A hatched bar for what a disk waits before its first block. */
static void draw_wait(struct bytes *svg, double x, double y, double width)
{
    draw_box(svg, "wait", x, y, width, BAR);
    bytes_addf(svg, "/>\n");
    bytes_addf(svg, "<rect fill=\"url(#wait)\" x=\"%.2f\" y=\"%.2f\" width=\"%.2f\" height=\"%d\"/>\n", x, y,
        width, BAR);
}

/* Two bars of half the height, from the same point on: above the delay, below the load, hatched; with their titles. */
static void draw_overlap(struct bytes *svg, double x, double y, double delay, double load, const char *delay_title,
    const char *load_title)
{
    const double half = BAR / 2.0;
    if (delay > 0) {
        draw_box(svg, "wait", x, y, delay, half);
        bytes_addf(svg, ">%s</rect>\n", delay_title);
    }
    if (load > 0) {
        draw_box(svg, "wait", x, y + half, load, half);
        bytes_addf(svg, "/>\n<rect fill=\"url(#wait)\" x=\"%.2f\" y=\"%.2f\" width=\"%.2f\" height=\"%.2f\">%s"
            "</rect>\n", x, y + half, load, half, load_title);
    }
}

/* What a disk waits for: one bar, or side by side from 0 what overlaps. */
static void draw_waits(const struct view *view, struct bytes *svg, uint32_t disk, double y)
{
    const struct row *row = &view->table->rows[disk];
    const double delay = place(view->plan, row->delay) - LEFT, load = place(view->plan, row->load) - LEFT;
    struct bytes delay_title = bytes_new(), load_title = bytes_new();
    bytes_addf(&delay_title, "<title>delay, 0 to %s microseconds</title>", grouped(row->delay).text);
    bytes_addf(&load_title, "<title>load%s, 0 to %s microseconds</title>", view->table->aged ? " left" : "",
        grouped(row->load).text);
    if (view->table->start == LARGER)
        draw_overlap(svg, LEFT, y, delay, load, bytes_text(&delay_title), bytes_text(&load_title));
    else if (start_of(view->table, disk) > 0)
        draw_wait(svg, LEFT, y, place(view->plan, start_of(view->table, disk)) - LEFT);
    bytes_free(&delay_title);
    bytes_free(&load_title);
}

/* A block's box; its number where there is room, and always in the title that a pointer brings up. */
static void draw_block(const struct plan *plan, struct bytes *svg, uint32_t block, double y, uint64_t from,
    uint64_t to)
{
    double left = place(plan, from), width = place(plan, to) - left;
    bool marked = plan->is_short[block];
    struct digits number = plain(block);
    draw_box(svg, marked ? "short" : "block", left + 0.5, y, width - 1, BAR);
    bytes_addf(svg, "><title>block %s, %s to %s microseconds%s</title></rect>\n", number.text, grouped(from).text,
        grouped(to).text, marked ? ", in the short set" : "");
    if (width >= 7.0 * (double)strlen(number.text) + 4)
        draw_text(svg, left + width / 2, y + BAR / 2.0 + 4,
            marked ? "class=\"number-short\"" : "class=\"number\"", number.text);
}

/* A box for blocks that are read one after another, from one time to another: of a least width, within the lane. */
static void draw_pack(const struct plan *plan, struct bytes *svg, double y, bool marked, uint32_t count,
    uint64_t from, uint64_t to, double least)
{
    double left = place(plan, from), width = place(plan, to) - left;
    if (width < least) {
        width = least;
        left = left + width > RIGHT ? RIGHT - width : left;
    }
    draw_box(svg, marked ? "short" : "block", left, y, width, BAR);
    bytes_addf(svg, " stroke-opacity=\"0\"><title>%u block%s, %s to %s microseconds%s</title></rect>\n",
        (unsigned)count, count == 1 ? "" : "s", grouped(from).text, grouped(to).text,
        marked ? ", in the short set" : "");
}

/* The blocks of one disk that are in the short set, or the others, neighbours in time together. */
static uint32_t draw_packs(const struct view *view, struct bytes *svg, uint32_t disk, double y, bool marked)
{
    const struct plan *plan = view->plan;
    const struct row *row = &view->table->rows[disk];
    uint64_t at = start_of(view->table, disk), from = at;
    double least = place(plan, end_of(view->table, disk, plan->counts[disk])) - place(plan, at) < MARK ? MARK : HAIR;
    uint32_t count = 0, all = 0;
    for (uint32_t b = next_on(plan, disk, 0); b < plan->blocks; b = next_on(plan, disk, b + 1)) {
        if (plan->is_short[b] != marked) {
            if (count > 0)
                draw_pack(plan, svg, y, marked, count, from, at, least);
            count = 0;
            from = at + row->cost;
        } else {
            count++;
            all++;
        }
        at += row->cost;
    }
    if (count > 0)
        draw_pack(plan, svg, y, marked, count, from, at, least);
    return all;
}

/* How many blocks a crowded lane has: on them where there is room, else beside them. */
static void draw_count(const struct view *view, struct bytes *svg, uint32_t disk, double y, uint32_t marked)
{
    const struct plan *plan = view->plan;
    struct bytes label = bytes_new();
    double left = place(plan, start_of(view->table, disk)), width;
    double right = place(plan, end_of(view->table, disk, plan->counts[disk]));
    bytes_addf(&label, "%u block%s", (unsigned)plan->counts[disk], plan->counts[disk] == 1 ? "" : "s");
    if (marked > 0)
        bytes_addf(&label, ", %u short", (unsigned)marked);
    width = 6.5 * (double)label.len + 8;
    if (right - left >= width)
        draw_text(svg, (left + right) / 2, y + BAR / 2.0 + 4, "class=\"count\" text-anchor=\"middle\"",
            bytes_text(&label));
    else if (right + width <= RIGHT)
        draw_text(svg, right + 6, y + BAR / 2.0 + 4, "class=\"count\"", bytes_text(&label));
    else
        draw_text(svg, (left < RIGHT - MARK ? left : RIGHT - MARK) - 6, y + BAR / 2.0 + 4,
            "class=\"count\" text-anchor=\"end\"", bytes_text(&label));
    bytes_free(&label);
}

/* The short set's boxes come last, so that none of them is covered. */
static void draw_crowd(const struct view *view, struct bytes *svg, uint32_t disk, double y)
{
    draw_packs(view, svg, disk, y, false);
    draw_count(view, svg, disk, y, draw_packs(view, svg, disk, y, true));
}

static void draw_disk(const struct view *view, struct bytes *svg, uint32_t disk)
{
    const struct plan *plan = view->plan;
    const struct row *row = &view->table->rows[disk];
    double y = row_top(disk) + (ROW - BAR) / 2.0;
    uint64_t at = start_of(view->table, disk), end = end_of(view->table, disk, plan->counts[disk]);
    draw_text(svg, EDGE, base_of(disk), "font-weight=\"600\"", plain(disk).text);
    draw_text(svg, LEFT - 14, base_of(disk), "text-anchor=\"end\"", grouped(row->cost).text);
    if (row->out) {
        draw_out(svg, disk);
        return;
    }
    if (plan->counts[disk] == 0) {
        draw_text(svg, RIGHT + 12, base_of(disk), "class=\"faint\"", "idle");
        return;
    }
    draw_waits(view, svg, disk, y);
    if (place(plan, row->cost) - LEFT < CROWDED)
        draw_crowd(view, svg, disk, y);
    else
        for (uint32_t b = next_on(plan, disk, 0); b < plan->blocks; b = next_on(plan, disk, b + 1), at += row->cost)
            draw_block(plan, svg, b, y, at, at + row->cost);
    draw_text(svg, RIGHT + 12, base_of(disk), end == plan->time ? "font-weight=\"600\"" : "", grouped(end).text);
}

/* The line at R. */
static void draw_end(const struct plan *plan, struct bytes *svg, double bottom)
{
    struct bytes label = bytes_new();
    bytes_addf(&label, "R = %s", grouped(plan->time).text);
    draw_line(svg, "last", RIGHT, TOP - 18, RIGHT, bottom + 5);
    draw_text(svg, RIGHT - 8, TOP - 8, "text-anchor=\"end\" font-weight=\"600\"", (char *)label.at);
    bytes_free(&label);
}

/* What stands beside the rows. */
static void draw_columns(struct bytes *svg)
{
    draw_text(svg, EDGE, TOP - 8, "class=\"faint\"", "disk");
    draw_text(svg, LEFT - 14, TOP - 8, "class=\"faint\" text-anchor=\"end\"", "a block");
    draw_text(svg, RIGHT + 12, TOP - 8, "class=\"faint\"", "ends at");
}

static void draw_legend(const struct view *view, struct bytes *svg)
{
    const struct plan *plan = view->plan;
    struct bytes label = bytes_new();
    const char *wait = view->table->aged ? "delay, load left" : "delay and load";
    int left = EDGE;
    if (view->table->start == LARGER) {
        wait = view->table->aged ? "delay (above), load left (below)" : "delay (above), load (below)";
        left = EDGE + 80;
        draw_overlap(svg, EDGE, 50, 34, 22, "", "");
    } else {
        draw_wait(svg, EDGE, 50, 34);
    }
    draw_text(svg, EDGE + 42, 65, "", wait);
    draw_box(svg, "block", left + 152, 50, 34, BAR);
    bytes_addf(svg, "/>\n");
    draw_text(svg, left + 194, 65, "", "block");
    draw_box(svg, "short", left + 252, 50, 34, BAR);
    bytes_addf(svg, "/>\n");
    bytes_addf(&label, "block of the short set: %u of %u", (unsigned)plan->short_size, (unsigned)plan->blocks);
    draw_text(svg, left + 294, 65, "", (char *)label.at);
    bytes_free(&label);
}

/* What is said of the short set: that it is short and, where it is known, why R is least. */
static void add_short(const struct view *view, struct bytes *words)
{
    const struct plan *plan = view->plan;
    const struct reason *reason = view->reason;
    const char *sign = "";
    if (plan->blocks == 0)
        return;
    bytes_addf(words, "Why no sooner: no schedule reads all of block%s", plan->short_size == 1 ? "" : "s");
    add_short_set(words, plan);
    bytes_addf(words, " by %s.", grouped(plan->time - 1).text);
    if (reason == NULL)
        return;
    bytes_addf(words, "\nOnly disk%s", (reason->disks & (reason->disks - 1)) == 0 ? "" : "s");
    add_disks(words, reason->disks);
    bytes_addf(words, (reason->disks & (reason->disks - 1)) == 0 ? " holds any of them, with room by then for "
        : " hold any of them, with room by then for ");
    for (uint32_t d = 0; d < RP_MOST_DISKS; d++) {
        if (!(reason->disks >> d & 1))
            continue;
        bytes_addf(words, "%s%s", sign, grouped(reason->room[d]).text);
        sign = " + ";
    }
    if (reason->disks & (reason->disks - 1))
        bytes_addf(words, " = %s", grouped(reason->sum).text);
    bytes_addf(words, " of the %u.", (unsigned)plan->short_size);
}

/* What stands under the picture: that, and what else there is to know of the disks. */
static void add_words(const struct view *view, struct bytes *words)
{
    struct bytes remarks = bytes_new();
    add_short(view, words);
    add_remarks(&remarks, view->table);
    for (char *one = bytes_text(&remarks), *end; *one != '\0'; one = end + 1) {
        end = strchr(one, '\n');
        bytes_addf(words, "%s%c%.*s.", words->len > 0 ? "\n" : "", *one - 'a' + 'A', (int)(end - one - 1), one + 1);
    }
    bytes_free(&remarks);
}

static void draw_title(const struct plan *plan, struct bytes *svg, double height)
{
    struct bytes title = bytes_new();
    bytes_addf(&title, "Unit %u, tenancy %u: %u block%s in %u.%06u seconds", (unsigned)plan->unit,
        (unsigned)plan->tenancy, (unsigned)plan->blocks, plan->blocks == 1 ? "" : "s",
        (unsigned)(plan->time / 1000000), (unsigned)(plan->time % 1000000));
    draw_head(svg, bytes_text(&title), height);
    bytes_free(&title);
}

void plan_draw(const struct view *view, struct bytes *svg)
{
    const struct plan *plan = view->plan;
    uint32_t disks = (uint32_t)view->table->count;
    double bottom = row_top(disks) + 4;
    struct bytes words = bytes_new();
    unsigned lines;
    add_words(view, &words);
    lines = draw_words(NULL, bytes_text(&words), 0);
    draw_title(plan, svg, bottom + FOOT + (lines > 0 ? 6 : 0) + LINE * (double)lines);
    draw_legend(view, svg);
    draw_columns(svg);
    for (uint32_t d = 0; d < disks; d++)
        draw_lane(svg, d);
    draw_axis(svg, plan->time, bottom);
    for (uint32_t d = 0; d < disks; d++)
        draw_disk(view, svg, d);
    draw_end(plan, svg, bottom);
    draw_words(svg, bytes_text(&words), bottom + FOOT + 6);
    bytes_addf(svg, "</svg>\n");
    bytes_free(&words);
}
