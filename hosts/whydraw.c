/* The disks of one block as a picture in SVG, by reason. */
#include <string.h>

#include "svg.h"
#include "why.h"

/* The colours of the reasons; the words that stand on them have a rim of the page's. */
static const char STYLE[] =
    "<style>\n"
    ".reason2{fill:#c2380b;stroke:#7d2206}\n"
    ".reason3{fill:#f2cf8a;stroke:#a5781d}\n"
    ".reason4{fill:#bfe3c4;stroke:#4f8f5a}\n"
    ".reason5{fill:#2f6fad;stroke:#1b4a78}\n"
    "</style>\n";

/* A row for each reason of a disk with a copy: what the legend says of it, and how wide that is. */
static const struct legend {
    uint32_t reason;
    const char *class;
    const char *words;
    int width;
} LEGEND[] = {
    { CHOSEN, "reason5", "the one chosen", 150 },
    { LOWER, "reason4", "as soon, so is a lower disk", 222 },
    { NOT_KEPT, "reason3", "as soon, earlier blocks would have to move", 318 },
    { LATER, "reason2", "later", 0 },
};
enum {
    BOX = 34,           /* a box of the legend */
    LETTER = 13,        /* twice the width of a letter on a row */
    LEAST = 3           /* the width of a bar that is to be seen, however soon it ends */
};

static const struct legend *legend_of(uint32_t reason)
{
    const struct legend *row = LEGEND;
    while (row->reason != reason)
        row++;
    return row;
}

static void draw_legend(struct bytes *svg)
{
    double x = EDGE;
    for (size_t i = 0; i < sizeof LEGEND / sizeof LEGEND[0]; i++) {
        draw_box(svg, LEGEND[i].class, x, 50, BOX, BAR);
        bytes_addf(svg, "/>\n");
        draw_text(svg, x + BOX + 8, 65, "", LEGEND[i].words);
        x += LEGEND[i].width;
    }
}

/* The latest of the times that are drawn. */
static uint64_t last_of(const struct question *q, uint32_t block)
{
    uint64_t last = q->plan.time;
    for (uint32_t d = 0; d < q->table.count; d++) {
        const struct pair *pair = question_pair(q, block, d);
        if (pair != NULL && pair->reason == LATER && pair->time > last)
            last = pair->time;
    }
    return last;
}

/* What stands on a disk's row. */
static void add_label(struct bytes *label, const struct question *q, const struct pair *pair)
{
    if (pair->reason == LATER)
        bytes_addf(label, "later, by %s", grouped(pair->time - q->plan.time).text);
    else if (pair->reason == NOT_KEPT)
        bytes_addf(label, "earlier blocks would have to move");
    else if (pair->reason == LOWER)
        bytes_addf(label, "so is disk %u, a lower number", (unsigned)question_chosen(q, pair->block));
    else
        bytes_addf(label, "chosen");
}

/* A bar to the time when the last block is in, at best, with the block read from this disk. */
static void draw_pair(const struct question *q, struct bytes *svg, const struct pair *pair, uint64_t last)
{
    const double y = row_top(pair->disk) + (ROW - BAR) / 2.0, end = svg_place(last, in_by(q, pair));
    const double right = end < LEFT + LEAST ? LEFT + LEAST : end;
    struct bytes label = bytes_new(), words = bytes_new();
    double width;
    add_label(&label, q, pair);
    add_why(&words, q, pair);
    width = LETTER * (double)label.len / 2 + 8;
    draw_box(svg, legend_of(pair->reason)->class, LEFT, y, right - LEFT, BAR);
    bytes_addf(svg, "><title>block %u, disk %u: %s</title></rect>\n", (unsigned)pair->block, (unsigned)pair->disk,
        bytes_text(&words));
    if (right - LEFT >= width)
        draw_text(svg, (LEFT + right) / 2, y + BAR / 2.0 + 4, "class=\"count\" text-anchor=\"middle\"",
            bytes_text(&label));
    else
        draw_text(svg, right + 6, y + BAR / 2.0 + 4, "class=\"count\"", bytes_text(&label));
    draw_text(svg, RIGHT + 12, base_of(pair->disk), pair->reason == CHOSEN ? "font-weight=\"600\"" : "",
        grouped(in_by(q, pair)).text);
    bytes_free(&label);
    bytes_free(&words);
}

static void draw_disk(const struct question *q, struct bytes *svg, uint32_t block, uint32_t disk, uint64_t last)
{
    const struct pair *pair = question_pair(q, block, disk);
    draw_text(svg, EDGE, base_of(disk), "font-weight=\"600\"", plain(disk).text);
    draw_text(svg, LEFT - 14, base_of(disk), "text-anchor=\"end\"", grouped(q->table.rows[disk].cost).text);
    if (q->table.rows[disk].out)
        draw_out(svg, disk);
    else if (!question_holds(q, block, disk))
        draw_text(svg, LEFT + 10, base_of(disk), "class=\"faint\"", "no copy");
    else if (pair == NULL)
        draw_text(svg, LEFT + 10, base_of(disk), "class=\"faint\"",
            question_unanswered(q, block, disk) ? "no answer" : "not asked");
    else
        draw_pair(q, svg, pair, last);
}

/* The line at R, with its words on the side that has room. */
static void draw_end(const struct question *q, struct bytes *svg, uint64_t last, double bottom)
{
    const double x = svg_place(last, q->plan.time);
    struct bytes label = bytes_new();
    bytes_addf(&label, "R = %s", grouped(q->plan.time).text);
    draw_line(svg, "last", x, TOP - 18, x, bottom + 5);
    if (x > (LEFT + RIGHT) / 2.0)
        draw_text(svg, x - 8, TOP - 8, "text-anchor=\"end\" font-weight=\"600\"", bytes_text(&label));
    else
        draw_text(svg, x + 8, TOP - 8, "font-weight=\"600\"", bytes_text(&label));
    bytes_free(&label);
}

/* A sentence for each disk that holds the block and was asked about. */
static void add_sentences(const struct question *q, uint32_t block, struct bytes *words)
{
    for (uint32_t d = 0; d < q->table.count; d++) {
        const struct pair *pair = question_pair(q, block, d);
        if (pair == NULL || pair->reason == NO_COPY)
            continue;
        bytes_addf(words, "%sDisk %u: ", words->len > 0 ? "\n" : "", (unsigned)d);
        add_why(words, q, pair);
        bytes_addf(words, ".");
    }
}

void why_draw(const struct question *q, uint32_t block, struct bytes *svg)
{
    const uint32_t disks = (uint32_t)q->table.count;
    const uint64_t last = last_of(q, block);
    const double bottom = row_top(disks) + 4;
    struct bytes words = bytes_new(), title = bytes_new();
    add_sentences(q, block, &words);
    bytes_addf(&title, "Unit %u, tenancy %u: why block %u is read from disk %u", (unsigned)q->unit,
        (unsigned)q->tenancy, (unsigned)block, (unsigned)q->plan.disk[block]);
    draw_head(svg, bytes_text(&title), bottom + FOOT + 6 + LINE * (double)draw_words(NULL, bytes_text(&words), 0));
    bytes_addf(svg, "%s", STYLE);
    draw_legend(svg);
    draw_text(svg, EDGE, TOP - 8, "class=\"faint\"", "disk");
    draw_text(svg, LEFT - 14, TOP - 8, "class=\"faint\" text-anchor=\"end\"", "a block");
    draw_text(svg, RIGHT + 12, TOP - 8, "class=\"faint\"", "last block in");
    for (uint32_t d = 0; d < disks; d++)
        draw_lane(svg, d);
    draw_axis(svg, last, bottom);
    for (uint32_t d = 0; d < disks; d++)
        draw_disk(q, svg, block, d, last);
    draw_end(q, svg, last, bottom);
    draw_words(svg, bytes_text(&words), bottom + FOOT + 6);
    bytes_addf(svg, "</svg>\n");
    bytes_free(&title);
    bytes_free(&words);
}
