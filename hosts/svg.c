#include "svg.h"

#include <stdbool.h>
#include <string.h>

/* Colours for a light page and for a dark one; blocks keep theirs, since their numbers stand on them. */
static const char STYLE[] =
    "<style>\n"
    "text{font-family:system-ui,-apple-system,'Segoe UI',Helvetica,Arial,sans-serif;font-size:12px;fill:#24292f}\n"
    ".page{fill:#ffffff;stroke:#d0d7de}\n"
    ".title{font-size:17px;font-weight:600}\n"
    ".faint{fill:#57606a}\n"
    ".grid{stroke:#d8dee4;stroke-width:1}\n"
    ".axis{stroke:#57606a;stroke-width:1}\n"
    ".lane{fill:#f3f5f7}\n"
    ".wait{fill:#e3e7eb;stroke:#8c959f;stroke-width:1}\n"
    ".hatch{stroke:#8c959f;stroke-width:1.4}\n"
    ".block{fill:#a5c8ea;stroke:#4a7fb0;stroke-width:1}\n"
    ".short{fill:#c2380b;stroke:#7d2206;stroke-width:1}\n"
    ".number{font-size:11px;text-anchor:middle;fill:#0b2239}\n"
    ".number-short{font-size:11px;font-weight:700;text-anchor:middle;fill:#ffffff}\n"
    ".count{font-size:11px;font-weight:600;stroke:#ffffff;stroke-width:3;paint-order:stroke}\n"
    ".last{stroke:#24292f;stroke-width:1.6;stroke-dasharray:5 3}\n"
    "@media (prefers-color-scheme:dark){\n"
    "text{fill:#e6edf3}\n"
    ".page{fill:#0d1117;stroke:#30363d}\n"
    ".faint{fill:#9aa4af}\n"
    ".grid{stroke:#2a313a}\n"
    ".axis{stroke:#9aa4af}\n"
    ".lane{fill:#161b22}\n"
    ".wait{fill:#21262d;stroke:#6e7681}\n"
    ".hatch{stroke:#6e7681}\n"
    ".number{fill:#0b2239}\n"
    ".number-short{fill:#ffffff}\n"
    ".count{stroke:#0d1117}\n"
    ".last{stroke:#e6edf3}\n"
    "}\n"
    "</style>\n"
    "<defs><pattern id=\"wait\" width=\"7\" height=\"7\" patternUnits=\"userSpaceOnUse\" "
    "patternTransform=\"rotate(45)\"><line class=\"hatch\" x1=\"0\" y1=\"0\" x2=\"0\" y2=\"7\"/>"
    "</pattern></defs>\n";

double svg_place(uint64_t last, uint64_t time)
{
    return last == 0 ? LEFT : LEFT + (double)(RIGHT - LEFT) * (double)time / (double)last;
}

double row_top(uint32_t row)
{
    return TOP + (double)ROW * row;
}

double base_of(uint32_t row)
{
    return row_top(row) + ROW / 2.0 + 4;
}

void draw_text(struct bytes *svg, double x, double y, const char *how, const char *text)
{
    bytes_addf(svg, "<text x=\"%.1f\" y=\"%.1f\" %s>%s</text>\n", x, y, how, text);
}

void draw_box(struct bytes *svg, const char *class, double x, double y, double width, double height)
{
    bytes_addf(svg, "<rect class=\"%s\" x=\"%.2f\" y=\"%.2f\" width=\"%.2f\" height=\"%.2f\" rx=\"2\"", class,
        x, y, width, height);
}

void draw_line(struct bytes *svg, const char *class, double x1, double y1, double x2, double y2)
{
    bytes_addf(svg, "<line class=\"%s\" x1=\"%.2f\" y1=\"%.2f\" x2=\"%.2f\" y2=\"%.2f\"/>\n", class, x1, y1,
        x2, y2);
}

void draw_lane(struct bytes *svg, uint32_t row)
{
    draw_box(svg, "lane", LEFT, row_top(row) + (ROW - BAR) / 2.0, RIGHT - LEFT, BAR);
    bytes_addf(svg, "/>\n");
}

void draw_out(struct bytes *svg, uint32_t row)
{
    const double y = row_top(row) + ROW / 2.0;
    bytes_addf(svg, "<line class=\"hatch\" stroke-dasharray=\"2 6\" x1=\"%d\" y1=\"%.2f\" x2=\"%d\" y2=\"%.2f\"/>\n",
        LEFT, y, RIGHT, y);
    draw_text(svg, RIGHT + 12, base_of(row), "font-weight=\"600\"", "out");
}

/* The distance of the axis's marks: 1, 2 or 5 and noughts, so that there are at most eight. */
static uint64_t step_of(uint64_t time)
{
    uint64_t step = 1;
    for (;;) {
        if (time / step <= 8)
            return step;
        if (time / (2 * step) <= 8)
            return 2 * step;
        if (time / (5 * step) <= 8)
            return 5 * step;
        step *= 10;
    }
}

void draw_axis(struct bytes *svg, uint64_t last, double bottom)
{
    uint64_t step = step_of(last);
    for (uint64_t t = 0; t <= last; t += step) {
        double x = svg_place(last, t);
        draw_line(svg, "grid", x, TOP, x, bottom + 5);
        draw_text(svg, x, bottom + 20, "class=\"faint\" text-anchor=\"middle\" font-size=\"11\"",
            grouped(t).text);
    }
    draw_line(svg, "axis", LEFT, bottom, RIGHT, bottom);
    draw_text(svg, (LEFT + RIGHT) / 2.0, bottom + 40, "class=\"faint\" text-anchor=\"middle\"", "microseconds");
}

/* Where a line of words ends: at a line's end, or at the last blank that it has room for. */
static size_t line_length(const char *words)
{
    size_t len = strcspn(words, "\n");
    if (len <= LETTERS)
        return len;
    for (len = LETTERS; len > 0 && words[len] != ' '; len--)
        continue;
    return len > 0 ? len : LETTERS;
}

unsigned draw_words(struct bytes *svg, const char *words, double y)
{
    unsigned lines = 0, of_sentence = 0;
    while (*words != '\0') {
        size_t len = line_length(words), sentence = strcspn(words, "\n");
        bool cut = ++of_sentence == MOST_LINES && len < sentence;
        if (svg != NULL)
            bytes_addf(svg, "<text x=\"%d\" y=\"%.1f\">%.*s%s</text>\n", EDGE, y + LINE * lines, (int)len, words,
                cut ? " .." : "");
        lines++;
        words += cut ? sentence : len;
        of_sentence = *words == '\n' ? 0 : of_sentence;
        words += *words != '\0';
    }
    return lines;
}

void draw_head(struct bytes *svg, const char *title, double height)
{
    bytes_addf(svg, "<svg xmlns=\"http://www.w3.org/2000/svg\" width=\"%d\" height=\"%.0f\" "
        "viewBox=\"0 0 %d %.0f\" role=\"img\">\n<title>%s</title>\n%s", WIDTH, height, WIDTH, height,
        title, STYLE);
    bytes_addf(svg, "<rect class=\"page\" x=\"0.5\" y=\"0.5\" width=\"%d\" height=\"%.0f\" rx=\"8\"/>\n",
        WIDTH - 1, height - 1);
    draw_text(svg, EDGE, 34, "class=\"title\"", title);
}
