/* What every picture in SVG has: the page, rows, an axis of times, and words below. */
#ifndef SVG_H
#define SVG_H

#include <stdint.h>

#include "bytes.h"

/* Where things are, in a picture's units. */
enum {
    WIDTH = 960,
    EDGE = 24,          /* of the page */
    LEFT = 160,         /* where time 0 is */
    RIGHT = 840,        /* where the last time is */
    TOP = 118,          /* of the first row */
    ROW = 32,
    BAR = 22,
    FOOT = 58,          /* below the last row: the axis and its name */
    LINE = 18,          /* of the words below */
    LETTERS = 136,      /* that such a line has room for */
    MOST_LINES = 8      /* of one sentence: the next is not lost by it */
};

/* Where a time is, of all up to a last one. */
double svg_place(uint64_t last, uint64_t time);

/* The top of a row, and where its text stands. */
double row_top(uint32_t row);
double base_of(uint32_t row);

/* `how` has attributes; a box is left open for more of them, and for its end. */
void draw_text(struct bytes *svg, double x, double y, const char *how, const char *text);
void draw_box(struct bytes *svg, const char *class, double x, double y, double width, double height);
void draw_line(struct bytes *svg, const char *class, double x1, double y1, double x2, double y2);

/* The ground that a row's boxes stand on. */
void draw_lane(struct bytes *svg, uint32_t row);

/* A row whose disk is out: struck through, and said so beside it. */
void draw_out(struct bytes *svg, uint32_t row);

/* The start of a picture: its page of a height, and its title. */
void draw_head(struct bytes *svg, const char *title, double height);

/* The axis below the rows, to a last time. */
void draw_axis(struct bytes *svg, uint64_t last, double bottom);

/* Draws words in lines from a height on, if there is a picture to draw them in; gives how many lines they are. */
unsigned draw_words(struct bytes *svg, const char *words, double y);

#endif
