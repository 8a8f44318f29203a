/* A line of CSV as spreadsheets write it: cells parted by a separator, in quotes or not, and a comment from # on. */
#ifndef CSV_H
#define CSV_H

#include <stdbool.h>
#include <stddef.h>

#include "input.h"

enum { MOST_CELLS = 16 };

struct cells {
    struct span cell[MOST_CELLS];   /* without quotes and without blanks at the ends */
    size_t count;                   /* may be above what is kept */
    bool comment_only;              /* a comment is all there is */
    const char *wrong;              /* what is wrong with a quote, or null */
};

struct cells csv_split(struct span line, char separator);

/* Whether no cell has anything in it. */
bool csv_empty(const struct cells *cells);

#endif
