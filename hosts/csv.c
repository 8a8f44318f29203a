#include "csv.h"

#include <string.h>

/* How long a cell is: to the separator, a comment or the end, none of which count within quotes. */
static size_t cell_length(struct span rest, char separator)
{
    bool quoted = false;
    size_t len = 0;
    for (; len < rest.len; len++) {
        if (rest.at[len] == '"')
            quoted = !quoted;
        else if (!quoted && (rest.at[len] == separator || rest.at[len] == '#'))
            break;
    }
    return len;
}

/* Blanks at the ends go; a tab may be the separator, and is one here no more. */
static struct span without_quotes(struct span cell, const char **wrong)
{
    cell = trimmed(cell);
    if (memchr(cell.at, '"', cell.len) == NULL)
        return cell;
    if (cell.at[0] != '"' || cell.len < 2 || cell.at[cell.len - 1] != '"') {
        *wrong = cell.at[0] == '"' && memchr(cell.at + 1, '"', cell.len - 1) == NULL
            ? "a quote is opened and not closed on its line"
            : "a quote stands inside a value; it has to be around the whole of it";
        return cell;
    }
    return trimmed((struct span){ cell.at + 1, cell.len - 2 });
}

struct cells csv_split(struct span line, char separator)
{
    struct cells cells = { .count = 0, .wrong = NULL };
    struct span bare = trimmed(line);
    cells.comment_only = bare.len > 0 && bare.at[0] == '#';
    for (;;) {
        size_t len = cell_length(line, separator);
        struct span cell = without_quotes((struct span){ line.at, len }, &cells.wrong);
        if (cells.count < MOST_CELLS)
            cells.cell[cells.count] = cell;
        cells.count++;
        if (len == line.len || line.at[len] == '#')
            return cells;
        line.at += len + 1;
        line.len -= len + 1;
    }
}

bool csv_empty(const struct cells *cells)
{
    for (size_t i = 0; i < cells->count && i < MOST_CELLS; i++)
        if (cells->cell[i].len > 0)
            return false;
    return cells->wrong == NULL && cells->count <= MOST_CELLS;
}
