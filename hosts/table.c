#include "table.h"

#include <stdio.h>
#include <stdlib.h>
#include <string.h>

#include "bytes.h"
#include "contents.h"
#include "csv.h"
#include "faults.h"
#include "input.h"
#include "remedy.h"
#include "say.h"

enum { DISK, COST, LOAD, DELAY, OUT, COLUMNS, NO_COLUMN = COLUMNS };

static const struct {
    const char *name;
    uint32_t least, most;
} COLUMN[COLUMNS] = {
    [DISK] = { "disk", 0, RP_MOST_DISKS - 1 },
    [COST] = { "cost", 1, RP_MOST_COST },
    [LOAD] = { "load", 0, RP_MOST_LOAD },
    [DELAY] = { "delay", 0, RP_MOST_DELAY },
    [OUT] = { "out", RP_IN_USE, RP_OUT },
};

/* How the cells of a line stand. */
struct layout {
    char separator;
    size_t width;
    unsigned column[MOST_CELLS];    /* of each cell; NO_COLUMN for one without a name */
    bool has[COLUMNS];
};

/* A table as it is read. */
struct reading {
    const char *name;
    struct layout layout;
    struct bytes rows;
    struct faults faults;
    struct gaps gaps;               /* empty lines between rows */
    unsigned taken_out;             /* the line of the first row in a comment, 0 for none */
    unsigned commented;             /* the same, where a row follows */
    bool unreadable;                /* something is no number, and not only out of its range */
};

/* A fault for which no sheet can be tried. */
#define BAD(reading, ...) ((reading)->unreadable = true, faults_add(&(reading)->faults, __VA_ARGS__))

static unsigned column_of(struct span name)
{
    unsigned column = 0;
    while (column < COLUMNS && !span_is_any_case(name, COLUMN[column].name))
        column++;
    return column;
}

/* How many cells of a line are names of columns. */
static size_t names_in(struct span line, char separator)
{
    struct cells cells = csv_split(line, separator);
    size_t count = 0;
    for (size_t i = 0; i < cells.count && i < MOST_CELLS; i++)
        count += column_of(cells.cell[i]) < COLUMNS;
    return count;
}

/* The separator by which a line names most columns. */
static char separator_of(struct span line)
{
    static const char SEPARATORS[] = ",;\t";
    char best = ',';
    for (size_t i = 1; SEPARATORS[i] != '\0'; i++)
        if (names_in(line, SEPARATORS[i]) > names_in(line, best))
            best = SEPARATORS[i];
    return best;
}

static const char FIRST_LINE[] = "the first line has to name the columns cost, load and delay";

/* The line that names the columns. */
static void read_names(struct reading *r, unsigned number, struct span line)
{
    struct cells cells = csv_split(line, r->layout.separator);
    if (names_in(line, r->layout.separator) == 0 || cells.count > MOST_CELLS) {
        BAD(r, "%s:%u: %s, not \"%s\"", r->name, number, FIRST_LINE, shown(trimmed(line)).text);
        return;
    }
    r->layout.width = cells.count;
    for (size_t i = 0; i < cells.count; i++) {
        unsigned column = column_of(cells.cell[i]);
        r->layout.column[i] = column;
        if (column == NO_COLUMN && cells.cell[i].len > 0)
            BAD(r, "%s:%u: there is no column \"%s\"; a table has cost, load and delay, and disk and out if you like",
                r->name, number, shown(cells.cell[i]).text);
        else if (column < COLUMNS && r->layout.has[column])
            BAD(r, "%s:%u: two columns are called %s", r->name, number, COLUMN[column].name);
        else if (column < COLUMNS)
            r->layout.has[column] = true;
    }
    for (unsigned column = COST; column <= DELAY; column++)
        if (!r->layout.has[column])
            BAD(r, "%s:%u: the column %s is missing: %s", r->name, number, COLUMN[column].name, FIRST_LINE);
}

/* Adds a value that is out of its range. */
static void add_outside(struct faults *faults, const char *name, const struct row *row, size_t disk,
    unsigned column, uint32_t value)
{
    if (value < COLUMN[column].least || value > COLUMN[column].most)
        faults_add(faults, "%s:%u: disk %zu: the %s %s is not %u to %s", name, row->line, disk,
            COLUMN[column].name, grouped(value).text, (unsigned)COLUMN[column].least,
            grouped(COLUMN[column].most).text);
}

static void add_row_faults(struct faults *faults, const char *name, const struct row *row, size_t disk)
{
    add_outside(faults, name, row, disk, COST, row->cost);
    add_outside(faults, name, row, disk, LOAD, row->load);
    add_outside(faults, name, row, disk, DELAY, row->delay);
}

/* A mark: 0 or in, 1 or out. */
static bool mark_of(struct span cell, uint32_t *value)
{
    if (span_is_any_case(cell, "in") || span_is(cell, "0"))
        *value = RP_IN_USE;
    else if (span_is_any_case(cell, "out") || span_is(cell, "1"))
        *value = RP_OUT;
    else
        return false;
    return true;
}

/* One cell's number; where it is none the value stays what it is. */
static void read_cell(struct reading *r, unsigned number, size_t disk, unsigned column, struct span cell,
    uint32_t *value)
{
    if (column == OUT) {
        if (!mark_of(cell, value))
            BAD(r, "%s:%u: disk %zu: \"%s\" does not say whether it is out; write 0 or in for a disk in use, 1 or out "
                "for one that was pulled", r->name, number, disk, shown(cell).text);
    } else if (!number_of(cell, value))
        BAD(r, "%s:%u: disk %zu: the %s \"%s\" is not a whole number of %u to %s", r->name, number, disk,
            COLUMN[column].name, shown(cell).text, (unsigned)COLUMN[column].least,
            grouped(COLUMN[column].most).text);
}

/* Whether a line has as many values as there are columns; more are none if they are empty. */
static bool right_width(struct reading *r, unsigned number, const struct cells *cells)
{
    size_t filled = cells->count;
    if (cells->wrong != NULL) {
        BAD(r, "%s:%u: %s", r->name, number, cells->wrong);
        return false;
    }
    while (filled > r->layout.width && filled <= MOST_CELLS && cells->cell[filled - 1].len == 0)
        filled--;
    if (filled == r->layout.width)
        return true;
    BAD(r, "%s:%u: %zu value%s on a line that needs %zu, as the first line has", r->name, number, filled,
        filled == 1 ? "" : "s", r->layout.width);
    return false;
}

/* One disk. */
static void read_row(struct reading *r, unsigned number, const struct cells *cells)
{
    size_t disk = r->rows.len / sizeof(struct row);
    uint32_t value[COLUMNS + 1] = { [DISK] = (uint32_t)disk, [COST] = 1 };
    struct row row;
    bool good = right_width(r, number, cells);
    for (size_t i = 0; good && i < r->layout.width; i++) {
        unsigned column = r->layout.column[i];
        if (column < COLUMNS)
            read_cell(r, number, disk, column, cells->cell[i], &value[column]);
        else if (cells->cell[i].len > 0)
            BAD(r, "%s:%u: \"%s\" stands in a column without a name", r->name, number,
                shown(cells->cell[i]).text);
    }
    if (value[DISK] != disk)
        BAD(r, "%s:%u: disk %u stands where disk %zu is due; give every disk a row, in order", r->name, number,
            (unsigned)value[DISK], disk);
    row = (struct row){ value[COST], value[LOAD], value[DELAY], value[OUT] == RP_OUT, number };
    add_row_faults(&r->faults, r->name, &row, disk);
    bytes_add(&r->rows, &row, sizeof row);
}

/* Whether a comment is a row that was taken out. */
static bool is_row_in_comment(const struct reading *r, struct span line)
{
    struct cells cells;
    uint32_t value;
    line = trimmed(line);
    while (line.len > 0 && line.at[0] == '#')
        line = trimmed((struct span){ line.at + 1, line.len - 1 });
    cells = csv_split(line, r->layout.separator);
    if (cells.count != r->layout.width || cells.count > MOST_CELLS)
        return false;
    for (size_t i = 0; i < cells.count; i++)
        if (!number_of(cells.cell[i], &value) && !(r->layout.column[i] == OUT && mark_of(cells.cell[i], &value)))
            return false;
    return true;
}

/* A line below the names. */
static void read_line(struct reading *r, unsigned number, struct span line)
{
    struct cells cells = csv_split(line, r->layout.separator);
    bool empty = csv_empty(&cells);
    if (cells.comment_only && r->taken_out == 0 && is_row_in_comment(r, line))
        r->taken_out = number;
    if (r->rows.len > 0)
        gaps_take(&r->gaps, number, empty && !cells.comment_only ? span_of("") : line,
            empty ? span_of("") : line);
    if (!empty) {
        read_row(r, number, &cells);
        r->commented = r->taken_out;
    }
}

/* The line that some programs put first to say which separator follows: sep=; */
static bool is_separator_line(struct span line, char *separator)
{
    line = trimmed(line);
    if (line.len != 5 || !span_is_any_case((struct span){ line.at, 4 }, "sep="))
        return false;
    *separator = line.at[4];
    return true;
}

/* Reads everything; what is wrong is in the faults. */
static void read_all(struct reading *r, const struct bytes *text)
{
    struct lines lines = lines_of(text);
    struct span line;
    bool named = false;
    while (lines_next(&lines, &line)) {
        if (named)
            read_line(r, lines.number, line);
        else if (is_separator_line(line, &r->layout.separator) || code_of(line).len == 0)
            continue;
        else {
            if (r->layout.separator == '\0')
                r->layout.separator = separator_of(line);
            read_names(r, lines.number, line);
            if (r->unreadable)
                return;
            named = true;
        }
    }
    if (!named)
        BAD(r, "%s: there is no table: %s", r->name, FIRST_LINE);
}

/* What was passed over in silence, where the numbers of the disks rest on it. */
static void tell_passed_over(const struct reading *r)
{
    if (r->layout.has[DISK])
        return;
    if (r->commented > 0)
        say("%s:%u: a row in a comment is no disk: the rows below it have moved up; a column disk would keep the "
            "numbers, and a column out takes a disk out of use", r->name, r->commented);
    if (r->gaps.count > 0)
        say("%s:%u: an empty line is no disk (%u such); a column disk would keep the numbers", r->name,
            r->gaps.first, r->gaps.count);
}

static bool read_text(const struct bytes *text, const char *name, struct table *table)
{
    struct reading r = { .name = name, .rows = bytes_new(), .faults = faults_new() };
    read_all(&r, text);
    if (r.unreadable) {
        faults_say(&r.faults);
        bytes_free(&r.rows);
    } else {
        tell_passed_over(&r);
        *table = (struct table){ .name = name, .rows = (struct row *)(void *)r.rows.at,
            .count = r.rows.len / sizeof(struct row), .start = SUM, .marked = r.layout.has[OUT] };
    }
    faults_free(&r.faults);
    return !r.unreadable;
}

bool table_read(const char *path, const struct expected *expected, struct table *table)
{
    struct bytes text = bytes_new();
    const char *name = input_name(path);
    bool good = input_read(path, &text);
    if (good && contents_begin(&text)) {
        good = contents_table(&text, name, *expected, table);
    } else if (good) {
        text_plain(&text);
        good = read_text(&text, name, table);
    }
    bytes_free(&text);
    return good;
}

void table_free(struct table *table)
{
    free(table->rows);
    table->rows = NULL;
    table->count = 0;
}

const char *start_name(enum start start)
{
    return start == LARGER ? "larger" : "sum";
}

bool start_named(const char *word, enum start *start)
{
    for (enum start one = SUM; one <= LARGER; one++) {
        if (strcmp(word, start_name(one)) == 0) {
            *start = one;
            return true;
        }
    }
    say("--start has to be sum or larger, not \"%s\"", shown(span_of(word)).text);
    return false;
}

uint64_t table_out(const struct table *table)
{
    uint64_t out = 0;
    for (size_t i = 0; i < table->count && i < RP_MOST_DISKS; i++)
        out |= (uint64_t)table->rows[i].out << i;
    return out;
}

void table_age(struct table *table, uint32_t age)
{
    for (size_t i = 0; i < table->count; i++)
        table->rows[i].load = table->rows[i].load < age ? 0 : table->rows[i].load - age;
    table->aged = true;
    table->age = age;
}

uint64_t table_write(const struct table *table, uint32_t unit, uint32_t tenancy, uint8_t sheet[RP_LONGEST_SETTINGS])
{
    size_t len = 4 * table->count;
    struct bytes lists = bytes_new();
    uint8_t *costs = bytes_more(&lists, 4 * len), *loads = costs + len, *delays = loads + len, *marks = delays + len;
    uint64_t answer;
    for (size_t i = 0; i < table->count; i++) {
        rp_put32(costs, i, table->rows[i].cost);
        rp_put32(loads, i, table->rows[i].load);
        rp_put32(delays, i, table->rows[i].delay);
        rp_put32(marks, i, table->rows[i].out ? RP_OUT : RP_IN_USE);
    }
    if (table->marked)
        answer = rp_write_settings_marked(unit, tenancy, table->start, costs, len, loads, len, delays, len, marks, len,
            sheet, RP_LONGEST_SETTINGS);
    else
        answer = (table->start == LARGER ? rp_write_settings_overlap : rp_write_settings)(unit, tenancy, costs, len,
            loads, len, delays, len, sheet, RP_LONGEST_SETTINGS);
    bytes_free(&lists);
    return answer;
}

/* Says why a table was refused, with everything that is out of range: a writer tells no place, the lines do. */
static void say_fault(const struct table *table, uint32_t tenancy, uint64_t answer)
{
    struct faults faults = faults_new();
    const char *cure = "correct the table and run this again";
    if (tenancy == 0) {
        faults_add(&faults, "TENANCY is 0, and no tenancy is");
        cure = "give the number of the hire";
    } else if (rp_refusal(answer) == RP_NO_ROOM) {
        faults_add(&faults, "%s: the sheet needs %s bytes, the buffer has %d", table->name,
            grouped(rp_place(answer)).text, RP_LONGEST_SETTINGS);
        cure = remedy_here(RP_NO_ROOM, SETTINGS);
    } else if (table->count < 1 || table->count > RP_MOST_DISKS) {
        faults_add(&faults, "%s: %zu disks, and a unit has 1 to %d", table->name, table->count, RP_MOST_DISKS);
    } else {
        for (size_t i = 0; i < table->count; i++)
            add_row_faults(&faults, table->name, &table->rows[i], i);
    }
    say_refused(rp_refusal(answer), faults_text(&faults), cure);
    faults_free(&faults);
}

uint32_t table_sheet(const struct table *table, uint32_t unit, uint32_t tenancy, uint8_t sheet[RP_LONGEST_SETTINGS])
{
    const uint64_t answer = table_write(table, unit, tenancy, sheet);
    if (rp_refusal(answer) != RP_ACCEPTED) {
        say_fault(table, tenancy, answer);
        return 0;
    }
    return rp_length(answer);
}
