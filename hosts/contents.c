#include "contents.h"

#include <stdarg.h>
#include <stdio.h>
#include <string.h>

#include "number.h"
#include "output.h"
#include "remedy.h"
#include "say.h"

const struct expected ANYTHING = { .disks = RP_MOST_DISKS };
const char SAYS_OTHERWISE[] = "the library says otherwise of this sheet: tell us, with the sheet";

/* Where the reader is. */
struct reader {
    const struct bytes *sheet;
    const struct expected *expected;
    struct contents *contents;
    struct bytes *text;         /* null where nothing is to be shown */
    size_t line;                /* the place where the line that is shown begins */
    size_t at;                  /* beyond the number last read */
    size_t start;               /* of that number */
    uint32_t value;
};

/* ---- lines ---- */

/* Adds the bytes from a place on, the digits of one number together. */
static size_t add_digits(struct reader *r, size_t from, size_t to)
{
    size_t before = r->text->len;
    for (size_t i = from; i < to; i++)
        bytes_addf(r->text, "%02x%s", r->sheet->at[i], r->sheet->at[i] < 128 && i + 1 < to ? " " : "");
    return r->text->len - before;
}

/* Adds the line of the numbers since the last one: its place, its bytes and words. */
#if defined(__GNUC__)
__attribute__((format(printf, 2, 3)))
#endif
static void put_line(struct reader *r, const char *form, ...)
{
    enum { WORDS = 28 };
    char words[256];
    va_list values;
    size_t width;
    if (r->text != NULL) {
        va_start(values, form);
        vsnprintf(words, sizeof words, form, values);
        va_end(values);
        bytes_addf(r->text, "%5zu  ", r->line);
        width = add_digits(r, r->line, r->at);
        bytes_addf(r->text, "%*s%s\n", width < WORDS ? (int)(WORDS - width) : 2, "", words);
    }
    r->line = r->at;
}

/* ---- numbers ---- */

/* Names what is read next, for a message. */
#if defined(__GNUC__)
__attribute__((format(printf, 2, 3)))
#endif
static void next_is(struct reader *r, const char *form, ...)
{
    va_list values;
    va_start(values, form);
    vsnprintf(r->contents->what, sizeof r->contents->what, form, values);
    va_end(values);
}

/* Refuses what stands at a place, and says what that is. */
#if defined(__GNUC__)
__attribute__((format(printf, 4, 5)))
#endif
static bool refuse(struct reader *r, unsigned refusal, size_t place, const char *form, ...)
{
    va_list values;
    va_start(values, form);
    vsnprintf(r->contents->why, sizeof r->contents->why, form, values);
    va_end(values);
    r->contents->refusal = refusal;
    r->contents->place = place;
    return false;
}

/* Refuses the number last read, and says why. */
#define REFUSE(reader, refusal, ...) refuse(reader, refusal, (reader)->start, __VA_ARGS__)

/* Refuses the form of a number, which so many of its bytes show. */
static bool refuse_form(struct reader *r, size_t used)
{
    char digits[16] = "";
    const uint8_t *bytes = r->sheet->at + r->start;
    for (size_t i = 0; i < used; i++)
        snprintf(digits + strlen(digits), sizeof digits - strlen(digits), "%s%02x", i > 0 ? " " : "", bytes[i]);
    return REFUSE(r, RP_BAD_NUMBER, bytes[used - 1] == 0 ? "%s is not its shortest form" : "%s is too large", digits);
}

/* One number: 1 where the sheet ends, 2 where its form is wrong. */
static bool take(struct reader *r)
{
    size_t used;
    enum form form = number_read(r->sheet->at + r->at, r->sheet->len - r->at, &r->value, &used);
    r->start = r->at;
    if (form == FORM_BAD)
        return refuse_form(r, used);
    r->contents->inside = used > 0;
    if (form == FORM_ENDS)
        return refuse(r, RP_SHEET_ENDS, r->sheet->len, "%s", "");
    r->at += used;
    return true;
}

/* One number of a range, and the refusal for what is out of it. */
static bool take_within(struct reader *r, unsigned refusal, uint32_t least, uint32_t most)
{
    if (!take(r))
        return false;
    if (r->value >= least && r->value <= most)
        return true;
    if (least == most)
        return REFUSE(r, refusal, "it is %s, and has to be %s", grouped(r->value).text, grouped(least).text);
    return REFUSE(r, refusal, "it is %s, and has to be %s to %s", grouped(r->value).text, grouped(least).text,
        grouped(most).text);
}

/* The number of a disk or block, 0 to `most`, that is above the one before it, if there is one. */
static bool take_rising(struct reader *r, uint32_t most, bool first, uint32_t before)
{
    if (!take_within(r, RP_BAD_INDEX, 0, most))
        return false;
    if (first || r->value > before)
        return true;
    return REFUSE(r, RP_NOT_RISING, "it is %u, and the one before it is %u", (unsigned)r->value,
        (unsigned)before);
}

/* ---- the kinds ---- */

/* A row for each kind: what it is, its name in a line, and in a sentence. */
static const struct kind {
    enum sort sort;
    const char *name;
    const char *one;
} KINDS[] = {
    [KIND_SETTINGS] = { SETTINGS, "settings", "a settings sheet" },
    [KIND_REQUEST] = { REQUEST, "read request", "a read request" },
    [KIND_PLAN] = { PLAN, "plan", "a plan" },
    [KIND_AGED] = { REQUEST, "read request with an age", "a read request with an age" },
    [KIND_OVERLAP] = { SETTINGS, "settings, each disk starts at the larger of delay and load", "a settings sheet" },
    [KIND_MARKED] = { SETTINGS, "settings with a start rule and marks", "a settings sheet" },
};

static enum sort sort_of(uint32_t kind)
{
    return kind < sizeof KINDS / sizeof KINDS[0] ? KINDS[kind].sort : NO_SORT;
}

/* Kind, unit and tenancy. */
static bool read_head(struct reader *r)
{
    struct contents *c = r->contents;
    next_is(r, "the kind");
    if (!take(r))
        return false;
    if (sort_of(r->value) == NO_SORT)
        return REFUSE(r, RP_WRONG_KIND, "it is %s; settings are 1, 5 or 6, a read request 2 or 4, a plan 3",
            grouped(r->value).text);
    if (r->expected->sort != NO_SORT && sort_of(r->value) != r->expected->sort)
        return REFUSE(r, RP_WRONG_KIND, "it is %u, %s", (unsigned)r->value, KINDS[r->value].one);
    c->kind = r->value;
    c->sort = sort_of(c->kind);
    put_line(r, "kind %u: %s", (unsigned)c->kind, KINDS[c->kind].name);
    next_is(r, "the unit");
    if (!take(r))
        return false;
    c->unit = r->value;
    if (r->expected->unit != NULL && c->unit != *r->expected->unit)
        return REFUSE(r, RP_WRONG_UNIT, "it is %u, not %u", (unsigned)c->unit,
            (unsigned)*r->expected->unit);
    put_line(r, "unit %u", (unsigned)c->unit);
    next_is(r, "the tenancy");
    if (!take(r))
        return false;
    c->tenancy = r->value;
    if (r->expected->not_rented)
        return REFUSE(r, RP_WRONG_TENANCY, "it is %u, and nobody has rented the unit", (unsigned)c->tenancy);
    if (c->tenancy == 0)
        return REFUSE(r, RP_WRONG_TENANCY, "it is 0, and no tenancy is");
    if (r->expected->tenancy != NULL && c->tenancy != *r->expected->tenancy)
        return REFUSE(r, RP_WRONG_TENANCY, "it is %u, not %u", (unsigned)c->tenancy,
            (unsigned)*r->expected->tenancy);
    put_line(r, "tenancy %u", (unsigned)c->tenancy);
    next_is(r, "after the tenancy");
    if (c->sort == REQUEST && r->expected->disks == 0)
        return refuse(r, RP_NO_SETTINGS, r->at, "the unit has no settings yet");
    return true;
}

/* How disks start: by the kind, or by the rule that it has. */
static bool read_start(struct reader *r)
{
    struct contents *c = r->contents;
    c->start = c->kind == KIND_OVERLAP ? LARGER : SUM;
    if (c->kind != KIND_MARKED)
        return true;
    next_is(r, "the start rule");
    if (!take_within(r, RP_BAD_AMOUNT, RP_START_SUM, RP_START_LARGER))
        return false;
    c->start = (enum start)r->value;
    put_line(r, "start rule %u: each disk starts at the %s of delay and load", (unsigned)c->start,
        start_name(c->start));
    return true;
}

/* One amount of a disk. */
static bool read_amount(struct reader *r, const char *name, uint32_t disk, uint32_t least, uint32_t most,
    uint32_t *value)
{
    next_is(r, "the %s of disk %u", name, (unsigned)disk);
    if (!take_within(r, RP_BAD_AMOUNT, least, most))
        return false;
    *value = r->value;
    return true;
}

static bool read_row(struct reader *r, uint32_t disk)
{
    struct row *row = &r->contents->rows[disk];
    const bool marked = r->contents->kind == KIND_MARKED;
    uint32_t mark = RP_IN_USE;
    if (!read_amount(r, "cost", disk, 1, RP_MOST_COST, &row->cost)
        || !read_amount(r, "load", disk, 0, RP_MOST_LOAD, &row->load)
        || !read_amount(r, "delay", disk, 0, RP_MOST_DELAY, &row->delay)
        || (marked && !read_amount(r, "mark", disk, RP_IN_USE, RP_OUT, &mark)))
        return false;
    row->out = mark == RP_OUT;
    put_line(r, "disk %u: cost %s, load %s, delay %s%s", (unsigned)disk, grouped(row->cost).text,
        grouped(row->load).text, grouped(row->delay).text, !marked ? "" : row->out ? ", out" : ", in use");
    return true;
}

static bool read_settings(struct reader *r)
{
    struct contents *c = r->contents;
    next_is(r, "the number of disks N");
    if (!take_within(r, RP_OUT_OF_RANGE, 1, RP_MOST_DISKS))
        return false;
    c->count = r->value;
    put_line(r, "N: %u disk%s", (unsigned)c->count, c->count == 1 ? "" : "s");
    if (!read_start(r))
        return false;
    for (uint32_t d = 0; d < c->count; d++)
        if (!read_row(r, d))
            return false;
    return true;
}

/* One block of a request: k and its disks. */
static bool read_block(struct reader *r, uint32_t block)
{
    char disks[8 * RP_MOST_COPIES] = "";
    uint32_t copies, before = 0;
    next_is(r, "the copy count k of block %u", (unsigned)block);
    if (!take(r))
        return false;
    if (r->value == 0)
        return REFUSE(r, RP_NO_COPY, "it is 0");
    if (r->value > RP_MOST_COPIES)
        return REFUSE(r, RP_OUT_OF_RANGE, "it is %s, and has to be 1 to %d", grouped(r->value).text, RP_MOST_COPIES);
    copies = r->value;
    for (uint32_t i = 0; i < copies; i++) {
        next_is(r, "disk %u of %u of block %u", (unsigned)i + 1, (unsigned)copies, (unsigned)block);
        if (!take_rising(r, r->expected->disks - 1, i == 0, before))
            return false;
        before = r->value;
        r->contents->copies[block] |= (uint64_t)1 << before;
        snprintf(disks + strlen(disks), sizeof disks - strlen(disks), " %u", (unsigned)before);
    }
    if ((r->contents->copies[block] & ~r->expected->out) == 0)
        return REFUSE(r, RP_ALL_OUT, "all copies of block %u are on disks that are out:%s", (unsigned)block, disks);
    put_line(r, "block %u: %u cop%s, disk%s%s", (unsigned)block, (unsigned)copies, copies == 1 ? "y" : "ies",
        copies == 1 ? "" : "s", disks);
    return true;
}

/* The age, where the kind has one. */
static bool read_age(struct reader *r)
{
    struct contents *c = r->contents;
    if (c->kind != KIND_AGED)
        return true;
    next_is(r, "the age of the settings");
    if (!take(r))
        return false;
    c->age = r->value;
    put_line(r, "age: %s microsecond%s since the settings were measured", grouped(c->age).text, c->age == 1 ? "" : "s");
    return true;
}

static bool read_request(struct reader *r)
{
    struct contents *c = r->contents;
    if (!read_age(r))
        return false;
    next_is(r, "the number of blocks Q");
    if (!take_within(r, RP_OUT_OF_RANGE, 0, RP_MOST_BLOCKS))
        return false;
    c->count = r->value;
    put_line(r, "Q: %u block%s", (unsigned)c->count, c->count == 1 ? "" : "s");
    for (uint32_t b = 0; b < c->count; b++)
        if (!read_block(r, b))
            return false;
    return true;
}

/* Numbers that are shown several a line. */
enum { A_LINE = 8, WORDS_LENGTH = 6 * A_LINE + 1 };

/* The disk of each block. */
static bool read_disks(struct reader *r, uint32_t blocks)
{
    char disks[WORDS_LENGTH] = "";
    uint32_t first = 0;
    for (uint32_t b = 0; b < blocks; b++) {
        next_is(r, "the disk of block %u", (unsigned)b);
        if (!take_within(r, RP_BAD_INDEX, 0, RP_MOST_DISKS - 1))
            return false;
        snprintf(disks + strlen(disks), sizeof disks - strlen(disks), " %u", (unsigned)r->value);
        if (b + 1 < blocks && b + 1 - first < A_LINE)
            continue;
        if (first == b)
            put_line(r, "block %u: disk%s", (unsigned)b, disks);
        else
            put_line(r, "blocks %u-%u: disks%s", (unsigned)first, (unsigned)b, disks);
        disks[0] = '\0';
        first = b + 1;
    }
    return true;
}

/* The short set. */
static bool read_set(struct reader *r, uint32_t size, uint32_t blocks)
{
    char set[WORDS_LENGTH] = "";
    uint32_t before = 0;
    for (uint32_t i = 0; i < size; i++) {
        next_is(r, "block %u of %u of the short set", (unsigned)i + 1, (unsigned)size);
        if (!take_rising(r, blocks - 1, i == 0, before))
            return false;
        before = r->value;
        snprintf(set + strlen(set), sizeof set - strlen(set), " %u", (unsigned)before);
        if (i + 1 < size && (i + 1) % A_LINE != 0)
            continue;
        put_line(r, "of the short set:%s", set);
        set[0] = '\0';
    }
    return true;
}

static bool read_plan(struct reader *r)
{
    struct contents *c = r->contents;
    next_is(r, "the number of blocks Q");
    if (!take_within(r, RP_OUT_OF_RANGE, 0, RP_MOST_BLOCKS))
        return false;
    c->count = r->value;
    put_line(r, "Q: %u block%s", (unsigned)c->count, c->count == 1 ? "" : "s");
    next_is(r, "the time R");
    if (!take_within(r, RP_BAD_AMOUNT, c->count > 0, c->count > 0 ? RP_MOST_TIME : 0))
        return false;
    c->time = r->value;
    put_line(r, "R: %s microseconds", grouped(c->time).text);
    if (!read_disks(r, c->count))
        return false;
    next_is(r, "the size m of the short set");
    if (!take_within(r, RP_OUT_OF_RANGE, c->count > 0, c->count))
        return false;
    c->short_size = r->value;
    put_line(r, "m: %u block%s in the short set", (unsigned)c->short_size, c->short_size == 1 ? "" : "s");
    return read_set(r, c->short_size, c->count);
}

static bool read_all(struct reader *r)
{
    static bool (*const READ[])(struct reader *) = {
        [SETTINGS] = read_settings, [REQUEST] = read_request, [PLAN] = read_plan
    };
    if (!read_head(r) || !READ[r->contents->sort](r))
        return false;
    next_is(r, "the end of the sheet");
    if (r->at == r->sheet->len)
        return true;
    if (r->at + 1 == r->sheet->len)
        return refuse(r, RP_BYTES_FOLLOW, r->at, "1 byte follows it, %02x", r->sheet->at[r->at]);
    return refuse(r, RP_BYTES_FOLLOW, r->at, "%s bytes follow it, the first %02x", grouped(r->sheet->len - r->at).text,
        r->sheet->at[r->at]);
}

/* Adds what is left from the line that was not finished on. */
static void put_rest(struct reader *r)
{
    enum { MOST_SHOWN = 12 };
    size_t end = r->sheet->len, place = r->contents->place;
    if (r->text == NULL)
        return;
    if (r->line < place) {
        r->at = place;
        put_line(r, "read so far");
    }
    r->at = end - place > MOST_SHOWN ? place + MOST_SHOWN : end;
    put_line(r, "%s<- refused %u: %s%s", r->at < end ? ".. " : "", r->contents->refusal,
        r->contents->refusal != RP_SHEET_ENDS ? "" : r->contents->inside ? "the end, inside " : "the end, before ",
        r->contents->what);
}

void contents_read(const struct bytes *sheet, const struct expected *expected, struct contents *contents,
    struct bytes *text)
{
    struct reader r = { sheet, expected, contents, text, 0, 0, 0, 0 };
    memset(contents, 0, sizeof *contents);
    if (!read_all(&r))
        put_rest(&r);
}

/* What settings say as a table, whose rows are theirs and stay as they are. */
static struct table table_of(const struct contents *c)
{
    return (struct table){ .rows = (struct row *)(void *)c->rows, .count = c->sort == SETTINGS ? c->count : 0,
        .kind = c->kind, .start = c->start, .marked = c->kind == KIND_MARKED };
}

uint64_t contents_out(const struct contents *contents)
{
    const struct table table = table_of(contents);
    return table_out(&table);
}

bool contents_is_of(const struct bytes *sheet, enum sort sort, uint32_t unit, uint32_t tenancy)
{
    struct contents contents = { .kind = 0 };
    const struct expected expected = { .unit = &unit, .tenancy = &tenancy, .disks = RP_MOST_DISKS, .sort = sort };
    struct reader r = { sheet, &expected, &contents, NULL, 0, 0, 0, 0 };
    return read_head(&r);
}

void contents_add(const struct contents *contents, struct bytes *what)
{
    if (contents->refusal == RP_SHEET_ENDS)
        bytes_addf(what, "the sheet ends there, %s %s", contents->inside ? "inside" : "before", contents->what);
    else
        bytes_addf(what, "%s: %s", contents->what, contents->why);
}

void contents_say(const struct contents *contents, const char *name, const char *what_to_do)
{
    struct bytes what = bytes_new();
    contents_add(contents, &what);
    say_refused_at(contents->refusal, contents->place, bytes_text(&what), name, what_to_do);
    bytes_free(&what);
}

/* ---- sheets in the place of tables and lists ---- */

bool contents_begin(const struct bytes *bytes)
{
    return bytes->len > 0 && sort_of(bytes->at[0]) != NO_SORT;
}

static bool refused(const struct contents *contents, const char *name)
{
    if (contents->refusal != RP_ACCEPTED)
        contents_say(contents, name, remedy_here(contents->refusal, contents->sort));
    return contents->refusal != RP_ACCEPTED;
}

bool contents_table(const struct bytes *sheet, const char *name, struct expected expected, struct table *table)
{
    static struct contents contents;
    struct bytes rows = bytes_new();
    expected.sort = SETTINGS;
    contents_read(sheet, &expected, &contents, NULL);
    if (refused(&contents, name)) {
        bytes_free(&rows);
        return false;
    }
    bytes_add(&rows, contents.rows, contents.count * sizeof contents.rows[0]);
    *table = table_of(&contents);
    table->name = name;
    table->rows = (struct row *)(void *)rows.at;
    return true;
}

bool contents_blocks(const struct bytes *sheet, const char *name, struct expected expected, struct blocks *blocks)
{
    static struct contents contents;
    struct bytes list = bytes_new();
    expected.sort = REQUEST;
    contents_read(sheet, &expected, &contents, NULL);
    if (refused(&contents, name)) {
        bytes_free(&list);
        return false;
    }
    for (uint32_t b = 0; b < contents.count; b++)
        bytes_add(&list, &(struct block){ contents.copies[b], 0 }, sizeof(struct block));
    *blocks = (struct blocks){ name, (struct block *)(void *)list.at, contents.count, contents.kind, contents.age };
    return true;
}

/* ---- the library's word ---- */

bool contents_agree(const struct contents *contents, uint64_t answer)
{
    return contents->refusal == rp_refusal(answer)
        && (contents->refusal == RP_ACCEPTED || contents->place == rp_place(answer));
}

/* Whether a writer gave the bytes of the sheet. */
static bool same(uint64_t answer, const uint8_t *written, const struct bytes *sheet)
{
    return rp_refusal(answer) == RP_ACCEPTED && rp_length(answer) == sheet->len
        && memcmp(written, sheet->at, sheet->len) == 0;
}

static bool library_writes_settings(const struct bytes *sheet, const struct contents *c)
{
    uint8_t written[RP_LONGEST_SETTINGS];
    const struct table table = table_of(c);
    return same(table_write(&table, c->unit, c->tenancy, written), written, sheet);
}

static bool library_writes_request(const struct bytes *sheet, const struct contents *c, uint32_t disks)
{
    static uint8_t copies[8 * RP_MOST_BLOCKS], written[RP_LONGEST_REQUEST];
    for (uint32_t b = 0; b < c->count; b++)
        rp_put64(copies, b, c->copies[b]);
    return same(rp_write_request(c->kind, c->unit, c->tenancy, c->age, disks, copies, 8 * c->count, written,
        sizeof written), written, sheet);
}

static bool library_reads_plan(const struct bytes *sheet, const struct contents *c, const struct expected *expected)
{
    uint8_t disks[RP_MOST_BLOCKS], set[2 * RP_MOST_BLOCKS];
    return contents_agree(c, rp_read_plan(expected->unit != NULL ? *expected->unit : c->unit,
        expected->tenancy != NULL ? *expected->tenancy : c->tenancy, sheet->at, sheet->len, disks, sizeof disks,
        set, sizeof set));
}

/* Whether the library says the same of a sheet. It reads plans, and writes the other two. */
static bool library_agrees(const struct bytes *sheet, const struct contents *c, const struct expected *expected)
{
    if (c->sort == PLAN)
        return library_reads_plan(sheet, c, expected);
    if (c->refusal != RP_ACCEPTED)
        return true;
    return c->sort == SETTINGS ? library_writes_settings(sheet, c)
        : library_writes_request(sheet, c, expected->disks);
}

static const char UP_TO_MOST[] = " (disks checked up to 63; --disks N for a unit's)";

int contents_show(const struct bytes *sheet, const struct expected *expected, bool disks_known, const char *title)
{
    static struct contents contents;
    struct bytes text = bytes_new();
    bool good;
    if (title != NULL)
        bytes_addf(&text, "%s\n", title);
    bytes_addf(&text, " byte  bytes                       field\n");
    contents_read(sheet, expected, &contents, &text);
    if (contents.refusal == RP_ACCEPTED)
        bytes_addf(&text, "%5zu  %-28sthe end: a whole sheet%s\n", sheet->len, "",
            contents.sort == REQUEST && !disks_known ? UP_TO_MOST : "");
    good = output_write(NULL, text.at, text.len);
    if (good && contents.refusal != RP_ACCEPTED) {
        contents_say(&contents, NULL, contents.refusal == RP_WRONG_KIND
            ? "these are not a sheet's bytes, or one of a newer version"
            : remedy_here(contents.refusal, contents.sort));
        good = false;
    }
    if (!library_agrees(sheet, &contents, expected)) {
        say("%s", SAYS_OTHERWISE);
        good = false;
    }
    bytes_free(&text);
    return good ? STATUS_DONE : STATUS_BAD;
}
