/*
 * The exported functions from C, with guards around every lent buffer. Each test is a line `ok NAME` or
 * `FAILED NAME: why`, and the last line is `end of the tests`; the status is 1 if any failed.
 *
 * The bytes and numbers expected are document 01's samples, or follow from its ranges and from document 02 by hand. A
 * call is made three times, on buffers that stand: between guards, where every byte is held against what it has to be;
 * in blocks of memory of the exact length, where the address sanitizer and valgrind see a byte too far; and right
 * before a closed page, where a byte too far, read or written, ends the program.
 */
#define _DEFAULT_SOURCE
#include <stdbool.h>
#include <stdio.h>
#include <stdlib.h>
#include <string.h>
#include <sys/mman.h>
#include <unistd.h>

#include "rippleplank.h"

enum { FILL = 0xA5, GUARD = 64, MOST_BYTES = 16384, MOST = 0x7FFFFFFF };

static unsigned failures;

static void verdict(const char *name, const char *why)
{
    if (why == NULL) {
        printf("ok %s\n", name);
        return;
    }
    printf("FAILED %s: %s\n", name, why);
    failures++;
}

static void *need(void *memory)
{
    if (memory == NULL) {
        puts("FAILED memory: there is none");
        exit(1);
    }
    return memory;
}

/* Bytes to lend: what is in them, and how many. */
struct list {
    uint8_t at[MOST_BYTES];
    size_t len;
};

/* How a buffer stands in each of the three calls. */
enum { GUARDED, EXACT, EDGE, PLACES };

/* The same buffer in all places, and what was in it. */
struct lent {
    uint8_t *at[PLACES];
    uint8_t *before;
    size_t len;
    uint8_t *pages;
    size_t pages_len;
};

/* Pages of which the last is closed, so that so many bytes end right before it. */
static uint8_t *before_closed_page(struct lent *l)
{
    size_t page = (size_t)sysconf(_SC_PAGESIZE), open = (l->len / page + 1) * page;
    l->pages_len = open + page;
    l->pages = mmap(NULL, l->pages_len, PROT_READ | PROT_WRITE, MAP_PRIVATE | MAP_ANONYMOUS, -1, 0);
    if (l->pages == MAP_FAILED || mprotect(l->pages + open, page, PROT_NONE) != 0)
        need(NULL);
    return l->pages + open - l->len;
}

static struct lent lend(const uint8_t *content, size_t len)
{
    struct lent l = { { NULL, NULL, NULL }, need(malloc(len + 1)), len, NULL, 0 };
    l.at[GUARDED] = (uint8_t *)need(malloc(len + 2 * GUARD)) + GUARD;
    l.at[EXACT] = need(malloc(len + (len == 0)));
    l.at[EDGE] = before_closed_page(&l);
    memset(l.at[GUARDED] - GUARD, FILL, len + 2 * GUARD);
    memset(l.before, FILL, len + 1);
    if (content != NULL)
        memcpy(l.before, content, len);
    for (int i = 0; i < PLACES; i++)
        memcpy(l.at[i], l.before, len);
    return l;
}

static void give_back(struct lent *l)
{
    free(l->at[GUARDED] - GUARD);
    free(l->at[EXACT]);
    munmap(l->pages, l->pages_len);
    free(l->before);
}

static struct lent lend_list(const struct list *list)
{
    return lend(list->at, list->len);
}

static struct lent lend_room(size_t room)
{
    return lend(NULL, room);
}

/* Whether a buffer is now, in all places, `now` and then what it was, and its guards stand. */
static bool holds(const struct lent *l, const uint8_t *now, size_t len)
{
    for (size_t i = 0; i < GUARD; i++)
        if (l->at[GUARDED][l->len + i] != FILL || *(l->at[GUARDED] - 1 - i) != FILL)
            return false;
    if (len > l->len)
        return false;
    for (int i = 0; i < PLACES; i++)
        if ((len > 0 && memcmp(l->at[i], now, len) != 0)
            || memcmp(l->at[i] + len, l->before + len, l->len - len) != 0)
            return false;
    return true;
}

static bool is_unchanged(const struct lent *l)
{
    return holds(l, NULL, 0);
}

static void add(struct list *list, unsigned byte)
{
    if (list->len == MOST_BYTES)
        exit(1);
    list->at[list->len++] = (uint8_t)byte;
}

/* A number in its shortest form on a sheet, by division. */
static void add_number(struct list *sheet, uint32_t value)
{
    for (; value > 127; value /= 128)
        add(sheet, 128 + value % 128);
    add(sheet, value);
}

/* A number in so many bytes, lowest first. */
static void add_wide(struct list *list, uint64_t value, int bytes)
{
    for (; bytes > 0; bytes--, value /= 256)
        add(list, (unsigned)(value % 256));
}

/* A sheet from hex digits, parted by blanks. */
static struct list *sheet_of(const char *hex)
{
    static struct list sheets[4];
    static unsigned turn;
    struct list *sheet = &sheets[turn++ % 4];
    unsigned byte;
    int used;
    for (sheet->len = 0; sscanf(hex, "%2x%n", &byte, &used) == 1; hex += used)
        add(sheet, byte);
    return sheet;
}

/* The answer of a refusal: its number in bits 0 to 7, its place in bits 32 to 63, and nothing else. */
static uint64_t at(unsigned refusal, uint32_t place)
{
    return refusal + place * (uint64_t)4294967296u;
}

/* The answer where there is no room: the bytes or entries that were needed stand in the place. */
static uint64_t needs(uint32_t length)
{
    return at(RP_NO_ROOM, length);
}

/* ---- settings ---- */

static struct list costs, loads, delays, marks;

static void clear_rows(void)
{
    costs.len = loads.len = delays.len = marks.len = 0;
}

static void add_row(uint32_t cost, uint32_t load, uint32_t delay)
{
    add_wide(&costs, cost, 4);
    add_wide(&loads, load, 4);
    add_wide(&delays, delay, 4);
}

/* The writers that take these three lists: they differ in the kind that they write, and in nothing else. */
static const struct writer {
    const char *name;
    uint8_t kind;
    uint64_t (*write)(uint32_t, uint32_t, const uint8_t *, size_t, const uint8_t *, size_t, const uint8_t *, size_t,
        uint8_t *, size_t);
} WRITERS[] = { { "", 1, rp_write_settings }, { "kind 5, ", 5, rp_write_settings_overlap } };

/* One call of a writer on the rows as they stand. */
static void settings_by(const struct writer *writer, const char *name, uint32_t unit, uint32_t tenancy, size_t room,
    uint64_t refusal, const struct list *sheet)
{
    struct lent c = lend_list(&costs), l = lend_list(&loads), d = lend_list(&delays), out = lend_room(room);
    uint64_t expected = sheet == NULL ? refusal : (uint64_t)sheet->len * 4294967296u;
    const char *why = NULL;
    for (int i = 0; i < PLACES; i++)
        if (writer->write(unit, tenancy, c.at[i], c.len, l.at[i], l.len, d.at[i], d.len, out.at[i], out.len)
            != expected)
            why = "another answer";
    if (why == NULL && !(sheet == NULL ? is_unchanged(&out) : holds(&out, sheet->at, sheet->len)))
        why = "another buffer";
    if (why == NULL && (!is_unchanged(&c) || !is_unchanged(&l) || !is_unchanged(&d)))
        why = "a list was changed";
    verdict(name, why);
    give_back(&c);
    give_back(&l);
    give_back(&d);
    give_back(&out);
}

/*
 * One call of each writer on the rows as they stand, for the sheet that it is with the writer's kind; a null sheet is
 * expected to be refused with this answer (6 alone has place 0).
 */
static void settings(const char *name, uint32_t unit, uint32_t tenancy, size_t room, uint64_t refusal,
    const struct list *sheet)
{
    static struct list of_kind;
    char title[128];
    for (size_t i = 0; i < sizeof WRITERS / sizeof WRITERS[0]; i++) {
        if (sheet != NULL) {
            of_kind = *sheet;
            of_kind.at[0] = WRITERS[i].kind;
        }
        snprintf(title, sizeof title, "%s%s", WRITERS[i].name, name);
        settings_by(&WRITERS[i], title, unit, tenancy, room, refusal, sheet == NULL ? NULL : &of_kind);
    }
}

static void settings_sample(void)
{
    const struct list *sheet = sheet_of("01 07 AC 02 03 04 00 01 03 02 00 0A 00 00");
    clear_rows();
    add_row(4, 0, 1);
    add_row(3, 2, 0);
    add_row(10, 0, 0);
    settings("settings: the document's sample, exact fit", 7, 300, 14, 0, sheet);
    settings("settings: one byte more stays as it was", 7, 300, 15, 0, sheet);
    settings("settings: a long buffer stays as it was beyond", 7, 300, 652, 0, sheet);
    settings("settings: one byte less is 11, and 14 were needed", 7, 300, 13, needs(14), NULL);
    settings("settings: no room is 11, and 14 were needed", 7, 300, 0, needs(14), NULL);
    settings("settings: tenancy 0 is 6", 7, 0, 652, 6, NULL);
    settings("settings: tenancy 0 is 6 before 11", 7, 0, 0, 6, NULL);
}

static void settings_ends(void)
{
    static struct list longest;
    clear_rows();
    add_row(1, 0, 0);
    settings("settings: the least of everything", 0, 1, 7, 0, sheet_of("01 00 01 01 01 00 00"));
    clear_rows();
    add_row(1000000, 100000000, 1000000);
    settings("settings: the largest of everything", 4294967295u, 4294967295u, 22, 0,
        sheet_of("01 FF FF FF FF 0F FF FF FF FF 0F 01 C0 84 3D 80 C2 D7 2F C0 84 3D"));
    longest = *sheet_of("01 FF FF FF FF 0F FF FF FF FF 0F 40");
    clear_rows();
    for (int i = 0; i < 64; i++) {
        add_row(1000000, 100000000, 1000000);
        add_number(&longest, 1000000);
        add_number(&longest, 100000000);
        add_number(&longest, 1000000);
    }
    verdict("settings: the longest sheet of these kinds is 652 bytes", longest.len == 652 ? NULL : "it is not");
    settings("settings: 64 disks, the longest sheet, exact fit", 4294967295u, 4294967295u, 652, 0, &longest);
    settings("settings: the longest sheet, one byte less is 11", 4294967295u, 4294967295u, 651, needs(652), NULL);
    settings("settings: the longest sheet, 100 bytes is 11", 4294967295u, 4294967295u, 100, needs(652), NULL);
    add_row(1, 0, 0);
    settings("settings: 65 disks is 6", 7, 300, 652, 6, NULL);
    settings("settings: 65 disks is 6 before 11", 7, 300, 0, 6, NULL);
    clear_rows();
    settings("settings: no disks is 6", 7, 300, 652, 6, NULL);
    settings("settings: no disks and no room is 6", 7, 300, 0, 6, NULL);
}

/* Two rows, of which one is out of range. */
static void settings_row(const char *name, uint32_t cost, uint32_t load, uint32_t delay)
{
    char title[128];
    clear_rows();
    add_row(cost, load, delay);
    add_row(1, 0, 0);
    snprintf(title, sizeof title, "settings: %s is 15, in the first row", name);
    settings(title, 7, 300, 652, 15, NULL);
    snprintf(title, sizeof title, "settings: tenancy 0 is 6 before %s", name);
    settings(title, 7, 0, 652, 6, NULL);
    loads.len -= 4;
    snprintf(title, sizeof title, "settings: a load too few is 6 before %s", name);
    settings(title, 7, 300, 652, 6, NULL);
    clear_rows();
    add_row(1, 0, 0);
    add_row(cost, load, delay);
    snprintf(title, sizeof title, "settings: %s is 15 before 11, in the last row", name);
    settings(title, 7, 300, 0, 15, NULL);
    while (costs.len < 4 * 65)
        add_row(cost, load, delay);
    snprintf(title, sizeof title, "settings: 65 disks is 6 before %s", name);
    settings(title, 7, 300, 652, 6, NULL);
}

static void settings_ranges(void)
{
    settings_row("cost 0", 0, 0, 0);
    settings_row("cost 1,000,001", 1000001, 0, 0);
    settings_row("cost 4,294,967,295", 4294967295u, 0, 0);
    settings_row("cost 65,536 times 256", 16777216, 0, 0);
    settings_row("load 100,000,001", 1, 100000001, 0);
    settings_row("load 4,294,967,295", 1, 4294967295u, 0);
    settings_row("delay 1,000,001", 1, 0, 1000001);
    settings_row("delay 4,294,967,295", 1, 0, 4294967295u);
}

/* Two rows whose lists are cut to these lengths. */
static void settings_lists(const char *name, size_t c, size_t l, size_t d)
{
    clear_rows();
    add_row(1, 0, 0);
    add_row(1, 0, 0);
    costs.len = c;
    loads.len = l;
    delays.len = d;
    settings(name, 7, 300, 652, 6, NULL);
}

static void settings_lengths(void)
{
    settings_lists("settings: a cost too few is 6", 4, 8, 8);
    settings_lists("settings: a load too few is 6", 8, 4, 8);
    settings_lists("settings: a delay too few is 6", 8, 8, 4);
    settings_lists("settings: a cost too many is 6", 8, 4, 4);
    settings_lists("settings: no costs is 6", 0, 8, 8);
    settings_lists("settings: no loads is 6", 8, 0, 8);
    settings_lists("settings: no delays is 6", 8, 8, 0);
    settings_lists("settings: costs broken inside a number is 6", 7, 8, 8);
    settings_lists("settings: loads broken inside a number is 6", 8, 7, 8);
    settings_lists("settings: delays broken inside a number is 6", 8, 8, 7);
    settings_lists("settings: all broken alike, one byte less, is 6", 7, 7, 7);
    settings_lists("settings: all broken alike, one byte more, is 6", 5, 5, 5);
    settings_lists("settings: all broken alike, half a number, is 6", 6, 6, 6);
    settings_lists("settings: lists of one byte is 6", 1, 1, 1);
}

/* ---- settings with marks ---- */

static void add_marked(uint32_t cost, uint32_t load, uint32_t delay, uint32_t mark)
{
    add_row(cost, load, delay);
    add_wide(&marks, mark, 4);
}

/* One call on the rows and marks as they stand. */
static void marked(const char *name, uint32_t unit, uint32_t tenancy, uint32_t rule, size_t room, uint64_t refusal,
    const struct list *sheet)
{
    struct lent c = lend_list(&costs), l = lend_list(&loads), d = lend_list(&delays), m = lend_list(&marks);
    struct lent out = lend_room(room);
    uint64_t expected = sheet == NULL ? refusal : (uint64_t)sheet->len * 4294967296u;
    const char *why = NULL;
    for (int i = 0; i < PLACES; i++)
        if (rp_write_settings_marked(unit, tenancy, rule, c.at[i], c.len, l.at[i], l.len, d.at[i], d.len, m.at[i],
            m.len, out.at[i], out.len) != expected)
            why = "another answer";
    if (why == NULL && !(sheet == NULL ? is_unchanged(&out) : holds(&out, sheet->at, sheet->len)))
        why = "another buffer";
    if (why == NULL && (!is_unchanged(&c) || !is_unchanged(&l) || !is_unchanged(&d) || !is_unchanged(&m)))
        why = "a list was changed";
    verdict(name, why);
    give_back(&c);
    give_back(&l);
    give_back(&d);
    give_back(&m);
    give_back(&out);
}

/* Document 01's rows, with disk 1 out. */
static void marked_rows(void)
{
    clear_rows();
    add_marked(4, 0, 1, 0);
    add_marked(3, 2, 0, 1);
    add_marked(10, 0, 0, 0);
}

static void marked_sample(void)
{
    static const uint32_t RULES[] = { 0, 3, 257, 4294967295u };
    const struct list *sheet = sheet_of("06 07 AC 02 03 01 04 00 01 00 03 02 00 01 0A 00 00 00");
    char title[64];
    marked_rows();
    marked("marked: disk 1 is out, exact fit", 7, 300, 1, 18, 0, sheet);
    marked("marked: one byte more stays as it was", 7, 300, 1, 19, 0, sheet);
    marked("marked: a long buffer stays as it was beyond", 7, 300, 1, 717, 0, sheet);
    marked("marked: the larger is rule 2", 7, 300, 2, 18, 0,
        sheet_of("06 07 AC 02 03 02 04 00 01 00 03 02 00 01 0A 00 00 00"));
    marked("marked: one byte less is 11, and 18 were needed", 7, 300, 1, 17, needs(18), NULL);
    marked("marked: no room is 11, and 18 were needed", 7, 300, 1, 0, needs(18), NULL);
    marked("marked: tenancy 0 is 6", 7, 0, 1, 717, 6, NULL);
    marked("marked: tenancy 0 is 6 before the rule", 7, 0, 3, 717, 6, NULL);
    for (size_t i = 0; i < sizeof RULES / sizeof RULES[0]; i++) {
        snprintf(title, sizeof title, "marked: rule %u is 15", (unsigned)RULES[i]);
        marked(title, 7, 300, RULES[i], 717, 15, NULL);
        snprintf(title, sizeof title, "marked: rule %u is 15 before 11", (unsigned)RULES[i]);
        marked(title, 7, 300, RULES[i], 0, 15, NULL);
    }
}

static void marked_ends(void)
{
    static struct list longest;
    clear_rows();
    add_marked(1, 0, 0, 0);
    marked("marked: the least of everything", 0, 1, 1, 9, 0, sheet_of("06 00 01 01 01 01 00 00 00"));
    clear_rows();
    longest = *sheet_of("06 FF FF FF FF 0F FF FF FF FF 0F 40 02");
    for (int i = 0; i < 64; i++) {
        add_marked(1000000, 100000000, 1000000, 1);
        add_number(&longest, 1000000);
        add_number(&longest, 100000000);
        add_number(&longest, 1000000);
        add_number(&longest, 1);
    }
    verdict("marked: the longest sheet is 717 bytes",
        longest.len == 717 && RP_LONGEST_SETTINGS == 717 ? NULL : "it is not");
    marked("marked: 64 disks, all out, the longest sheet, exact fit", 4294967295u, 4294967295u, 2, 717, 0, &longest);
    marked("marked: the longest sheet, one byte less is 11", 4294967295u, 4294967295u, 2, 716, needs(717), NULL);
    add_marked(1, 0, 0, 0);
    marked("marked: 65 disks is 6", 7, 300, 1, 717, 6, NULL);
    marked("marked: 65 disks is 6 before the rule", 7, 300, 3, 0, 6, NULL);
    clear_rows();
    marked("marked: no disks is 6", 7, 300, 1, 717, 6, NULL);
    marked("marked: no disks is 6 before the rule", 7, 300, 0, 717, 6, NULL);
}

static void marked_ranges(void)
{
    static const uint32_t MARKS[] = { 2, 3, 256, 257, 65536, 16777216, 4294967295u };
    char title[64];
    for (size_t i = 0; i < sizeof MARKS / sizeof MARKS[0]; i++) {
        marked_rows();
        marks.len = 4;
        add_wide(&marks, MARKS[i], 4);
        add_wide(&marks, 0, 4);
        snprintf(title, sizeof title, "marked: mark %u is 15", (unsigned)MARKS[i]);
        marked(title, 7, 300, 1, 717, 15, NULL);
        snprintf(title, sizeof title, "marked: mark %u is 15 before 11", (unsigned)MARKS[i]);
        marked(title, 7, 300, 2, 0, 15, NULL);
        snprintf(title, sizeof title, "marked: tenancy 0 is 6 before mark %u", (unsigned)MARKS[i]);
        marked(title, 7, 0, 1, 717, 6, NULL);
    }
    clear_rows();
    add_marked(1, 0, 0, 0);
    add_marked(1, 0, 0, 2);
    marked("marked: a last mark of 2 is 15", 7, 300, 1, 717, 15, NULL);
    clear_rows();
    add_marked(0, 0, 0, 1);
    marked("marked: cost 0 of a disk that is out is 15", 7, 300, 1, 717, 15, NULL);
    clear_rows();
    add_marked(1, 100000001, 0, 1);
    marked("marked: load 100,000,001 of a disk that is out is 15", 7, 300, 1, 717, 15, NULL);
    clear_rows();
    add_marked(1, 0, 1000001, 0);
    marked("marked: delay 1,000,001 is 15", 7, 300, 1, 717, 15, NULL);
}

/* The rows with each list in turn too short, too long and broken. */
static void marked_lengths(void)
{
    static struct list *const LISTS[] = { &costs, &loads, &delays, &marks };
    static const char *const NAMES[] = { "costs", "loads", "delays", "marks" };
    char title[64];
    for (size_t i = 0; i < 4; i++) {
        marked_rows();
        LISTS[i]->len = 8;
        snprintf(title, sizeof title, "marked: %s of 8 bytes is 6", NAMES[i]);
        marked(title, 7, 300, 1, 717, 6, NULL);
        snprintf(title, sizeof title, "marked: %s of 8 bytes is 6 before the rule", NAMES[i]);
        marked(title, 7, 300, 3, 717, 6, NULL);
        LISTS[i]->len = 0;
        snprintf(title, sizeof title, "marked: no %s is 6", NAMES[i]);
        marked(title, 7, 300, 1, 717, 6, NULL);
        LISTS[i]->len = 11;
        snprintf(title, sizeof title, "marked: %s broken inside a number is 6", NAMES[i]);
        marked(title, 7, 300, 1, 717, 6, NULL);
        LISTS[i]->len = 16;
        snprintf(title, sizeof title, "marked: %s of 16 bytes is 6", NAMES[i]);
        marked(title, 7, 300, 1, 717, 6, NULL);
    }
    marked_rows();
    costs.len = loads.len = delays.len = marks.len = 10;
    marked("marked: all broken alike is 6", 7, 300, 1, 717, 6, NULL);
}

/* ---- requests ---- */

static struct list copies;

static void request_of(const char *name, uint32_t kind, uint32_t unit, uint32_t tenancy, uint32_t age, uint32_t disks,
    size_t room, uint64_t refusal, const struct list *sheet)
{
    struct lent c = lend_list(&copies), out = lend_room(room);
    uint64_t expected = sheet == NULL ? refusal : (uint64_t)sheet->len * 4294967296u;
    const char *why = NULL;
    for (int i = 0; i < PLACES; i++)
        if (rp_write_request(kind, unit, tenancy, age, disks, c.at[i], c.len, out.at[i], out.len) != expected)
            why = "another answer";
    if (why == NULL && !(sheet == NULL ? is_unchanged(&out) : holds(&out, sheet->at, sheet->len)))
        why = "another buffer";
    if (why == NULL && !is_unchanged(&c))
        why = "the list was changed";
    verdict(name, why);
    give_back(&c);
    give_back(&out);
}

/* One without an age. */
static void request(const char *name, uint32_t unit, uint32_t tenancy, uint32_t disks, size_t room, uint64_t refusal,
    const struct list *sheet)
{
    request_of(name, RP_REQUEST, unit, tenancy, 0, disks, room, refusal, sheet);
}

/* The copies of some blocks; `blocks` of them. */
static void set_copies(const uint64_t *masks, size_t blocks)
{
    copies.len = 0;
    for (size_t i = 0; i < blocks; i++)
        add_wide(&copies, masks[i], 8);
}

static void request_sample(void)
{
    const struct list *sheet = sheet_of("02 07 AC 02 04 02 00 01 02 00 01 02 00 01 02 01 02");
    set_copies((uint64_t[]){ 3, 3, 3, 6 }, 4);
    request("request: the document's sample, exact fit", 7, 300, 3, 17, 0, sheet);
    request("request: one byte more stays as it was", 7, 300, 3, 18, 0, sheet);
    request("request: a long buffer stays as it was beyond", 7, 300, 64, 9234, 0, sheet);
    request("request: one byte less is 11, and 17 were needed", 7, 300, 3, 16, needs(17), NULL);
    request("request: no room is 11, and 17 were needed", 7, 300, 3, 0, needs(17), NULL);
    request("request: tenancy 0 is 6", 7, 0, 3, 9234, 6, NULL);
    request("request: tenancy 0 is 6 before 11", 7, 0, 3, 0, 6, NULL);
    request("request: N 0 is 6", 7, 300, 0, 9234, 6, NULL);
    request("request: N 65 is 6", 7, 300, 65, 9234, 6, NULL);
    request("request: N 4,294,967,295 is 6", 7, 300, 4294967295u, 9234, 6, NULL);
    request("request: a disk at N is 16", 7, 300, 2, 9234, 16, NULL);
    request("request: a disk at N is 16 before 11", 7, 300, 2, 0, 16, NULL);
    request("request: tenancy 0 is 6 before a disk at N", 7, 0, 2, 9234, 6, NULL);
    request("request: N 0 is 6 before a disk at N", 7, 300, 0, 9234, 6, NULL);
}

static void request_no_blocks(void)
{
    const struct list *sheet = sheet_of("02 07 AC 02 00");
    copies.len = 0;
    request("request: no blocks, exact fit", 7, 300, 1, 5, 0, sheet);
    request("request: no blocks, 64 disks", 7, 300, 64, 6, 0, sheet);
    request("request: no blocks, one byte less is 11", 7, 300, 1, 4, needs(5), NULL);
    request("request: no blocks, N 0 is 6", 7, 300, 0, 9234, 6, NULL);
    request("request: no blocks, N 65 is 6", 7, 300, 65, 9234, 6, NULL);
    request("request: no blocks, tenancy 0 is 6", 7, 0, 1, 9234, 6, NULL);
    request("request: no blocks, the largest unit and tenancy", 4294967295u, 4294967295u, 1, 12, 0,
        sheet_of("02 FF FF FF FF 0F FF FF FF FF 0F 00"));
}

static void request_copies(void)
{
    set_copies((uint64_t[]){ 0x8000000000000000u }, 1);
    request("request: disk 63 of 64", 7, 300, 64, 7, 0, sheet_of("02 07 AC 02 01 01 3F"));
    request("request: disk 63 of 63 is 16", 7, 300, 63, 9234, 16, NULL);
    set_copies((uint64_t[]){ 0x8000000000000001u }, 1);
    request("request: the first and the last disk", 7, 300, 64, 8, 0, sheet_of("02 07 AC 02 01 02 00 3F"));
    set_copies((uint64_t[]){ 0x8040201008040201u }, 1);
    request("request: eight copies, one in each byte", 7, 300, 64, 14, 0,
        sheet_of("02 07 AC 02 01 08 00 09 12 1B 24 2D 36 3F"));
    set_copies((uint64_t[]){ 0x8040201008040203u }, 1);
    request("request: nine copies is 6", 7, 300, 64, 9234, 6, NULL);
    request("request: nine copies, one of them at N, is 6 before 16", 7, 300, 63, 9234, 6, NULL);
    request("request: nine copies, eight of them at N or above, is 6 before 16", 7, 300, 1, 9234, 6, NULL);
    set_copies((uint64_t[]){ UINT64_MAX }, 1);
    request("request: all 64 copies is 6", 7, 300, 64, 9234, 6, NULL);
    set_copies((uint64_t[]){ 1, 0 }, 2);
    request("request: no copies is 7", 7, 300, 3, 9234, 7, NULL);
    request("request: no copies is 7 before 11", 7, 300, 3, 0, 7, NULL);
    request("request: N 0 is 6 before 7", 7, 300, 0, 9234, 6, NULL);
    request("request: tenancy 0 is 6 before 7", 7, 0, 3, 9234, 6, NULL);
    set_copies((uint64_t[]){ 0, 8 }, 2);
    request("request: the first block's 7 before the second's 16", 7, 300, 3, 9234, 7, NULL);
    set_copies((uint64_t[]){ 8, 0 }, 2);
    request("request: the first block's 16 before the second's 7", 7, 300, 3, 9234, 16, NULL);
    set_copies((uint64_t[]){ 8, 511 }, 2);
    request("request: the first block's 16 before the second's 6", 7, 300, 3, 9234, 16, NULL);
    set_copies((uint64_t[]){ 511, 8 }, 2);
    request("request: the first block's 6 before the second's 16", 7, 300, 3, 9234, 6, NULL);
}

static void request_lengths(void)
{
    static const size_t LENGTHS[] = { 1, 2, 4, 7, 9, 12, 15 };
    char title[64];
    for (size_t i = 0; i < sizeof LENGTHS / sizeof LENGTHS[0]; i++) {
        set_copies((uint64_t[]){ 1, 0 }, 2);
        copies.len = LENGTHS[i];
        snprintf(title, sizeof title, "request: a list of %zu bytes is 6", LENGTHS[i]);
        request(title, 7, 300, 3, 9234, 6, NULL);
    }
}

/* The kind and the age: what is written, and each refusal before the ones that follow it. */
static void request_kinds(void)
{
    static const uint32_t KINDS[] = { 0, 1, 3, 5, 6, 7, 258, 4294967295u };
    char title[96];
    set_copies((uint64_t[]){ 3, 3, 3, 6 }, 4);
    request_of("request: an age of 5", 4, 7, 300, 5, 3, 18, 0,
        sheet_of("04 07 AC 02 05 04 02 00 01 02 00 01 02 00 01 02 01 02"));
    request_of("request: an age of 0 is written, and the kind stays 4", 4, 7, 300, 0, 3, 18, 0,
        sheet_of("04 07 AC 02 00 04 02 00 01 02 00 01 02 00 01 02 01 02"));
    request_of("request: an age of an hour", 4, 7, 300, 3600000000u, 3, 64, 0,
        sheet_of("04 07 AC 02 80 C8 CE B4 0D 04 02 00 01 02 00 01 02 00 01 02 01 02"));
    request_of("request: with an age, one byte less is 11, and 18 were needed", 4, 7, 300, 5, 3, 17, needs(18), NULL);
    request_of("request: kind 2 with an age of 1 is 15", 2, 7, 300, 1, 3, 9234, 15, NULL);
    request_of("request: kind 2 with the greatest age is 15", 2, 7, 300, 4294967295u, 3, 9234, 15, NULL);
    request_of("request: kind 2 with an age is 15 before N", 2, 7, 300, 1, 0, 9234, 15, NULL);
    request_of("request: kind 2 with an age is 15 before a disk at N", 2, 7, 300, 1, 2, 9234, 15, NULL);
    request_of("request: kind 2 with an age is 15 before 11", 2, 7, 300, 1, 3, 0, 15, NULL);
    request_of("request: tenancy 0 is 6 before 15", 2, 7, 0, 1, 3, 9234, 6, NULL);
    request_of("request: kind 4, tenancy 0 is 6", 4, 7, 0, 5, 3, 9234, 6, NULL);
    request_of("request: kind 4, N 65 is 6", 4, 7, 300, 5, 65, 9234, 6, NULL);
    request_of("request: kind 4, a disk at N is 16", 4, 7, 300, 5, 2, 9234, 16, NULL);
    for (size_t i = 0; i < sizeof KINDS / sizeof KINDS[0]; i++) {
        snprintf(title, sizeof title, "request: kind %u is 3", (unsigned)KINDS[i]);
        request_of(title, KINDS[i], 7, 300, 0, 3, 9234, 3, NULL);
        snprintf(title, sizeof title, "request: kind %u is 3 before all else", (unsigned)KINDS[i]);
        request_of(title, KINDS[i], 7, 0, 1, 0, 0, 3, NULL);
    }
    copies.len = 31;
    request_of("request: a broken list is 6 before 15", 2, 7, 300, 1, 3, 9234, 6, NULL);
    request_of("request: a broken list, kind 5, is 3", 5, 7, 300, 1, 3, 9234, 3, NULL);
    copies.len = 0;
    request_of("request: no blocks, with an age", 4, 7, 300, 300, 1, 7, 0, sheet_of("04 07 AC 02 AC 02 00"));
    request_of("request: no blocks, kind 2 with an age is 15", 2, 7, 300, 300, 1, 7, 15, NULL);
    for (int i = 0; i < 1025; i++)
        add_wide(&copies, 1, 8);
    request_of("request: kind 2 with an age is 15 before 1,025 blocks", 2, 7, 300, 1, 64, 9234, 15, NULL);
    request_of("request: kind 4, 1,025 blocks is 6", 4, 7, 300, 1, 64, 9234, 6, NULL);
}

static void request_longest(void)
{
    static struct list longest;
    longest = *sheet_of("02 FF FF FF FF 0F FF FF FF FF 0F 80 08");
    copies.len = 0;
    for (int i = 0; i < 1024; i++) {
        add_wide(&copies, 0xFF00000000000000u, 8);
        add(&longest, 8);
        for (unsigned d = 56; d < 64; d++)
            add(&longest, d);
    }
    request("request: 1,024 blocks without an age, 9,229 bytes, exact fit", 4294967295u, 4294967295u, 64, 9229, 0,
        &longest);
    request("request: the same, one byte less is 11", 4294967295u, 4294967295u, 64, 9228, needs(9229), NULL);
    longest = *sheet_of("04 FF FF FF FF 0F FF FF FF FF 0F FF FF FF FF 0F 80 08");
    for (int i = 0; i < 1024; i++) {
        add(&longest, 8);
        for (unsigned d = 56; d < 64; d++)
            add(&longest, d);
    }
    verdict("request: the longest sheet is 9,234 bytes",
        longest.len == 9234 && RP_LONGEST_REQUEST == 9234 ? NULL : "it is not");
    request_of("request: 1,024 blocks and the greatest age, the longest sheet, exact fit", 4, 4294967295u, 4294967295u,
        4294967295u, 64, 9234, 0, &longest);
    request_of("request: the longest sheet, one byte less is 11", 4, 4294967295u, 4294967295u, 4294967295u, 64, 9233,
        needs(9234), NULL);
    add_wide(&copies, 1, 8);
    request("request: 1,025 blocks is 6", 7, 300, 64, 9234, 6, NULL);
    request("request: 1,025 blocks is 6 before 11", 7, 300, 64, 0, 6, NULL);
}

/* ---- plans ---- */

/* What a plan sheet holds; a null one is expected to be refused. */
struct plan {
    uint32_t blocks, time, size;
    const struct list *disks, *short_set;
};

static void plan(const char *name, uint32_t unit, uint32_t tenancy, const struct list *sheet, size_t disk_room,
    size_t set_room, uint64_t refusal, const struct plan *read)
{
    struct lent s = lend_list(sheet), disks = lend_room(disk_room), set = lend_room(set_room);
    uint64_t expected = read == NULL ? refusal
        : read->blocks * (uint64_t)256 + read->time * (uint64_t)524288 + read->size * (uint64_t)1125899906842624;
    const char *why = NULL;
    for (int i = 0; i < PLACES; i++)
        if (rp_read_plan(unit, tenancy, s.at[i], s.len, disks.at[i], disks.len, set.at[i], set.len) != expected)
            why = "another answer";
    if (why == NULL && !(read == NULL ? is_unchanged(&disks) : holds(&disks, read->disks->at, read->disks->len)))
        why = "other disks";
    if (why == NULL && !(read == NULL ? is_unchanged(&set) : holds(&set, read->short_set->at, read->short_set->len)))
        why = "another short set";
    if (why == NULL && !is_unchanged(&s))
        why = "the sheet was changed";
    verdict(name, why);
    give_back(&s);
    give_back(&disks);
    give_back(&set);
}

static const char SAMPLE[] = "03 07 AC 02 04 09 00 00 01 01 04 00 01 02 03";

static void plan_sample(void)
{
    static struct list sample, disks, set;
    struct plan read = { 4, 9, 4, &disks, &set };
    char title[80];
    sample = *sheet_of(SAMPLE);
    disks = *sheet_of("00 00 01 01");
    set = *sheet_of("00 00 01 00 02 00 03 00");
    plan("plan: the document's sample, exact fit", 7, 300, &sample, 4, 8, 0, &read);
    plan("plan: longer lists stay as they were beyond", 7, 300, &sample, 9, 20, 0, &read);
    plan("plan: an odd last byte is not used, exact fit", 7, 300, &sample, 4, 9, 0, &read);
    plan("plan: an odd last byte is not used, longer list", 7, 300, &sample, 5, 13, 0, &read);
    plan("plan: an odd last byte does not count: 7 bytes for 4 blocks is 11", 7, 300, &sample, 4, 7, needs(4), NULL);
    plan("plan: one disk less is 11", 7, 300, &sample, 3, 8, needs(4), NULL);
    plan("plan: one block less of the short set is 11", 7, 300, &sample, 4, 6, needs(4), NULL);
    plan("plan: no lists is 11", 7, 300, &sample, 0, 0, needs(4), NULL);
    plan("plan: no list of disks is 11", 7, 300, &sample, 0, 8, needs(4), NULL);
    plan("plan: a list of one byte for the short set is 11", 7, 300, &sample, 4, 1, needs(4), NULL);
    plan("plan: another unit is 4, at byte 1", 8, 300, &sample, 4, 8, at(4, 1), NULL);
    plan("plan: another tenancy is 5, at byte 2", 7, 301, &sample, 4, 8, at(5, 2), NULL);
    plan("plan: tenancy 0 expected is 5, at byte 2", 7, 0, &sample, 4, 8, at(5, 2), NULL);
    for (size_t len = 0; len < 15; len++) {
        sample.len = len;
        snprintf(title, sizeof title, "plan: the sample cut to %zu bytes is 1, at its length", len);
        plan(title, 7, 300, &sample, 4, 8, at(1, (uint32_t)len), NULL);
    }
}

static void plan_ends(void)
{
    static struct list none, sheet, disks, set;
    struct plan empty = { 0, 0, 0, &none, &none };
    struct plan one = { 1, 1125000000, 1, &disks, &set };
    plan("plan: no blocks, lists of no length", 7, 300, sheet_of("03 07 AC 02 00 00 00"), 0, 0, 0, &empty);
    plan("plan: no blocks, longer lists stay as they were", 7, 300, sheet_of("03 07 AC 02 00 00 00"), 3, 5, 0, &empty);
    disks = *sheet_of("3F");
    set = *sheet_of("00 00");
    plan("plan: the largest time and disk", 4294967295u, 4294967295u,
        sheet_of("03 FF FF FF FF 0F FF FF FF FF 0F 01 C0 C6 B8 98 04 3F 01 00"), 1, 2, 0, &one);
    one.time = 1;
    disks = *sheet_of("00");
    plan("plan: the least time and disk", 0, 1, sheet_of("03 00 01 01 01 00 01 00"), 1, 2, 0, &one);
    sheet = *sheet_of("03 FF FF FF FF 0F FF FF FF FF 0F 80 08 C0 C6 B8 98 04");
    disks.len = set.len = 0;
    for (unsigned b = 0; b < 1024; b++) {
        add(&sheet, b % 64);
        add(&disks, b % 64);
        add_wide(&set, b, 2);
    }
    add_number(&sheet, 1024);
    for (unsigned b = 0; b < 1024; b++)
        add_number(&sheet, b);
    one = (struct plan){ 1024, 1125000000, 1024, &disks, &set };
    verdict("plan: the longest sheet is 2,964 bytes",
        sheet.len == 2964 && RP_LONGEST_PLAN == 2964 ? NULL : "it is not");
    plan("plan: 1,024 blocks, the longest sheet, exact fit", 4294967295u, 4294967295u, &sheet, 1024, 2048, 0, &one);
    plan("plan: the longest sheet, one disk less is 11", 4294967295u, 4294967295u, &sheet, 1023, 2048, needs(1024),
        NULL);
    plan("plan: the longest sheet, one byte less of the set is 11", 4294967295u, 4294967295u, &sheet, 1024, 2047,
        needs(1024), NULL);
    add(&sheet, 0);
    plan("plan: a byte after the longest sheet is 9, at byte 2,964", 4294967295u, 4294967295u, &sheet, 0, 0,
        at(9, 2964), NULL);
    sheet.at[2963] = 0x80 | sheet.at[2963];
    sheet.len = 2964;
    plan("plan: the longest sheet, cut inside its last number, is 1, at byte 2,964", 4294967295u, 4294967295u, &sheet,
        1024, 2048, at(1, 2964), NULL);
    sheet.len = 2963;
    plan("plan: the longest sheet, cut before its last byte, is 1, at byte 2,963", 4294967295u, 4294967295u, &sheet,
        1024, 2048, at(1, 2963), NULL);
}

/*
 * Damaged plans of unit 7 and tenancy 300. The places are counted by hand: the kind is byte 0, the unit byte 1, the
 * tenancy bytes 2 and 3, Q byte 4, R byte 5 on.
 */
static const struct {
    const char *name, *hex;
    unsigned refusal;
    uint32_t place;
} DAMAGED[] = {
    /* 1, at the sheet's length: before each number, and inside each */
    { "no bytes", "", 1, 0 },
    { "the end inside the kind", "83", 1, 1 },
    { "the end before the unit", "03", 1, 1 },
    { "the end inside the unit", "03 87", 1, 2 },
    { "the end before the tenancy", "03 07", 1, 2 },
    { "the end inside the tenancy", "03 07 AC", 1, 3 },
    { "the end before Q", "03 07 AC 02", 1, 4 },
    { "the end inside Q", "03 07 AC 02 80", 1, 5 },
    { "the end before R", "03 07 AC 02 02", 1, 5 },
    { "the end inside R", "03 07 AC 02 02 C0 C6 B8", 1, 8 },
    { "the end before a disk", "03 07 AC 02 02 09 00", 1, 7 },
    { "the end inside a disk", "03 07 AC 02 02 09 00 80", 1, 8 },
    { "the end before m", "03 07 AC 02 02 09 00 01", 1, 8 },
    { "the end inside m", "03 07 AC 02 02 09 00 01 82", 1, 9 },
    { "the end before a block", "03 07 AC 02 02 09 00 01 02 00", 1, 10 },
    { "the end inside a block", "03 07 AC 02 02 09 00 01 02 00 81", 1, 11 },
    { "four bytes of a number", "03 07 FF FF FF FF", 1, 6 },
    { "the end before R, where Q is 0", "03 07 AC 02 00", 1, 5 },
    { "the end before m, where Q is 0", "03 07 AC 02 00 00", 1, 6 },
    /* 2, at the number's first byte, though a later one shows it */
    { "a long form of the kind", "83 00 07 AC 02 01 05 01 01 00", 2, 0 },
    { "a long form of the unit", "03 87 00 AC 02 01 05 01 01 00", 2, 1 },
    { "a long form of the tenancy", "03 07 AC 82 00 01 05 01 01 00", 2, 2 },
    { "a long form of Q", "03 07 AC 02 81 00 05 01 01 00", 2, 4 },
    { "a long form of R", "03 07 AC 02 01 85 00 01 01 00", 2, 5 },
    { "a long form of a disk", "03 07 AC 02 01 05 81 00 01 00", 2, 6 },
    { "a long form of a later disk", "03 07 AC 02 02 AC 02 01 81 80 00 01 00", 2, 8 },
    { "a long form of m", "03 07 AC 02 01 05 01 81 00 00", 2, 7 },
    { "a long form of a block", "03 07 AC 02 01 05 01 01 80 00", 2, 8 },
    { "a long form of a later block", "03 07 AC 02 02 05 01 01 02 00 81 80 80 00", 2, 10 },
    { "a number above the largest", "03 07 FF FF FF FF 10", 2, 2 },
    { "a fifth byte of 128, though the sheet ends", "03 07 FF FF FF FF 80", 2, 2 },
    { "a disk above the largest number is not 16", "03 07 AC 02 01 05 FF FF FF FF 7F 01 00", 2, 6 },
    { "a time above the largest number is not 15", "03 07 AC 02 01 80 80 80 80 10 01 01 00", 2, 5 },
    /* 3, 4 and 5 */
    { "kind 0", "00", 3, 0 },
    { "a settings sheet", "01 07 AC 02 03 04 00 01 03 02 00 0A 00 00", 3, 0 },
    { "a request", "02 07 AC 02 00", 3, 0 },
    { "kind 4", "04 07 AC 02 00 00 00", 3, 0 },
    { "kind 300", "AC 02 07 AC 02 00 00 00", 3, 0 },
    { "another unit, though the sheet ends", "03 08", 4, 1 },
    { "another unit, of two bytes", "03 AC 02 AC 02 00 00 00", 4, 1 },
    { "another tenancy, though the sheet ends", "03 07 05", 5, 2 },
    { "the largest tenancy is another one", "03 07 FF FF FF FF 0F", 5, 2 },
    { "tenancy 0", "03 07 00 00 00 00", 5, 2 },
    /* 6, a count: Q and m */
    { "Q 1,025", "03 07 AC 02 81 08", 6, 4 },
    { "Q 4,294,967,295", "03 07 AC 02 FF FF FF FF 0F", 6, 4 },
    { "m 0 with blocks", "03 07 AC 02 01 05 01 00", 6, 7 },
    { "m above Q", "03 07 AC 02 01 05 01 02 00 01", 6, 7 },
    { "m above Q, behind a time of two bytes", "03 07 AC 02 02 AC 02 01 01 03 00 01", 6, 9 },
    { "m 1 without blocks", "03 07 AC 02 00 00 01 00", 6, 6 },
    /* 15, the time */
    { "R 0 with blocks", "03 07 AC 02 01 00 01 01 00", 15, 5 },
    { "R 1,125,000,001", "03 07 AC 02 01 C1 C6 B8 98 04 01 01 00", 15, 5 },
    { "R 4,294,967,295", "03 07 AC 02 01 FF FF FF FF 0F 01 01 00", 15, 5 },
    { "R 1 without blocks", "03 07 AC 02 00 01 00", 15, 5 },
    { "R 0 behind a Q of two bytes", "03 07 AC 02 80 01 00", 15, 6 },
    /* 16, a disk or block */
    { "disk 64", "03 07 AC 02 01 05 40 01 00", 16, 6 },
    { "disk 256", "03 07 AC 02 01 05 80 02 01 00", 16, 6 },
    { "a later disk 64", "03 07 AC 02 02 05 00 40 01 00", 16, 7 },
    { "disk 64 behind a time of five bytes", "03 07 AC 02 04 C0 C6 B8 98 04 00 00 01 40 04 00 01 02 03", 16, 13 },
    { "a block at Q", "03 07 AC 02 01 05 01 01 01", 16, 8 },
    { "a second block at Q", "03 07 AC 02 03 05 01 01 01 02 01 03", 16, 11 },
    { "a third block above Q, of two bytes", "03 07 AC 02 03 05 01 01 01 03 00 01 83 01", 16, 12 },
    /* 8, at the block that is not above */
    { "a block twice", "03 07 AC 02 03 05 01 01 01 02 01 01", 8, 11 },
    { "a block below the one before", "03 07 AC 02 03 05 01 01 01 02 02 00", 8, 11 },
    { "a third block below the second", "03 07 AC 02 03 05 01 01 01 03 00 02 01", 8, 12 },
    /* 9, at the first byte that follows */
    { "a byte 0 after the last field", "03 07 AC 02 01 05 01 01 00 00", 9, 9 },
    { "a byte 128 after the last field", "03 07 AC 02 01 05 01 01 00 80", 9, 9 },
    { "three bytes after the last field", "03 07 AC 02 00 00 00 03 07 AC", 9, 7 },
};

static void plan_damaged(void)
{
    char title[96];
    for (size_t i = 0; i < sizeof DAMAGED / sizeof DAMAGED[0]; i++) {
        snprintf(title, sizeof title, "plan: %s: %u at byte %u", DAMAGED[i].name, DAMAGED[i].refusal,
            (unsigned)DAMAGED[i].place);
        plan(title, 7, 300, sheet_of(DAMAGED[i].hex), 1024, 2048, at(DAMAGED[i].refusal, DAMAGED[i].place), NULL);
        snprintf(title, sizeof title, "plan: %s: %u before 11", DAMAGED[i].name, DAMAGED[i].refusal);
        plan(title, 7, 300, sheet_of(DAMAGED[i].hex), 0, 0, at(DAMAGED[i].refusal, DAMAGED[i].place), NULL);
    }
    plan("plan: tenancy 0, as expected, is 5", 7, 0, sheet_of("03 07 00 00 00 00"), 0, 0, at(5, 2), NULL);
    plan("plan: a tenancy in a long form is 2 before 5", 7, 0, sheet_of("03 07 80 00"), 0, 0, at(2, 2), NULL);
    plan("plan: a tenancy that ends is 1 before 5", 7, 0, sheet_of("03 07 80"), 0, 0, at(1, 3), NULL);
}

/* A sheet of more than 4,294,967,295 bytes, all but the first 0: its length fits no place, and need not. */
static void plan_huge(void)
{
    const size_t len = (size_t)1 << 32 | 99;
    uint8_t disks[4], set[8];
    const struct list *sample = sheet_of(SAMPLE);
    uint8_t *sheet = mmap(NULL, len, PROT_READ | PROT_WRITE, MAP_PRIVATE | MAP_ANONYMOUS | MAP_NORESERVE, -1, 0);
    if (sheet == MAP_FAILED) {
        verdict("plan: a sheet above 4 GiB", "there is no address space for it");
        return;
    }
    memcpy(sheet, sample->at, sample->len);
    verdict("plan: a plan in a sheet above 4 GiB: 9 at byte 15",
        rp_read_plan(7, 300, sheet, len, disks, 4, set, 8) == at(9, 15) ? NULL : "another answer");
    sheet[4] = 0x81;
    sheet[5] = 0x00;
    verdict("plan: a long form in a sheet above 4 GiB: 2 at byte 4",
        rp_read_plan(7, 300, sheet, len, disks, 4, set, 8) == at(2, 4) ? NULL : "another answer");
    munmap(sheet, len);
}

/* Disks in falling order, and a short set that is a part of the blocks. */
static void plan_orders(void)
{
    static struct list disks, set;
    struct plan read = { 3, 300, 2, &disks, &set };
    disks = *sheet_of("05 02 02");
    set = *sheet_of("00 00 02 00");
    plan("plan: disks come in any order, with a part of the blocks short", 7, 300,
        sheet_of("03 07 AC 02 03 AC 02 05 02 02 02 00 02"), 3, 4, 0, &read);
    plan("plan: of three blocks, no room for their disks: 3 entries", 7, 300,
        sheet_of("03 07 AC 02 03 AC 02 05 02 02 02 00 02"), 2, 4, needs(3), NULL);
    plan("plan: of a short set of two, no room for it: 2 entries", 7, 300,
        sheet_of("03 07 AC 02 03 AC 02 05 02 02 02 00 02"), 3, 3, needs(2), NULL);
    plan("plan: no room for either: the disks' entries", 7, 300,
        sheet_of("03 07 AC 02 03 AC 02 05 02 02 02 00 02"), 2, 3, needs(3), NULL);
}

/* ---- the header ---- */

static void layouts(void)
{
    uint64_t sample = 0x0010000000480400u;      /* Q 4, R 9, m 4 */
    uint64_t largest = 0x100218711A040000u;     /* Q 1,024, R 1,125,000,000, m 1,024 */
    verdict("layout: a refusal", rp_refusal(11) == 11 && rp_refusal(0) == 0 ? NULL : "another number");
    verdict("layout: a place", rp_place(at(16, 11)) == 11 && rp_refusal(at(16, 11)) == 16
            && at(16, 11) == 0x0000000B00000010u && rp_place(at(11, 4294967295u)) == 4294967295u
            && rp_refusal(at(11, 4294967295u)) == 11 && rp_place(6) == 0 ? NULL : "another number");
    verdict("layout: a length", rp_length(0x0000000E00000000u) == 14 && rp_refusal(0x0000000E00000000u) == 0
            && rp_length(0xFFFFFFFF00000000u) == 4294967295u ? NULL : "another number");
    verdict("layout: the sample's Q, R and m", rp_blocks(sample) == 4 && rp_time(sample) == 9
            && rp_short_size(sample) == 4 && rp_refusal(sample) == 0 ? NULL : "another number");
    verdict("layout: the largest Q, R and m", rp_blocks(largest) == 1024 && rp_time(largest) == 1125000000
            && rp_short_size(largest) == 1024 && rp_refusal(largest) == 0 ? NULL : "another number");
    verdict("layout: each field alone", rp_blocks(0x7FF00u) == 0x7FF && rp_time(0x7FF00u) == 0
            && rp_time(0x3FFFFFFF80000u) == MOST && rp_blocks(0x3FFFFFFF80000u) == 0
            && rp_short_size(0x3FFFFFFF80000u) == 0 && rp_short_size(0x1FFC000000000000u) == 0x7FF
            && rp_time(0x1FFC000000000000u) == 0 ? NULL : "another number");
}

/* The refusals worked in docs/ABI.md, with its numbers. */
static void worked(void)
{
    static const struct {
        const char *hex;
        size_t disks, set;
        uint64_t answer;
    } PLANS[] = {
        { "03 07 AC 02 04 09 00 00 01 40 04 00 01 02 03", 4, 8, 0x0000000900000010u },
        { "03 07 AC 02 04 00 00 00 01 01 04 00 01 02 03", 4, 8, 0x000000050000000Fu },
        { "03 07 AC 02 04 09 00 00 01 01 05 00 01 02 03", 4, 8, 0x0000000A00000006u },
        { "03 07 AC 02 04 09 00 00 01 01 04 00 01 01 03", 4, 8, 0x0000000D00000008u },
        { "03 07 AC 82 00 04 09 00 00 01 01 04 00 01 02 03", 4, 8, 0x0000000200000002u },
        { "03 07 AC 02 04 09 00 00 01", 4, 8, 0x0000000900000001u },
        { "03 07 AC 02 04 09 00 00 01 01 04 00 01 02 03 00", 4, 8, 0x0000000F00000009u },
        { SAMPLE, 3, 8, 0x000000040000000Bu },
        { SAMPLE, 3, 7, 0x000000040000000Bu },
        { SAMPLE, 4, 7, 0x000000040000000Bu },
    };
    char title[64];
    for (size_t i = 0; i < sizeof PLANS / sizeof PLANS[0]; i++) {
        snprintf(title, sizeof title, "worked: plan %zu", i + 1);
        plan(title, 7, 300, sheet_of(PLANS[i].hex), PLANS[i].disks, PLANS[i].set, PLANS[i].answer, NULL);
    }
    clear_rows();
    add_row(4, 0, 1);
    add_row(3, 2, 0);
    add_row(10, 0, 0);
    settings("worked: settings, 13 bytes", 7, 300, 13, 0x0000000E0000000Bu, NULL);
    settings("worked: settings, tenancy 0", 7, 0, 13, 0x0000000000000006u, NULL);
    loads.len = 8;
    settings("worked: settings, loads of 8 bytes", 7, 300, 14, 0x0000000000000006u, NULL);
    loads.len = 12;
    costs.at[4] = 0;
    settings("worked: settings, a cost of 0", 7, 300, 13, 0x000000000000000Fu, NULL);
    marked_rows();
    marked("worked: marked, 17 bytes", 7, 300, 2, 17, 0x000000120000000Bu, NULL);
    marked("worked: marked, rule 3", 7, 300, 3, 18, 0x000000000000000Fu, NULL);
    marks.len = 8;
    marked("worked: marked, marks of 8 bytes", 7, 300, 3, 18, 0x0000000000000006u, NULL);
    set_copies((uint64_t[]){ 3, 3, 3, 6, 0 }, 4);
    request("worked: request, 16 bytes", 7, 300, 3, 16, 0x000000110000000Bu, NULL);
    request("worked: request, of 2 disks", 7, 300, 2, 17, 0x0000000000000010u, NULL);
    set_copies((uint64_t[]){ 3, 3, 3, 6, 0 }, 5);
    request("worked: request, a fifth block without copies", 7, 300, 3, 17, 0x0000000000000007u, NULL);
    set_copies((uint64_t[]){ 3, 3, 3, 6 }, 4);
    request_of("worked: request, an age with kind 2", 2, 7, 300, 5, 3, 18, 0x000000000000000Fu, NULL);
    request_of("worked: request, kind 3", 3, 7, 300, 5, 3, 18, 0x0000000000000003u, NULL);
    request_of("worked: request, 17 bytes for one with an age", 4, 7, 300, 5, 3, 17, 0x000000120000000Bu, NULL);
}

/* Whether a number is no refusal. */
static bool is_none(unsigned refusal)
{
    return strcmp(rp_refusal_words(refusal), "not a refusal of this version") == 0;
}

static void words(void)
{
    const char *why = NULL;
    for (unsigned i = 0; i <= RP_ALL_OUT; i++)
        for (unsigned j = 0; j < i; j++)
            if (strcmp(rp_refusal_words(i), rp_refusal_words(j)) == 0 && !is_none(i))
                why = "two have the same";
    verdict("words: every refusal has its own", why);
    verdict("words: a number that is no refusal has none", is_none(17) && is_none(18) && is_none(19) && is_none(21)
            && is_none(255) && !is_none(RP_BAD_INDEX) && !is_none(RP_ALL_OUT) ? NULL : "it has");
    verdict("words: 15 and 16 tell what may be out of range",
        strcmp(rp_refusal_words(RP_BAD_AMOUNT),
            "a cost, load, delay, rule, mark or plan time is out of its range, or a request of kind 2 has an age") == 0
            && strcmp(rp_refusal_words(RP_BAD_INDEX), "a disk or block number is out of its range") == 0
            && RP_BAD_AMOUNT == 15 && RP_BAD_INDEX == 16 ? NULL : "they are not");
    verdict("words: 20", strcmp(rp_refusal_words(RP_ALL_OUT), "all copies of a block are out") == 0 && RP_ALL_OUT == 20
            ? NULL : "they are not");
}

static void lists(void)
{
    uint8_t list[18];
    memset(list, FILL, sizeof list);
    rp_put32(list, 1, 0x01020304);
    verdict("lists: a 32-bit number is lowest byte first",
        memcmp(list, "\xA5\xA5\xA5\xA5\x04\x03\x02\x01\xA5", 9) == 0 ? NULL : "other bytes");
    rp_put64(list, 1, 0x0102030405060708u);
    verdict("lists: a 64-bit number is lowest byte first",
        memcmp(list + 7, "\x01\x08\x07\x06\x05\x04\x03\x02\x01\xA5", 10) == 0 ? NULL : "other bytes");
    verdict("lists: a 16-bit number is lowest byte first", rp_get16(list, 4) == 0x0708 ? NULL : "another number");
}

int main(void)
{
    setvbuf(stdout, NULL, _IOLBF, 0);
    settings_sample();
    settings_ends();
    settings_ranges();
    settings_lengths();
    marked_sample();
    marked_ends();
    marked_ranges();
    marked_lengths();
    request_sample();
    request_no_blocks();
    request_copies();
    request_lengths();
    request_kinds();
    request_longest();
    plan_sample();
    plan_ends();
    plan_damaged();
    plan_huge();
    plan_orders();
    layouts();
    worked();
    words();
    lists();
    puts("end of the tests");
    return failures == 0 ? 0 : 1;
}
