/*
 * The exported functions in text, a line out for each line in, in the format of the second
 * program's `desk` (second/README.md), a refusal as `refused N P`, so that both can be given the same lines:
 *   second compare desk COUNT SEED deskline
 * Lent buffers are filled with a5 and shown whole; a byte changed beside one adds the word `damaged`.
 */
#include <stdbool.h>
#include <stdio.h>
#include <stdlib.h>
#include <string.h>

#include "bytes.h"
#include "hex.h"
#include "input.h"
#include "rippleplank.h"
#include "say.h"

enum { FILL = 0xA5, GUARD = 32, MOST_ROOM = 1 << 20, MOST_WORDS = 9 };

/* A lent buffer with guards before and after it. */
struct lent {
    struct bytes all;
    uint8_t *at;
    size_t len;
};

static struct lent lend(size_t len)
{
    struct lent l = { bytes_new(), NULL, len };
    memset(bytes_more(&l.all, len + 2 * GUARD), FILL, len + 2 * GUARD);
    l.all.len = len + 2 * GUARD;
    l.at = l.all.at + GUARD;
    return l;
}

/* Prints a buffer as a word, says whether its guards still stand, and gives it back. */
static void show_lent(struct lent *l)
{
    bool whole = true;
    fputs(l->len == 0 ? " -" : " ", stdout);
    for (size_t i = 0; i < l->len; i++)
        printf("%02x", l->at[i]);
    for (size_t i = 0; i < GUARD; i++)
        whole = whole && l->all.at[i] == FILL && l->at[l->len + i] == FILL;
    if (!whole)
        fputs(" damaged", stdout);
    bytes_free(&l->all);
}

/* A list of bytes that is exactly as long as what it is lent for. */
static bool list_of(struct span word, uint8_t **list, size_t *len)
{
    struct bytes b = bytes_new();
    bool good = (word.len == 1 && word.at[0] == '-') || (word.len > 0 && hex_read(word, &b));
    *len = b.len;
    *list = malloc(b.len + (b.len == 0));
    if (*list == NULL)
        exit(STATUS_BAD);
    memcpy(*list, b.at, b.len);
    bytes_free(&b);
    return good;
}

static bool room_of(struct span word, uint32_t *room)
{
    return number_of(word, room) && *room <= MOST_ROOM;
}

/* Prints a refusal with its place; an answer that is none, since it has other bits, as it is. */
static void show_refused(uint64_t answer)
{
    if (rp_refusal(answer) != RP_ACCEPTED && (answer & 0xFFFFFF00u) == 0)
        printf("refused %u %u", rp_refusal(answer), (unsigned)rp_place(answer));
    else
        printf("answer %llx", (unsigned long long)answer);
}

static void show_wrote(uint64_t answer, struct lent *out)
{
    if (rp_refusal(answer) == RP_ACCEPTED && (answer & 0xFFFFFFFFu) == 0)
        printf("wrote %u", (unsigned)rp_length(answer));
    else
        show_refused(answer);
    show_lent(out);
}

/* ROOM UNIT TENANCY COSTS LOADS DELAYS, of the kind whose disks start at the sum, or at the larger */
static bool settings(const struct span *words, bool larger)
{
    uint32_t room, unit, tenancy;
    uint8_t *lists[3] = { NULL, NULL, NULL };
    size_t lens[3];
    bool good = room_of(words[0], &room) && number_of(words[1], &unit)
        && number_of(words[2], &tenancy) && list_of(words[3], &lists[0], &lens[0])
        && list_of(words[4], &lists[1], &lens[1]) && list_of(words[5], &lists[2], &lens[2]);
    if (good) {
        struct lent out = lend(room);
        uint64_t answer = (larger ? rp_write_settings_overlap : rp_write_settings)(unit, tenancy, lists[0], lens[0],
            lists[1], lens[1], lists[2], lens[2], out.at, out.len);
        show_wrote(answer, &out);
    }
    for (size_t i = 0; i < 3; i++)
        free(lists[i]);
    return good;
}

/* ROOM UNIT TENANCY RULE COSTS LOADS DELAYS MARKS */
static bool marked(const struct span *words)
{
    uint32_t room, unit, tenancy, rule;
    uint8_t *lists[4] = { NULL, NULL, NULL, NULL };
    size_t lens[4];
    bool good = room_of(words[0], &room) && number_of(words[1], &unit) && number_of(words[2], &tenancy)
        && number_of(words[3], &rule);
    for (size_t i = 0; good && i < 4; i++)
        good = list_of(words[4 + i], &lists[i], &lens[i]);
    if (good) {
        struct lent out = lend(room);
        uint64_t answer = rp_write_settings_marked(unit, tenancy, rule, lists[0], lens[0], lists[1], lens[1], lists[2],
            lens[2], lists[3], lens[3], out.at, out.len);
        show_wrote(answer, &out);
    }
    for (size_t i = 0; i < 4; i++)
        free(lists[i]);
    return good;
}

/* ROOM KIND UNIT TENANCY AGE N COPIES */
static bool request(const struct span *words)
{
    uint32_t room, kind, unit, tenancy, age, disks;
    uint8_t *copies = NULL;
    size_t len;
    bool good = room_of(words[0], &room) && number_of(words[1], &kind) && number_of(words[2], &unit)
        && number_of(words[3], &tenancy) && number_of(words[4], &age) && number_of(words[5], &disks)
        && list_of(words[6], &copies, &len);
    if (good) {
        struct lent out = lend(room);
        uint64_t answer = rp_write_request(kind, unit, tenancy, age, disks, copies, len, out.at, out.len);
        show_wrote(answer, &out);
    }
    free(copies);
    return good;
}

static void show_plan(uint64_t answer)
{
    if (rp_refusal(answer) == RP_ACCEPTED && answer >> 61 == 0)
        printf("plan %u %u %u", (unsigned)rp_blocks(answer), (unsigned)rp_time(answer),
            (unsigned)rp_short_size(answer));
    else
        show_refused(answer);
}

/* UNIT TENANCY DISKROOM SETROOM SHEET */
static bool plan(const struct span *words)
{
    uint32_t unit, tenancy, disk_room, set_room;
    uint8_t *sheet = NULL;
    size_t len;
    bool good = number_of(words[0], &unit)
        && number_of(words[1], &tenancy) && room_of(words[2], &disk_room)
        && room_of(words[3], &set_room) && list_of(words[4], &sheet, &len);
    if (good) {
        struct lent disks = lend(disk_room), set = lend(set_room);
        show_plan(rp_read_plan(unit, tenancy, sheet, len, disks.at, disks.len, set.at, set.len));
        show_lent(&disks);
        show_lent(&set);
    }
    free(sheet);
    return good;
}

/* The words of a line, of which no more than a line can have are kept; gives how many there are. */
static size_t split(struct span line, struct span words[MOST_WORDS])
{
    struct span word;
    size_t count = 0;
    while (span_next(&line, " ", &word)) {
        if (count < MOST_WORDS)
            words[count] = word;
        count++;
    }
    return count;
}

static bool is(struct span word, const char *name)
{
    return word.len == strlen(name) && memcmp(word.at, name, word.len) == 0;
}

static bool answer_line(struct span line)
{
    struct span words[MOST_WORDS];
    size_t count = split(line, words);
    if (count == 7 && (is(words[0], "settings") || is(words[0], "larger")))
        return settings(words + 1, is(words[0], "larger"));
    if (count == 9 && is(words[0], "marked"))
        return marked(words + 1);
    if (count == 8 && is(words[0], "request"))
        return request(words + 1);
    if (count == 6 && is(words[0], "plan"))
        return plan(words + 1);
    return false;
}

/* The next line without its line feed; false at the end. */
static bool read_line(struct bytes *line)
{
    int c;
    line->len = 0;
    while ((c = getchar()) != EOF && c != '\n')
        bytes_add(line, &(uint8_t){ (uint8_t)c }, 1);
    return c != EOF || line->len > 0;
}

int main(void)
{
    struct bytes line = bytes_new();
    say_as("deskline");
    while (read_line(&line)) {
        if (!answer_line((struct span){ (const char *)line.at, line.len }))
            fputs("not a line of the desk", stdout);
        putchar('\n');
    }
    bytes_free(&line);
    return fflush(stdout) == 0 ? STATUS_DONE : STATUS_BAD;
}
