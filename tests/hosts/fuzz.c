/*
 * Damaged inputs for the three programs, each in a process of its own: the programs' mains are linked in here
 * under other names. Whatever an input is, a program ends by itself with one of its statuses; where it refuses it
 * says so, in letters alone, and writes nothing; what a writer writes is a whole sheet by `show`, which holds it
 * against the library; the other outputs have their form.
 *
 *     fuzz FOLDER COUNT SEED [INDEX]
 *
 * runs in a folder of its own. An input depends on the seed and its index alone; with an index, only that one is
 * run, and what it printed is left in the folder. The last line has the counts; the status is 1 if any failed.
 */
#define _XOPEN_SOURCE 700

#include <fcntl.h>
#include <stdbool.h>
#include <stdio.h>
#include <stdlib.h>
#include <string.h>
#include <sys/wait.h>
#include <unistd.h>

#include "bytes.h"
#include "rippleplank.h"
#include "say.h"

int desk_main(int count, char **words);
int tenant_main(int count, char **words);
int stream_main(int count, char **words);

/*
 * The sanitizers end a program with a status that is none of ours. Leaks are looked for in the other tests; little that
 * was freed is kept, so that a fork stays quick.
 */
const char *__asan_default_options(void);
const char *__asan_default_options(void)
{
    return "detect_leaks=0:exitcode=99:quarantine_size_mb=4";
}

const char *__ubsan_default_options(void);
const char *__ubsan_default_options(void)
{
    return "exitcode=99";
}

enum { MOST_WORDS = 14, MOST_BYTES = 1 << 16, SECONDS = 20, MOST_FAILURES = 10 };

/* ---- chance ---- */

static uint64_t state;

static uint64_t chance(uint64_t below)
{
    uint64_t z = state += 0x9E3779B97F4A7C15u;
    z = (z ^ z >> 30) * 0xBF58476D1CE4E5B9u;
    z = (z ^ z >> 27) * 0x94D049BB133111EBu;
    return (z ^ z >> 31) % below;
}

/* ---- good inputs ---- */

#define PLAN "0307ac020409000001010400010203"

static const char *const TABLES[] = {
    "cost,load,delay\n4,0,1\n3,2,0\n10,0,0\n",
    "disk;Cost;Load;Delay\r\n0;4;0;1\r\n1;3;2;0\r\n2;10;0;0\r\n;;;\r\n",
    "# a comment\n\n\"delay\"\t\"cost\"\t\"load\"\n1\t4\t0 # so\n\n0\t3\t2\n0\t10\t0\n",
    "sep=,\ncost,load,delay,\n1000000,100000000,1000000,\n# 1,2,3\n1,0,0,\n1,0,0,\n",
    "disk,cost,load,delay,out\n0,4,0,1,in\n1,3,2,0,0\n2,10,0,0,out\n",
};
static const char *const LISTS[] = {
    "0 1\n0 1\n0 1\n1 2\n",
    "# a list\n0: 0 1\n1: 0,1\n\nblock 2: 1;0\n3: 2/1\n",
    ("\xEF\xBB\xBF" "0 1 2 3 4 5\n\n5|4\n-\n"),
};
static const char *const SHEETS[] = {
    PLAN "\n",
    "03 07 AC 02 04 09 00 00\n01 01 04 00 01 02 03 # a plan\n",
    "rented\nset\nplan " PLAN "\nrefused 5 2\nplan 0307ac02000000\nreturned\nstopped 3\n",
    "plan 0308ac02000000\nplan " PLAN "\n",
    "00000000: 0307 ac02 0409 0000 0101 0400 0102 03    ...............\n",
    "00000000  03 07 ac 02 04 09 00 00  01 01 04 00 01 02 03     |...............|\n0000000f\n",
    "0000000 0703 02ac 0904 0000 0101 0004 0201 0003\n000000f\n",
    "0000000 03 07 ac 02 04 09 00 00 01 01 04 00 01 02 03\n0000017\n",
    "0000000 0202 0202 0202 0202 0202 0202 0202 0202\n*\n0000100\n",
};
#define COUNT_OF(list) (sizeof (list) / sizeof (list)[0])

/* What was sent to a shelf, call by call, and its lines. */
static const char CALLS_SENT[] = "\x07" "\x01\xAC\x02" "\x03\x0E\x05\x02\x07\xAC\x02\x00"
    "\x02\x07\x01\x07\xAC\x02\x01\x04\x00" "\x02\x08\x01\x07\xAC\x02\x01\x04\x00\x01"
    "\x03\x06\x07\x02\x07\xAC\x02\x01\x01\x00" "\x03\x40\x07\x02\x07\xAC\x02\x01\x01\x03"
    "\x03\x40\x05\x02\x07\xAC\x02\x00" "\x04\xAC\x02";
static const char LINES[] = "rented\nrefused 10 4\nrefused 1 7\nset\nrefused 11 9\nrefused 16 6\nplan 0307ac02000000\n"
    "returned\n";

/* The same for the five reasons. */
#define SAMPLE "\x11\x02\x07\xAC\x02\x04\x02\x00\x01\x02\x00\x01\x02\x00\x01\x02\x01\x02"
static const char WHYS_SENT[] = "\x07" "\x01\xAC\x02" "\x02\x0E\x01\x07\xAC\x02\x03\x04\x00\x01\x03\x02\x00\x0A\x00\x00"
    "\x05\x00\x02" SAMPLE "\x03\x94\x17" SAMPLE "\x05\x03\x02" SAMPLE "\x05\x02\x00" SAMPLE "\x05\x00\x01" SAMPLE
    "\x05\x02\x01" SAMPLE "\x05\x04\x00" SAMPLE;
static const char WHYS[] = "rented\nset\nreason 1 0\nplan " PLAN "\nreason 2 10\nreason 3 0\nreason 4 0\nreason 5 0\n"
    "refused 16 0\n";

/* Kinds of input: texts, the sheets themselves, and last calls and answers to them. */
enum { TABLE, LIST, TEXT_SHEET, BYTE_SHEET, CALLS, WHY_CALLS, ANSWERS, KINDS };

/* Settings of a newer kind. */
static uint64_t add_newer(const uint8_t *list, const uint8_t *marks, size_t len, uint8_t *out, size_t out_len)
{
    if (chance(2) == 0)
        return rp_write_settings_overlap(7, 300, list, len, list, len, list, len, out, out_len);
    return rp_write_settings_marked(7, 300, (uint32_t)(1 + chance(2)), list, len, list, len, list, len, marks, len, out,
        out_len);
}

/* A sheet as bytes: settings or a request, of the first kinds or of newer ones, or a plan. */
static void add_bytes(struct bytes *into)
{
    static uint8_t list[8 * RP_MOST_BLOCKS], marks[4 * RP_MOST_DISKS], out[RP_LONGEST_REQUEST];
    uint64_t which = chance(4), count = 1 + chance(which == 0 ? RP_MOST_DISKS : 40);
    uint64_t answer;
    bool newer = chance(2) == 0;
    if (which >= 2) {
        bytes_add(into, "\x03\x07\xAC\x02\x04\x09\x00\x00\x01\x01\x04\x00\x01\x02\x03", 15);
        return;
    }
    for (uint64_t i = 0; i < count; i++) {
        if (which == 0) {
            rp_put32(list, i, (uint32_t)(1 + chance(RP_MOST_COST)));
            rp_put32(marks, i, (uint32_t)chance(2));
        } else
            rp_put64(list, i, (uint64_t)1 << chance(6) | (uint64_t)1 << chance(6));
    }
    if (which == 0)
        answer = newer ? add_newer(list, marks, 4 * count, out, sizeof out)
            : rp_write_settings(7, 300, list, 4 * count, list, 4 * count, list, 4 * count, out, sizeof out);
    else
        answer = rp_write_request(newer ? RP_AGED_REQUEST : RP_REQUEST, 7, 300, newer ? (uint32_t)chance(1000) : 0, 6,
            list, 8 * count, out, sizeof out);
    bytes_add(into, out, rp_length(answer));
}

static void add_good(struct bytes *into, unsigned kind)
{
    const char *text;
    if (kind == BYTE_SHEET) {
        add_bytes(into);
        return;
    }
    if (kind == CALLS) {
        bytes_add(into, CALLS_SENT, sizeof CALLS_SENT - 1);
        return;
    }
    if (kind == WHY_CALLS) {
        bytes_add(into, WHYS_SENT, sizeof WHYS_SENT - 1);
        return;
    }
    text = kind == ANSWERS ? WHYS : kind == TABLE ? TABLES[chance(COUNT_OF(TABLES))]
        : kind == LIST ? LISTS[chance(COUNT_OF(LISTS))] : SHEETS[chance(COUNT_OF(SHEETS))];
    bytes_add(into, text, strlen(text));
}

/* ---- damage ---- */

static const char *const PIECES[] = {
    "4294967295", "4294967296", "0", "-1", "63", "64", "65", "1000001", "\"", "\"\"", "#", ",", ";", "\t", "\r", "\n",
    "\r\n", ":", "-", "block 3:", "disk", "cost,load,delay\n", "sep=;\n", "*\n", "00000000: ", "0000010 ",
    "refused 5\n", "refused 16 3\n", "refused 11 15\n", "refused 6 7 8\n", "refused 20 7\n", "refused 16 3", "out", "in", ",out\n", "refused 016 3\n",
    "stopped 3\n", "plan ", "plan " PLAN "\n", "rented\n", "reason 2 10\n", "reason 6 0\n", "reason 4 0", "\xEF\xBB\xBF", "\xFF\xFE", "\xFE\xFF", "\xC3\xA4",
    "\x1B[31m", "%s%n", "\x80", "\x80\x00",
    "\xFF\xFF\xFF\xFF\x0F", "\xFF\xFF\xFF\xFF\x10", "|", "  ", "\x7F", ",,,,,,,,,,,,,,,,,,,,",
    "1;2;3;4;5;6;7;8;9;10;11;12;13;14;15;16;17;18",
};

/* Puts bytes into an input, at a place, for so many that go. */
static void splice(struct bytes *input, size_t at, size_t gone, const void *data, size_t len)
{
    struct bytes rest = bytes_new();
    bytes_add(&rest, input->at + at + gone, input->len - at - gone);
    input->len = at;
    bytes_add(input, data, len);
    bytes_add(input, rest.at, rest.len);
    input->len = input->len > MOST_BYTES ? MOST_BYTES : input->len;
    bytes_free(&rest);
}

static void damage(struct bytes *input)
{
    size_t at = chance(input->len + 1), len = chance(input->len - at + 1);
    struct bytes piece = bytes_new();
    uint8_t byte = (uint8_t)chance(256);
    switch (chance(8)) {
    case 0:
        splice(input, at, at < input->len, &byte, 1);
        break;
    case 1:
        if (at < input->len)
            input->at[at] ^= (uint8_t)(1u << chance(8));
        break;
    case 2:
        splice(input, at, len > 9 ? chance(9) : len, "", 0);
        break;
    case 3:
        bytes_add(&piece, input->at + at, len);
        for (uint64_t times = 1 + chance(chance(4) == 0 ? 80 : 2); times > 0; times--)
            splice(input, at, 0, piece.at, piece.len);
        break;
    case 4:
        if (chance(4) == 0)
            input->len = at;
        break;
    case 5:
        add_good(&piece, (unsigned)chance(KINDS));
        splice(input, at, chance(2) ? len : 0, piece.at, piece.len);
        break;
    default: {
        const char *text = PIECES[chance(COUNT_OF(PIECES))];
        size_t length = strcmp(text, "\x80") == 0 ? 1 + chance(2) : strlen(text);
        splice(input, at, chance(2) && at < input->len, text, length);
    }
    }
    bytes_free(&piece);
}

/* ---- the programs ---- */

/* How a command's output is looked at. */
enum { IS_SHEET, IS_TEXT, IS_JSON, IS_NUMBER, IS_STREAM };

static const struct command {
    int (*main)(int, char **);
    const char *words[MOST_WORDS];
    unsigned kind;      /* of the input */
    unsigned output;
} COMMANDS[] = {
    { desk_main, { "desk", "settings", "7", "300", "in" }, TABLE, IS_SHEET },
    { desk_main, { "desk", "settings", "7", "300", "in", "--start", "larger" }, TABLE, IS_SHEET },
    { desk_main, { "desk", "settings", "7", "300", "in" }, BYTE_SHEET, IS_SHEET },
    { tenant_main, { "tenant", "request", "7", "300", "6", "in" }, LIST, IS_SHEET },
    { tenant_main, { "tenant", "request", "7", "300", "6", "in", "--age", "3600000000" }, LIST, IS_SHEET },
    { tenant_main, { "tenant", "request", "7", "300", "6", "in" }, BYTE_SHEET, IS_SHEET },
    { tenant_main, { "tenant", "plan", "7", "300", "in", "--by-block" }, TEXT_SHEET, IS_TEXT },
    { tenant_main, { "tenant", "plan", "7", "300", "in", "--nth", "1", "--json" }, TEXT_SHEET, IS_JSON },
    { tenant_main, { "tenant", "plan", "7", "300", "in", "--time" }, BYTE_SHEET, IS_NUMBER },
    { tenant_main, { "tenant", "plan", "7", "300", "in", "--nth", "1", "--calls", "calls", "--time" }, TEXT_SHEET,
        IS_NUMBER },
    { desk_main, { "desk", "show", "lines", "--calls", "in" }, CALLS, IS_STREAM },
    { tenant_main, { "tenant", "plan", "7", "300", "plan", "--disks", "in", "--svg", "picture" }, TABLE, IS_TEXT },
    { tenant_main, { "tenant", "plan", "7", "300", "plan", "--disks", "table", "--request", "in", "--json" }, LIST,
        IS_JSON },
    { tenant_main, { "tenant", "plan", "7", "300", "plan", "--disks", "in", "--age", "0", "--svg", "picture" }, TABLE,
        IS_TEXT },
    { tenant_main, { "tenant", "plan", "7", "300", "plan", "--disks", "in", "--start", "larger", "--svg", "picture" },
        TABLE, IS_TEXT },
    { tenant_main, { "tenant", "plan", "7", "300", "in", "--disks", "table", "--request", "list", "--svg", "picture" },
        TEXT_SHEET, IS_TEXT },
    { tenant_main, { "tenant", "why", "7", "300", "in", "--calls", "whysent" }, ANSWERS, IS_TEXT },
    { tenant_main, { "tenant", "why", "7", "300", "in", "--calls", "whysent", "--block", "2", "--svg", "picture" },
        ANSWERS, IS_TEXT },
    { tenant_main, { "tenant", "why", "7", "300", "whys", "--calls", "in", "--nth", "1", "--json" }, WHY_CALLS,
        IS_JSON },
    { tenant_main, { "tenant", "why", "7", "300", "whys", "--calls", "in", "--disk", "1" }, WHY_CALLS, IS_TEXT },
    { desk_main, { "desk", "show", "in", "--calls", "whysent" }, ANSWERS, IS_TEXT },
    { stream_main, { "stream", "7", "why", "each", "each", "in" }, BYTE_SHEET, IS_STREAM },
    { tenant_main, { "tenant", "show", "in" }, BYTE_SHEET, IS_TEXT },
    { desk_main, { "desk", "show", "in", "--unit", "7", "--disks", "6" }, TEXT_SHEET, IS_TEXT },
    { stream_main, { "stream", "7", "settings", "in", "request", "2964", "in" }, BYTE_SHEET, IS_STREAM },
};

static void put_file(const char *name, const void *data, size_t len)
{
    FILE *file = fopen(name, "wb");
    if (file == NULL || fwrite(data, 1, len, file) != len || fclose(file) != 0) {
        perror(name);
        exit(1);
    }
}

static void get_file(const char *name, struct bytes *into)
{
    FILE *file = fopen(name, "rb");
    size_t got;
    into->len = 0;
    while (file != NULL && (got = fread(bytes_more(into, 4096), 1, 4096, file)) > 0)
        into->len += got;
    if (file != NULL)
        fclose(file);
}

/* Runs a program in a process of its own; gives its wait status. */
static int run(int (*program)(int, char **), const char *const *words)
{
    int status = 0, count = 0;
    pid_t child = fork();
    if (child == 0) {
        while (words[count] != NULL)
            count++;
        alarm(SECONDS);
        if (freopen("/dev/null", "r", stdin) == NULL || freopen("out", "wb", stdout) == NULL
            || freopen("err", "wb", stderr) == NULL)
            _exit(98);
        exit(program(count, (char **)(void *)words));
    }
    if (child < 0 || waitpid(child, &status, 0) != child) {
        perror("fuzz");
        exit(1);
    }
    return status;
}

static bool only_letters(const struct bytes *text)
{
    for (size_t i = 0; i < text->len; i++)
        if (text->at[i] != '\n' && (text->at[i] < ' ' || text->at[i] > '~'))
            return false;
    return true;
}

static bool ends_with(const struct bytes *text, const char *end)
{
    size_t len = strlen(end);
    return text->len >= len && memcmp(text->at + text->len - len, end, len) == 0;
}

/* One line, whose brackets are closed in order. */
static bool is_json(const struct bytes *text)
{
    char open[8];
    size_t depth = 0;
    for (size_t i = 0; i < text->len; i++) {
        char c = (char)text->at[i];
        if (c == '{' || c == '[')
            open[depth++] = c;
        if ((c == '}' || c == ']') && (depth == 0 || open[--depth] != (c == '}' ? '{' : '[')))
            return false;
        if (depth == sizeof open || (c == '\n') != (i + 1 == text->len) || (depth == 0 && c != '}' && c != '\n'))
            return false;
    }
    return depth == 0 && ends_with(text, "}\n");
}

static bool is_number(const struct bytes *text)
{
    for (size_t i = 0; i + 1 < text->len; i++)
        if (text->at[i] < '0' || text->at[i] > '9')
            return false;
    return text->len >= 2 && ends_with(text, "\n");
}

/* What is wrong with the output of a program that is done; null for nothing. */
static const char *wrong_output(const struct command *command, const struct bytes *out)
{
    static const char *const SHOW[] = { "tenant", "show", "sheet", NULL };
    struct bytes picture = bytes_new();
    const char *why = NULL;
    if (out->len == 0)
        return "it is done and wrote nothing";
    if (command->output == IS_SHEET) {
        put_file("sheet", out->at, out->len);
        why = run(tenant_main, SHOW) == 0 ? NULL : "it wrote what is no sheet";
    } else if (command->output == IS_JSON) {
        why = is_json(out) ? NULL : "it wrote what is no JSON";
    } else if (command->output == IS_NUMBER) {
        why = is_number(out) ? NULL : "it wrote what is no number";
    } else if (command->output == IS_TEXT) {
        why = only_letters(out) && ends_with(out, "\n") ? NULL : "it wrote more than letters";
    }
    get_file("picture", &picture);
    if (why == NULL && picture.len > 0 && (!ends_with(&picture, "</svg>\n") || memcmp(picture.at, "<svg ", 5) != 0))
        why = "it drew half a picture";
    bytes_free(&picture);
    return why;
}

/* What is wrong with how a program ended; null for nothing. */
static const char *wrong(const struct command *command, int status)
{
    struct bytes out = bytes_new(), err = bytes_new();
    const char *why = NULL;
    int ended = WIFEXITED(status) ? WEXITSTATUS(status) : -1;
    get_file("out", &out);
    get_file("err", &err);
    bytes_text(&err);
    if (ended == -1)
        why = "it was ended by a signal";
    else if (ended != STATUS_DONE && ended != STATUS_BAD && ended != STATUS_TOLD)
        why = "it ended with a status that it has not";
    else if (ended != STATUS_DONE && err.len == 0)
        why = "it refused without a word";
    else if (!only_letters(&err))
        why = "it said more than letters";
    else if (strstr((char *)err.at, "says otherwise") != NULL)
        why = "it differs from the library";
    else if (ended == STATUS_BAD && strcmp(command->words[1], "show") != 0
        && (out.len > 0 || access("picture", F_OK) == 0))
        why = "it refused and wrote something";
    else if (ended != STATUS_BAD)
        why = wrong_output(command, &out);
    bytes_free(&out);
    bytes_free(&err);
    return why;
}

/* ---- all inputs ---- */

static uint64_t done[COUNT_OF(COMMANDS)], refused[COUNT_OF(COMMANDS)];

/* Runs one input; false where it fails. */
static bool try_input(uint64_t seed, uint64_t index)
{
    const struct command *command = &COMMANDS[index % COUNT_OF(COMMANDS)];
    struct bytes input = bytes_new();
    const char *why;
    char name[64];
    int status;
    state = seed * 0x9E3779B97F4A7C15u ^ index;
    add_good(&input, command->kind);
    if (chance(16) == 0) {
        input.len = 0;
        add_good(&input, (unsigned)chance(KINDS));
    }
    for (uint64_t times = chance(4); times > 0; times--)
        damage(&input);
    put_file("in", input.at, input.len);
    unlink("picture");
    status = run(command->main, command->words);
    why = wrong(command, status);
    if (WIFEXITED(status) && WEXITSTATUS(status) == STATUS_BAD)
        refused[index % COUNT_OF(COMMANDS)]++;
    else
        done[index % COUNT_OF(COMMANDS)]++;
    if (why != NULL) {
        snprintf(name, sizeof name, "failed-%llu", (unsigned long long)index);
        put_file(name, input.at, input.len);
        printf("FAILED input %llu of seed %llu (%s %s): %s; it is in %s\n", (unsigned long long)index,
            (unsigned long long)seed, command->words[0], command->words[1], why, name);
    }
    bytes_free(&input);
    return why == NULL;
}

int main(int count, char **words)
{
    uint64_t inputs, seed, failures = 0, all_done = 0, all_refused = 0;
    if (count < 4 || count > 5 || chdir(words[1]) != 0) {
        fputs("usage: fuzz FOLDER COUNT SEED [INDEX]\n", stderr);
        return 2;
    }
    setvbuf(stdout, NULL, _IONBF, 0);
    inputs = strtoull(words[2], NULL, 10);
    seed = strtoull(words[3], NULL, 10);
    put_file("table", TABLES[0], strlen(TABLES[0]));
    put_file("list", LISTS[0], strlen(LISTS[0]));
    put_file("plan", PLAN "\n", strlen(PLAN "\n"));
    put_file("calls", CALLS_SENT, sizeof CALLS_SENT - 1);
    put_file("lines", LINES, strlen(LINES));
    put_file("whysent", WHYS_SENT, sizeof WHYS_SENT - 1);
    put_file("whys", WHYS, strlen(WHYS));
    if (count == 5)
        return try_input(seed, strtoull(words[4], NULL, 10)) ? 0 : 1;
    for (uint64_t i = 0; i < inputs && failures < MOST_FAILURES; i++)
        failures += !try_input(seed, i);
    for (size_t i = 0; i < COUNT_OF(COMMANDS); i++) {
        all_done += done[i];
        all_refused += refused[i];
        if (inputs < 100 * COUNT_OF(COMMANDS))
            continue;
        if (done[i] == 0 || (refused[i] == 0 && COMMANDS[i].output != IS_STREAM)) {
            printf("FAILED %s %s: %llu inputs done, %llu refused: this tries nothing\n", COMMANDS[i].words[0],
                COMMANDS[i].words[1], (unsigned long long)done[i], (unsigned long long)refused[i]);
            failures++;
        }
    }
    printf("fuzz: %llu inputs of seed %llu: %llu done, %llu refused, %llu failed\n",
        (unsigned long long)(all_done + all_refused), (unsigned long long)seed, (unsigned long long)all_done,
        (unsigned long long)all_refused, (unsigned long long)failures);
    return failures == 0 ? 0 : 1;
}
