/* Frames calls for the shelf program: the unit's number, then the calls, all numbers in sheet form. */
#include <stdio.h>
#include <string.h>

#include "bytes.h"
#include "calls.h"
#include "contents.h"
#include "input.h"
#include "number.h"
#include "options.h"
#include "output.h"
#include "program.h"
#include "remedy.h"
#include "rippleplank.h"
#include "say.h"

static const char USAGE[] =
    "usage: stream [-o FILE] UNIT CALL...\n"
    "       stream --help | --version\n";

static const char *const HELP[] = {
    "\n"
    "Writes to FILE, or to standard output, what the shelf program reads: the number of the unit\n"
    "and the calls, in this order. A CALL is one of\n"
    "\n"
    "    rent TENANCY         begins a hire\n"
    "    settings FILE        sends a settings sheet\n"
    "    request ROOM FILE    sends a read request, with so much room for the plan (at most 4,096)\n"
    "    why BLOCK DISK FILE  asks why the plan of a read request does or does not read a block from a disk\n"
    "    return TENANCY       ends the hire\n"
    "\n"
    "For DISK the word each asks about each disk that holds the block, a call for each; for BLOCK,\n"
    "about each block with a copy on the disk; for both, about every copy of the request. Send the\n"
    "request as well, and tenant why has the plan's time beside the answers.\n"
    "\n"
    "Exit status: 0 written; 1 a file can not be used; 2 called wrongly.\n",
    NULL
};

/* Reads the sheet of a file. */
static bool read_sheet(const char *path, struct bytes *sheet)
{
    if (!input_read(path, sheet))
        return false;
    if (sheet->len <= RP_LONGEST_REQUEST)
        return true;
    say("%s: %s bytes, and no sheet has more than %s: the shelf would stop there", input_name(path),
        grouped(sheet->len).text, grouped(RP_LONGEST_REQUEST).text);
    return false;
}

/* Adds a length and a sheet. */
static void add_sheet(struct bytes *out, const struct bytes *sheet)
{
    number_add(out, (uint32_t)sheet->len);
    bytes_add(out, sheet->at, sheet->len);
}

static int put_sheet(struct bytes *out, const char *path)
{
    struct bytes sheet = bytes_new();
    bool good = read_sheet(path, &sheet);
    if (good)
        add_sheet(out, &sheet);
    bytes_free(&sheet);
    return good ? STATUS_DONE : STATUS_BAD;
}

/* ---- why ---- */

/* The blocks or disks that are asked about: one, or each that there is a copy of or on. */
struct which {
    bool each;
    uint32_t one;
};

static bool read_which(const char *what, const char *word, struct which *which)
{
    which->each = strcmp(word, "each") == 0;
    which->one = 0;
    return which->each || word_number(what, word, &which->one);
}

static void add_why(struct bytes *out, uint32_t block, uint32_t disk, const struct bytes *sheet)
{
    number_add(out, CALL_WHY);
    number_add(out, block);
    number_add(out, disk);
    add_sheet(out, sheet);
}

/* Adds a call for each copy that is asked about; gives how many there are. */
static unsigned add_each(struct bytes *out, struct which block, struct which disk, const struct contents *request,
    const struct bytes *sheet)
{
    unsigned count = 0;
    for (uint32_t b = 0; b < request->count; b++) {
        for (uint32_t d = 0; d < RP_MOST_DISKS; d++) {
            if ((request->copies[b] >> d & 1) && (block.each || block.one == b) && (disk.each || disk.one == d)) {
                add_why(out, b, d, sheet);
                count++;
            }
        }
    }
    return count;
}

/* The copies of a request are its own to tell, so it has to be one that some unit takes; or says why there are none. */
static bool put_each(struct bytes *out, const char *name, struct which block, struct which disk,
    const struct bytes *sheet)
{
    static struct contents request;
    const struct expected expected = { .disks = RP_MOST_DISKS, .sort = REQUEST };
    contents_read(sheet, &expected, &request, NULL);
    if (request.refusal != RP_ACCEPTED) {
        contents_say(&request, name, remedy_here(request.refusal, request.sort));
        return false;
    }
    if (add_each(out, block, disk, &request, sheet) > 0)
        return true;
    if (request.count == 0)
        say("%s: it asks for no block, so there is no copy to ask about", name);
    else if (disk.each)
        say("%s: it has the blocks 0 to %u, so block %u has no disks to ask about", name, (unsigned)request.count - 1,
            (unsigned)block.one);
    else
        say("%s: none of its %u block%s has a copy on disk %u", name, (unsigned)request.count,
            request.count == 1 ? "" : "s", (unsigned)disk.one);
    return false;
}

/* Adds the calls of `why BLOCK DISK FILE`. */
static int put_why(struct bytes *out, char **words)
{
    struct which block, disk;
    struct bytes sheet;
    bool good;
    if (!read_which("BLOCK", words[0], &block) || !read_which("DISK", words[1], &disk))
        return program_usage();
    sheet = bytes_new();
    good = read_sheet(words[2], &sheet);
    if (good && (block.each || disk.each))
        good = put_each(out, input_name(words[2]), block, disk, &sheet);
    else if (good)
        add_why(out, block.one, disk.one, &sheet);
    bytes_free(&sheet);
    return good ? STATUS_DONE : STATUS_BAD;
}

/* ---- all calls ---- */

/* A call's kind and how many words follow its name; 0 where there is no such call. */
static uint32_t kind_of(const char *name, int *words)
{
    for (uint32_t kind = CALL_RENT; kind <= CALL_WHY; kind++) {
        if (strcmp(name, call_name(kind)) == 0) {
            *words = kind == CALL_WHY ? 3 : kind == CALL_REQUEST ? 2 : 1;
            return kind;
        }
    }
    return 0;
}

/* Adds one call whose words follow its name. */
static int put_call(struct bytes *out, uint32_t kind, char **words)
{
    uint32_t number;
    if (kind == CALL_WHY)
        return put_why(out, words);
    number_add(out, kind);
    if (kind == CALL_SETTINGS)
        return put_sheet(out, words[0]);
    if (!word_number(kind == CALL_REQUEST ? "ROOM" : "TENANCY", words[0], &number))
        return program_usage();
    if (kind == CALL_REQUEST && number > MOST_ROOM) {
        say("ROOM is %s, and the shelf stops above %s; %s hold every plan", grouped(number).text,
            grouped(MOST_ROOM).text, grouped(RP_LONGEST_PLAN).text);
        return program_usage();
    }
    number_add(out, number);
    return kind == CALL_REQUEST ? put_sheet(out, words[1]) : STATUS_DONE;
}

/* Adds all calls. */
static int put_calls(struct bytes *out, int count, char **words)
{
    int status = STATUS_DONE, due = 0;
    for (int i = 0; i < count && status == STATUS_DONE; i += 1 + due) {
        uint32_t kind = kind_of(words[i], &due);
        if (kind == 0 || count - i - 1 < due) {
            if (kind == 0)
                say("there is no call \"%s\"", shown(span_of(words[i])).text);
            else
                say("%s needs %s", words[i], due == 1 ? "a word" : due == 2 ? "two words" : "three words");
            return program_usage();
        }
        status = put_call(out, kind, words + i + 1);
    }
    return status;
}

static int frame(char **words)
{
    const char *path = NULL;
    struct bytes out;
    uint32_t unit;
    int count = 0, status;
    if (strcmp(words[0], "-o") == 0) {
        path = words[1];
        words += path == NULL ? 1 : 2;
    }
    while (words[count] != NULL)
        count++;
    if (count < 1) {
        say("1 more word is due");
        return program_usage();
    }
    if (!word_number("UNIT", words[0], &unit))
        return program_usage();
    out = bytes_new();
    number_add(&out, unit);
    status = put_calls(&out, count - 1, words + 1);
    if (status == STATUS_DONE && !output_bytes(path, out.at, out.len))
        status = STATUS_BAD;
    bytes_free(&out);
    return status;
}

int main(int count, char **words)
{
    static const struct program STREAM = { "stream", USAGE, HELP, NULL, frame };
    return program_main(&STREAM, count, words);
}
