/* The desk's tool: writes settings sheets. */
#include <stdio.h>
#include <string.h>

#include "contents.h"
#include "options.h"
#include "output.h"
#include "program.h"
#include "rippleplank.h"
#include "say.h"
#include "show.h"
#include "table.h"

static const char USAGE[] =
    "usage: desk settings UNIT TENANCY [TABLE] [--start sum|larger] [-o FILE]\n"
    "       desk show [SHEET] [--unit UNIT] [--tenancy TENANCY] [--disks N] [--calls FILE]\n"
    "       desk --help | --version\n";

static const char *const HELP[] = {
    "\n"
    "settings writes the settings sheet of UNIT for TENANCY to FILE, or to standard output.\n"
    "\n"
    "TABLE is a file of CSV, by default standard input, parted by commas, semicolons or tabs. Its\n"
    "first line names the columns cost, load and delay, in any order; then a line for each disk, 1\n"
    "to 64 of them, in whole microseconds: cost of a block 1 to 1,000,000, load 0 to 100,000,000,\n"
    "delay 0 to 1,000,000. A column disk may say each disk's number, and is then checked. A column\n"
    "out may say of each disk 0 or in, for one in use, or 1 or out, for one that was pulled, from\n"
    "which no block is then read. What follows a # is a comment; comments and empty lines are passed\n"
    "over. A settings sheet will do too, and is written for UNIT and TENANCY.\n"
    "\n"
    "    disk,cost,load,delay,out\n"
    "    0,4,0,1,in\n"
    "    1,3,2,0,out  # a comment\n"
    "\n"
    "--start says for the whole unit how a disk's start comes from its delay and its load: sum, after\n"
    "each other, which is usual; or larger, where newer controllers hand the request to the disk at\n"
    "once, so that it works off its load meanwhile. A settings sheet has its own, which stays unless\n"
    "--start gives another.\n"
    "\n",
    "show shows any sheet field by field with the places of its bytes, and where it is refused.\n"
    "SHEET is a file, by default standard input: the sheet itself, or its bytes in hex or as xxd\n"
    "or hexdump show them, or what the shelf printed. Of its lines every call that it refused is\n"
    "shown as well, on standard output, and nothing is taken from a last line without its line\n"
    "feed. The options say what is expected of a sheet; without --disks N, those of a request are\n"
    "checked up to 63. With --calls FILE, the calls that were sent, as stream wrote them, what the\n"
    "shelf refused is told with the field that stands at its place.\n"
    "\n"
    "FILE is written whole or not at all, not at all where the sheet is refused, and never over an\n"
    "input or a read-only file.\n"
    "Exit status: 0 done; 1 refused, or a file can not be used; 2 called wrongly; 3 sheets are\n"
    "shown, and the shelf refused another call or stopped, or its last line is cut.\n",
    NULL
};

static int settings(char **words)
{
    const char *places[3] = { NULL, NULL, NULL }, *start_word = NULL, *out = NULL;
    const struct option options[] = { { "--start", &start_word, NULL }, { "-o", &out, NULL }, { NULL, NULL, NULL } };
    uint8_t sheet[RP_LONGEST_SETTINGS];
    uint32_t unit, tenancy, len;
    enum start start = SUM;
    struct table table;
    if (!options_read(words, places, 2, 3, options) || !word_number("UNIT", places[0], &unit)
        || !word_number("TENANCY", places[1], &tenancy) || (start_word != NULL && !start_named(start_word, &start)))
        return program_usage();
    if (!table_read(places[2], &ANYTHING, &table))
        return STATUS_BAD;
    if (start_word != NULL)
        table.start = start;
    else if (table.kind == KIND_OVERLAP || table.kind == KIND_MARKED)
        say("%s: its start is kept, %s; --start gives another", table.name, start_name(table.start));
    len = table_sheet(&table, unit, tenancy, sheet);
    table_free(&table);
    return len > 0 && output_bytes(out, sheet, len) ? STATUS_DONE : STATUS_BAD;
}

int main(int count, char **words)
{
    static const struct command COMMANDS[] = { { "settings", settings }, { "show", show_sheets }, { NULL, NULL } };
    static const struct program DESK = { "desk", USAGE, HELP, COMMANDS, NULL };
    return program_main(&DESK, count, words);
}
