/* The tenant's tool: writes read requests, and reads and shows plans and the reasons for them. */
#include <stdio.h>
#include <string.h>

#include "blocks.h"
#include "contents.h"
#include "options.h"
#include "output.h"
#include "plan.h"
#include "program.h"
#include "rippleplank.h"
#include "say.h"
#include "sheet.h"
#include "show.h"
#include "table.h"
#include "why.h"

static const char USAGE[] =
    "usage: tenant request UNIT TENANCY DISKS [LIST] [--age MICROSECONDS] [-o FILE]\n"
    "       tenant plan UNIT TENANCY [SHEET] [--nth N] [--disks TABLE [--start sum|larger]\n"
    "                   [--age MICROSECONDS] [--svg FILE]] [--request LIST] [--calls FILE]\n"
    "                   [--by-block | --json | --line | --time]\n"
    "       tenant why UNIT TENANCY [ANSWERS] --calls FILE [--nth N] [--block BLOCK [--svg FILE]]\n"
    "                   [--disk DISK] [--json]\n"
    "       tenant show [SHEET] [--unit UNIT] [--tenancy TENANCY] [--disks N] [--calls FILE]\n"
    "       tenant --help | --version\n";

static const char *const HELP[] = {
    "\n"
    "request writes a read request of TENANCY to UNIT, whose table has DISKS disks, to FILE, or to\n"
    "standard output. With --age MICROSECONDS, the time since the settings were measured, each load\n"
    "counts as what is left of it by then; without it, as it was measured.\n"
    "\n"
    "LIST is a file of text, by default standard input: a line for each block in turn, at most\n"
    "1,024, with the numbers of the 1 to 8 disks that hold it, in any order, parted by blanks or\n"
    "any of , ; | / and a line of a single - for a block that no disk holds (such a request is\n"
    "refused). A block's number and a colon may stand before its disks, and are then checked. What\n"
    "follows a # is a comment. Empty lines are no blocks; one that stands among blocks, with no\n"
    "comment beside it, is told, and so is a block in a comment, unless the lines have numbers. A\n"
    "read request will do too, and is written for UNIT and TENANCY; it keeps its age, unless --age\n"
    "gives another.\n"
    "\n"
    "    0: 0 1\n"
    "    1: 0 1       # the same two disks\n"
    "\n",
    "plan reads a plan sheet of UNIT and TENANCY and shows its time R, the blocks of each disk and\n"
    "the short set: the blocks that can not all be read one microsecond sooner.\n"
    "\n"
    "SHEET is a file, by default standard input: the sheet itself, or its bytes in hex or as xxd\n"
    "or hexdump show them, or what the shelf printed. Of several plans the one of UNIT and TENANCY\n"
    "is taken. What the shelf refused is told on standard error, the first 50 calls of it, and the\n"
    "exit status is 3. Nothing is taken from a last line of the shelf without its line feed.\n"
    "--nth N         the Nth plan of UNIT and TENANCY, where there are several\n"
    "--disks TABLE   the table of disks that the settings sheet was made from (see desk --help), or\n"
    "                that sheet: shows when each disk starts and ends, and the timeline to R\n"
    "--start larger  each disk of the table starts at the larger of its delay and its load, which are\n"
    "                drawn side by side; without it, or with sum, after each other; where TABLE is the\n"
    "                settings sheet or --calls is given, they have it\n"
    "--age MICROSECONDS  the age that the request was written with: the loads are what is left of them\n"
    "                then; where --request is a read request or --calls is given, they have it\n"
    "--svg FILE      writes that timeline as a picture, with the short set's blocks marked\n"
    "--request LIST  the list that the request was made from, or that sheet: checks that every\n"
    "                block is read from a disk that holds it; with --disks also that R is least,\n"
    "                and shows why: the disks of the short set and their room before R\n"
    "--calls FILE    the calls that were sent, as stream wrote them: what the shelf refused is told with\n"
    "                the field that stands at its place\n"
    "--by-block      shows each block's disk too\n"
    "--json          one line of JSON\n"
    "--line          the line that the bench program prints\n"
    "--time          R alone\n"
    "\n",
    "why tells why a plan reads a block from a disk, or why not, in the words of what the shelf answered.\n"
    "\n"
    "ANSWERS is a file, by default standard input: what the shelf printed, with a line for each call.\n"
    "--calls FILE    the calls that were sent, as stream wrote them: why BLOCK DISK FILE, and the request\n"
    "                before it, so that the plan is there to hold the reasons against; without it\n"
    "                they are told as the lines have them, which is said\n"
    "--nth N         the Nth request of UNIT and TENANCY that was asked about, where there are several\n"
    "--block BLOCK   a table of the disks that hold this block\n"
    "--disk DISK     a table of the blocks that have a copy on this disk; with --block, that one answer\n"
    "--svg FILE      draws the disks of the block, each to the time when the last block would be in\n"
    "--json          one line of JSON\n"
    "\n",
    "show shows any sheet field by field with the places of its bytes, and where it is refused; of\n"
    "the shelf's lines every call that it refused as well, on standard output. The options say what\n"
    "is expected of a sheet; without --disks N, those of a request are checked up to 63. --calls is\n"
    "as above.\n"
    "\n"
    "Files are written whole or not at all, not at all where something is refused, and never over\n"
    "an input or a read-only file.\n"
    "Exit status: 0 done; 1 refused, or a file can not be used; 2 called wrongly; 3 the plan or\n"
    "the reasons are shown, and the shelf refused another call, stopped, or ended early, or its\n"
    "last line is cut.\n",
    NULL
};

static int request(char **words)
{
    const char *places[4] = { NULL, NULL, NULL, NULL }, *age_word = NULL, *out = NULL;
    const struct option options[] = { { "--age", &age_word, NULL }, { "-o", &out, NULL }, { NULL, NULL, NULL } };
    static uint8_t sheet[RP_LONGEST_REQUEST];
    uint32_t unit, tenancy, disks, age = 0, len;
    struct blocks blocks;
    if (!options_read(words, places, 3, 4, options) || !word_number("UNIT", places[0], &unit)
        || !word_number("TENANCY", places[1], &tenancy) || !word_number("DISKS", places[2], &disks)
        || (age_word != NULL && !word_age("--age", age_word, &age)))
        return program_usage();
    if (!blocks_read(places[3], &ANYTHING, &blocks))
        return STATUS_BAD;
    if (age_word != NULL) {
        blocks.kind = RP_AGED_REQUEST;
        blocks.age = age;
    } else if (blocks.kind == RP_AGED_REQUEST) {
        say("%s: its age is kept, %s microsecond%s; --age gives another", blocks.name, grouped(blocks.age).text,
            blocks.age == 1 ? "" : "s");
    }
    len = blocks_sheet(&blocks, unit, tenancy, disks, sheet);
    if (len > 0 && blocks.count == 0)
        say("%s: there is no block in it: this request asks for nothing", blocks.name);
    blocks_free(&blocks);
    return len > 0 && output_bytes(out, sheet, len) ? STATUS_DONE : STATUS_BAD;
}

/* What `tenant plan` is asked for. */
struct wish {
    const char *places[3];
    const char *nth, *disks, *start_word, *age_word, *picture, *request, *calls;
    bool by_block, json, line, time;
    uint32_t unit, tenancy, number, age;
    enum start start;
};

static bool read_wish(char **words, struct wish *w)
{
    const struct option options[] = {
        { "--nth", &w->nth, NULL }, { "--disks", &w->disks, NULL }, { "--start", &w->start_word, NULL },
        { "--age", &w->age_word, NULL }, { "--svg", &w->picture, NULL }, { "--request", &w->request, NULL },
        { "--calls", &w->calls, NULL }, { "--by-block", NULL, &w->by_block }, { "--json", NULL, &w->json },
        { "--line", NULL, &w->line }, { "--time", NULL, &w->time }, { NULL, NULL, NULL }
    };
    memset(w, 0, sizeof *w);
    if (!options_read(words, w->places, 2, 3, options) || !word_number("UNIT", w->places[0], &w->unit)
        || !word_number("TENANCY", w->places[1], &w->tenancy)
        || (w->nth != NULL && !word_number("--nth", w->nth, &w->number))
        || (w->start_word != NULL && !start_named(w->start_word, &w->start))
        || (w->age_word != NULL && !word_age("--age", w->age_word, &w->age)))
        return false;
    if (w->nth != NULL && w->number == 0)
        say("--nth counts from 1");
    else if (w->start_word != NULL && w->disks == NULL)
        say("--start is about the delays and loads of a table, so it needs --disks TABLE");
    else if (w->age_word != NULL && w->disks == NULL)
        say("--age is taken off the loads of a table, so it needs --disks TABLE");
    else if (w->by_block + w->json + w->line + w->time > 1)
        say("--by-block, --json, --line and --time are four ways to show one plan; give one of them");
    else if (w->picture != NULL && w->disks == NULL)
        say("--svg draws times, so it needs --disks TABLE");
    else if (w->picture != NULL && output_is_standard(w->picture))
        say("--svg %s: standard output gets the text; give the picture a file of its own", w->picture);
    else
        return true;
    return false;
}

/* What the calls tell of the request and the settings that a plan is of; the kinds are 0 where they do not. */
struct sent {
    const char *name;
    uint32_t request, settings;     /* the kinds */
    uint32_t age;
    enum start start;
    uint64_t out;
};

static void take_sent(const struct wish *w, const struct found *found, struct sent *sent)
{
    static struct contents contents;
    *sent = (struct sent){ .name = w->calls, .start = SUM };
    if (found->call != NULL) {
        contents_read(&found->call->sheet, &ANYTHING, &contents, NULL);
        sent->request = contents.kind;
        sent->age = contents.age;
    }
    if (found->settings != NULL) {
        contents_read(&found->settings->sheet, &ANYTHING, &contents, NULL);
        sent->settings = contents.kind;
        sent->start = contents.start;
        sent->out = contents_out(&contents);
    }
}

/* Reads the plan of a sheet's file; what the shelf refused beside it is told. */
static bool read_plan(const struct wish *w, struct plan *plan, struct sent *sent, bool *told)
{
    struct sheets sheets;
    const struct found *found;
    bool good;
    if (!sheets_read(w->places[2], w->calls, FIRST_TOLD, &sheets))
        return false;
    sheets_tell(&sheets);
    *told = sheets_trouble(&sheets);
    found = sheets_plan(&sheets, w->unit, w->tenancy, w->number);
    good = found != NULL && plan_read(sheets.name, found, w->unit, w->tenancy, plan);
    if (good)
        take_sent(w, found, sent);
    sheets_free(&sheets);
    return good;
}

/* Reads the plan's table, which has to be one that the desk would write. */
static bool read_table(const char *path, const struct plan *plan, struct table *table)
{
    uint8_t sheet[RP_LONGEST_SETTINGS];
    const struct expected expected = { .unit = &plan->unit, .tenancy = &plan->tenancy, .disks = RP_MOST_DISKS };
    return table_read(path, &expected, table) && table_sheet(table, plan->unit, plan->tenancy, sheet) > 0;
}

/* Reads the plan's request, which has to be one that a unit of this table, if it is not null, would take. */
static bool read_request(const char *path, const struct plan *plan, const struct table *table, struct blocks *blocks)
{
    static uint8_t sheet[RP_LONGEST_REQUEST];
    const struct expected expected = { .unit = &plan->unit, .tenancy = &plan->tenancy,
        .disks = table == NULL ? RP_MOST_DISKS : (uint32_t)table->count, .out = table == NULL ? 0 : table_out(table) };
    return blocks_read(path, &expected, blocks)
        && blocks_sheet(blocks, plan->unit, plan->tenancy, expected.disks, sheet) > 0
        && blocks_in_use(blocks, expected.out);
}

/* Where something is told: an option, a sheet or the calls. */
struct source {
    const char *name;
    bool known;
    uint32_t value;
};
enum { SOURCES = 3 };

/* The first of them that tells, null for none; false where another tells otherwise, and then `other` is that one. */
static bool agree(const struct source sources[SOURCES], const struct source **first, const struct source **other)
{
    *first = NULL;
    for (*other = sources; *other < sources + SOURCES; ++*other) {
        if (*first != NULL && (*other)->known && (*other)->value != (*first)->value)
            return false;
        *first = *first == NULL && (*other)->known ? *other : *first;
    }
    return true;
}

/* Takes the loads at the request's age; a table whose loads count as they are stays as it is. */
static bool take_age(const struct wish *w, const struct blocks *blocks, const struct sent *sent, struct table *table)
{
    const struct source sources[SOURCES] = { { "--age", w->age_word != NULL, w->age },
        { blocks->name, blocks->kind != 0, blocks->age }, { sent->name, sent->request != 0, sent->age } };
    const bool aged = w->age_word != NULL || blocks->kind == RP_AGED_REQUEST || sent->request == RP_AGED_REQUEST;
    const struct source *first, *other;
    if (!agree(sources, &first, &other)) {
        say("the age of the request is %s by %s and %s by %s", grouped(first->value).text, first->name,
            grouped(other->value).text, other->name);
        return false;
    }
    table->age_told = first != NULL;
    if (aged)
        table_age(table, first->value);
    return true;
}

/* Takes how the disks start. */
static bool take_start(const struct wish *w, const struct sent *sent, struct table *table)
{
    const struct source sources[SOURCES] = { { "--start", w->start_word != NULL, w->start },
        { table->name, table->kind != 0, table->start }, { sent->name, sent->settings != 0, sent->start } };
    const struct source *first, *other;
    if (!agree(sources, &first, &other)) {
        say("the start of each disk is the %s by %s and the %s by %s", start_name((enum start)first->value),
            first->name, start_name((enum start)other->value), other->name);
        return false;
    }
    table->start_told = first != NULL;
    table->start_sure = table->kind != 0 || sent->settings != 0;
    if (first != NULL)
        table->start = (enum start)first->value;
    return true;
}

/* Takes which disks are out from the calls, where they tell it and the table does not. */
static bool take_out(const struct sent *sent, struct table *table)
{
    struct bytes out = bytes_new();
    const bool told = table->marked || table->kind != 0, same = table_out(table) == sent->out;
    if (sent->settings != 0 && told && !same) {
        add_disks(&out, table_out(table) ^ sent->out);
        say("%s and %s do not have the same disks out: they differ in%s", table->name, sent->name, bytes_text(&out));
    } else if (sent->settings != 0 && !told) {
        table->marked = sent->out != 0;
        for (uint32_t d = 0; d < table->count; d++)
            table->rows[d].out = sent->out >> d & 1;
    }
    bytes_free(&out);
    return sent->settings == 0 || !told || same;
}

/* Reads what the plan is held against, and holds it. */
static bool read_rest(const struct wish *w, const struct plan *plan, const struct sent *sent, struct table *table,
    struct blocks *blocks, struct reason *reason)
{
    const bool by_table = w->disks != NULL, by_request = w->request != NULL;
    if (by_table && (!read_table(w->disks, plan, table) || !take_start(w, sent, table) || !take_out(sent, table)))
        return false;
    if (by_request && !read_request(w->request, plan, by_table ? table : NULL, blocks))
        return false;
    return (!by_table || (take_age(w, blocks, sent, table) && plan_fits(plan, table)))
        && (!by_request || plan_holds(plan, blocks))
        && (!by_table || !by_request || plan_reason(plan, blocks, table, reason));
}

static void add_plan(const struct wish *w, const struct view *view, struct bytes *text)
{
    if (w->json)
        plan_json(view, text);
    else if (w->line)
        plan_line(view->plan, text);
    else if (w->time)
        bytes_addf(text, "%u\n", (unsigned)view->plan->time);
    else
        plan_show(view, text);
}

/* The picture first: where it can not be written, nothing is shown. */
static bool put_plan(const struct wish *w, const struct view *view)
{
    struct bytes text = bytes_new(), svg = bytes_new();
    bool good = true;
    add_plan(w, view, &text);
    if (w->picture != NULL) {
        plan_draw(view, &svg);
        good = output_write(w->picture, svg.at, svg.len);
    }
    good = good && output_write(NULL, text.at, text.len);
    bytes_free(&text);
    bytes_free(&svg);
    return good;
}

static int plan(char **words)
{
    static struct plan plan;
    struct wish w;
    struct table table = { .rows = NULL };
    struct blocks blocks = { .list = NULL };
    struct sent sent;
    struct reason reason;
    bool good, told = false;
    if (!read_wish(words, &w))
        return program_usage();
    good = read_plan(&w, &plan, &sent, &told) && read_rest(&w, &plan, &sent, &table, &blocks, &reason)
        && put_plan(&w, &(struct view){ &plan, w.disks == NULL ? NULL : &table,
            w.request == NULL ? NULL : &blocks, w.disks == NULL || w.request == NULL ? NULL : &reason, w.by_block,
            output_width() });
    table_free(&table);
    blocks_free(&blocks);
    return !good ? STATUS_BAD : told ? STATUS_TOLD : STATUS_DONE;
}

/* What `tenant why` is asked for. */
struct why_wish {
    const char *places[3];
    const char *calls, *nth, *block, *disk, *picture;
    bool json;
    uint32_t unit, tenancy, number;
    struct choice choice;
};

static bool read_why_wish(char **words, struct why_wish *w)
{
    const struct option options[] = {
        { "--calls", &w->calls, NULL }, { "--nth", &w->nth, NULL }, { "--block", &w->block, NULL },
        { "--disk", &w->disk, NULL }, { "--svg", &w->picture, NULL }, { "--json", NULL, &w->json }, { NULL, NULL, NULL }
    };
    memset(w, 0, sizeof *w);
    if (!options_read(words, w->places, 2, 3, options) || !word_number("UNIT", w->places[0], &w->unit)
        || !word_number("TENANCY", w->places[1], &w->tenancy)
        || (w->nth != NULL && !word_number("--nth", w->nth, &w->number))
        || (w->block != NULL && !word_number("--block", w->block, &w->choice.block))
        || (w->disk != NULL && !word_number("--disk", w->disk, &w->choice.disk)))
        return false;
    w->choice.of_block = w->block != NULL;
    w->choice.of_disk = w->disk != NULL;
    if (w->nth != NULL && w->number == 0)
        say("--nth counts from 1");
    else if (w->calls == NULL)
        say("a reason says nothing of its block and disk: the calls are needed, with --calls FILE");
    else if (w->picture != NULL && (w->block == NULL || w->disk != NULL))
        say("--svg draws the disks of one block, so it needs --block BLOCK, without --disk");
    else if (w->picture != NULL && output_is_standard(w->picture))
        say("--svg %s: standard output gets the text; give the picture a file of its own", w->picture);
    else
        return true;
    return false;
}

/* Whether something of what is asked for was asked of the shelf, and the lines end before the answer. */
static bool is_unanswered(const struct choice *choice)
{
    const struct question *q = choice->question;
    for (uint32_t b = 0; b < q->blocks.count; b++)
        for (uint32_t d = 0; d < q->table.count; d++)
            if (choice_has(choice, &(struct pair){ .block = b, .disk = d }) && question_unanswered(q, b, d))
                return true;
    return false;
}

/* Says that there is no reason for what is asked for, and how to get it. */
static void say_none(const struct why_wish *w, const struct sheets *sheets)
{
    const struct choice *c = &w->choice;
    struct bytes more = bytes_new();
    if (c->of_block && c->of_disk && question_out(c->question, c->block, c->disk))
        bytes_addf(&more, "; disk %u is out", (unsigned)c->disk);
    else if (c->of_block && c->of_disk && !question_holds(c->question, c->block, c->disk))
        bytes_addf(&more, "; the request has no copy of block %u on disk %u", (unsigned)c->block, (unsigned)c->disk);
    if (is_unanswered(c))
        say("%s: no answer: the call for it is in %s, and the lines end before it%s", sheets->name, sheets->sent.name,
            bytes_text(&more));
    else
        say("%s: it has no reason for this; the call for it is why %s %s FILE%s%s", sheets->name,
            w->block != NULL ? w->block : "each", w->disk != NULL ? w->disk : "each",
            sheets->refusals > 0 ? ", unless that was refused" : "", bytes_text(&more));
    bytes_free(&more);
}

/* How the plan is had that the reasons are to be held against. */
static const char *plan_remedy(const struct question *q)
{
    return q->planned_before ? "send the request again after the settings" : "send the request as well";
}

/* Whether there is an answer to what is asked for; or says why not. */
static bool is_answered(const struct why_wish *w, const struct sheets *sheets)
{
    const struct question *q = w->choice.question;
    if (w->choice.of_block && w->choice.block >= q->blocks.count)
        say("--block %u: the request has the blocks 0 to %zu", (unsigned)w->choice.block, q->blocks.count - 1);
    else if (w->choice.of_disk && w->choice.disk >= q->table.count)
        say("--disk %u: the settings have the disks 0 to %zu", (unsigned)w->choice.disk, q->table.count - 1);
    else if (w->picture != NULL && q->plan_line == 0)
        say("--svg draws times to R, and there is no plan of this request under these settings: %s", plan_remedy(q));
    else {
        for (size_t i = 0; i < q->count; i++)
            if (choice_has(&w->choice, &q->pairs[i]))
                return true;
        say_none(w, sheets);
    }
    return false;
}

/* Says it where the reasons are the lines' word alone. */
static void say_held(const struct question *q, const struct sheets *sheets)
{
    if (q->plan_line == 0)
        say("%s: the plan of this request under these settings is not among the lines, so the reasons are not held "
            "against it: %s", sheets->name, plan_remedy(q));
}

/* The picture first: where it can not be written, nothing is shown. */
static bool put_why(const struct why_wish *w)
{
    struct bytes text = bytes_new(), svg = bytes_new();
    bool good = true;
    if (w->json)
        why_json(&w->choice, &text);
    else
        why_show(&w->choice, &text);
    if (w->picture != NULL) {
        why_draw(w->choice.question, w->choice.block, &svg);
        good = output_write(w->picture, svg.at, svg.len);
    }
    good = good && output_write(NULL, text.at, text.len);
    bytes_free(&text);
    bytes_free(&svg);
    return good;
}

static int why(char **words)
{
    static struct question question;
    struct why_wish w;
    struct sheets sheets;
    bool good, told;
    if (!read_why_wish(words, &w))
        return program_usage();
    if (!sheets_read(w.places[2], w.calls, FIRST_TOLD, &sheets))
        return STATUS_BAD;
    sheets_tell(&sheets);
    w.choice.question = &question;
    good = question_read(&sheets, w.unit, w.tenancy, w.number, &question) && is_answered(&w, &sheets);
    if (good) {
        say_held(&question, &sheets);
        good = put_why(&w);
    }
    told = sheets_trouble(&sheets) || sheets.lines < sheets.sent.count;
    question_free(&question);
    sheets_free(&sheets);
    return !good ? STATUS_BAD : told ? STATUS_TOLD : STATUS_DONE;
}

int main(int count, char **words)
{
    static const struct command COMMANDS[] = {
        { "request", request }, { "plan", plan }, { "why", why }, { "show", show_sheets }, { NULL, NULL }
    };
    static const struct program TENANT = { "tenant", USAGE, HELP, COMMANDS, NULL };
    return program_main(&TENANT, count, words);
}
