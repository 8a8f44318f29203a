#include "sheet.h"

#include <stdio.h>
#include <stdlib.h>
#include <string.h>

#include "calls.h"
#include "contents.h"
#include "hex.h"
#include "input.h"
#include "remedy.h"
#include "say.h"

/*
 * Text has no control bytes but those of lines; every sheet begins with one, its kind. One whose kind does not end has
 * bytes of 128 and above alone, and a text has a letter.
 */
static bool is_text(const struct bytes *b)
{
    bool letters = false, high = false;
    for (size_t i = 0; i < b->len; i++) {
        uint8_t c = b->at[i];
        if ((c < ' ' && c != '\n' && c != '\r' && c != '\t') || c == 0x7F)
            return false;
        letters = letters || (c > ' ' && c < 0x7F);
        high = high || c > 0x7F;
    }
    return b->len > 0 && (letters || !high);
}

/* Whether bytes begin as a text in UTF-16 does, which has control bytes, and go on. */
static bool is_wide_text(const struct bytes *b)
{
    return b->len > 2 && (memcmp(b->at, "\xFF\xFE", 2) == 0 || memcmp(b->at, "\xFE\xFF", 2) == 0);
}

/* ---- the shelf's lines ---- */

/* A text as it is read. */
struct reading {
    struct sheets *sheets;
    struct bytes found;     /* struct found */
    struct bytes whys;      /* struct why */
    struct bytes hex;       /* of lines that are hex digits alone: one sheet in all */
    unsigned hex_line;      /* the first of them */
    unsigned calls;         /* the shelf's lines so far, one for each call */
    bool rented;            /* by those lines */
    const struct calls *sent;   /* the calls, null where they are not known */
    uint32_t tenancy;       /* the last one by lines and calls, while rented the one that the unit has */
    uint32_t disks;         /* N, by lines and calls; 0 before any settings */
    uint64_t out;           /* the disks that are out */
    const struct call *settings;    /* the call that set them; null where it is not known */
    const struct call *read;        /* whose sheet was read last, since the unit changed; null for none */
    enum sort read_as;      /* and what it was read as */
    unsigned others;        /* how many refusals the calls do not explain */
};

/* Whether a line is a word and, after a blank, the rest. */
static bool begins(struct span line, const char *word, struct span *rest)
{
    size_t len = strlen(word);
    if (line.len <= len || memcmp(line.at, word, len) != 0 || line.at[len] != ' ')
        return false;
    *rest = trimmed((struct span){ line.at + len, line.len - len });
    return true;
}

/* The numbers of a line, at most two, as the shelf writes them; how many there are, 0 where it has anything else. */
static unsigned numbers_in(struct span rest, uint32_t numbers[2])
{
    struct span word;
    unsigned count = 0;
    while (span_next(&rest, " ", &word))
        if (count == 2 || (word.len > 1 && word.at[0] == '0') || !number_of(word, &numbers[count++]))
            return 0;
    return count;
}

/* What a line says of a call that was refused. */
struct refusal {
    uint32_t number;
    uint32_t place;     /* of a line without one, what the calls give; 0 where they are not known */
    bool placed;        /* whether the line has a place: an older shelf's has not */
};

/* Whether a refusal is of a call without a sheet: its place says nothing. */
static bool has_no_sheet(uint32_t refusal)
{
    return refusal == RP_RENTED || refusal == RP_NOT_ABOVE || refusal == RP_NOT_THE_TENANT;
}

/* Whether a line says that a call was refused with a number, at a place. */
static bool says(const struct refusal *refusal, uint32_t number, size_t place)
{
    return refusal->number == number && (!refusal->placed || refusal->place == place);
}

/* The call that a line answers; null where it is not known. */
static const struct call *call_of(const struct reading *r)
{
    return r->sent != NULL && r->calls <= r->sent->count ? &r->sent->list[r->calls - 1] : NULL;
}

/*
 * The sheet of a call as the unit reads it that the lines have shown so far; null where the call has none. Many calls in
 * a row may have one request, which is read once.
 */
static const struct contents *read_sent(struct reading *r)
{
    static struct contents contents;
    const struct call *call = call_of(r);
    const enum sort sort = call->kind == CALL_SETTINGS ? SETTINGS : REQUEST;
    const struct expected expected = { &r->sent->unit, &r->tenancy, r->disks, sort, !r->rented, r->out };
    if (call->kind == CALL_RENT || call->kind == CALL_RETURN)
        return NULL;
    if (r->read == NULL || r->read_as != sort || !call_same_sheet(r->read, call))
        contents_read(&call->sheet, &expected, &contents, NULL);
    r->read = call;
    r->read_as = sort;
    return &contents;
}

/* Whether a block and a disk that were asked about are of a request of so many blocks and of the unit. */
static bool within(const struct reading *r, const struct call *call, uint32_t blocks)
{
    return call->block < blocks && call->disk < r->disks;
}

/* Adds which of the two is not. */
static void add_outside(const struct reading *r, const struct call *call, uint32_t blocks, struct bytes *field)
{
    if (call->block >= blocks && blocks == 0)
        bytes_addf(field, "block %u: the request has no blocks", (unsigned)call->block);
    else if (call->block >= blocks)
        bytes_addf(field, "block %u: the request has the blocks 0 to %u", (unsigned)call->block, (unsigned)blocks - 1);
    if (call->disk >= r->disks)
        bytes_addf(field, "%sdisk %u: the settings have the disks 0 to %u", field->len > 0 ? "; " : "",
            (unsigned)call->disk, (unsigned)r->disks - 1);
}

/* What the unit refuses a call to rent or return with; 0 where it does not. */
static uint32_t hire_refusal(const struct reading *r, const struct call *call)
{
    if (call->kind == CALL_RENT && r->rented)
        return RP_RENTED;
    if (call->kind == CALL_RENT)
        return call->number > r->tenancy ? RP_ACCEPTED : RP_NOT_ABOVE;
    return r->rented && call->number == r->tenancy ? RP_ACCEPTED : RP_NOT_THE_TENANT;
}

/* Adds such a call, and the tenancy that the unit has or had. */
static void add_hire(const struct reading *r, const struct call *call, struct bytes *field)
{
    bytes_addf(field, "%s %u: ", call_name(call->kind), (unsigned)call->number);
    if (r->rented)
        bytes_addf(field, "the unit has tenancy %u", (unsigned)r->tenancy);
    else if (call->kind == CALL_RETURN)
        bytes_addf(field, "nobody has rented the unit");
    else if (r->tenancy > 0)
        bytes_addf(field, "the last tenancy was %u", (unsigned)r->tenancy);
    else
        bytes_addf(field, "no tenancy is 0");
}

/* Adds the room that a plan needs, as far as the line tells it. */
static void add_room(const struct call *call, const struct refusal *refusal, struct bytes *field)
{
    if (refusal->placed)
        bytes_addf(field, "the plan needs %s bytes, the buffer has %s", grouped(refusal->place).text,
            grouped(call->number).text);
    else
        bytes_addf(field, "the plan needs more than the %s bytes that the buffer has", grouped(call->number).text);
}

/* What to do where an older shelf may have refused the kind of a call's sheet, which is right in itself; else null. */
static const char *older_remedy(struct reading *r, const struct refusal *refusal)
{
    const struct contents *contents = call_of(r) == NULL || !says(refusal, RP_WRONG_KIND, 0) ? NULL : read_sent(r);
    const bool kept = contents != NULL && !says(refusal, contents->refusal, contents->place);
    return kept ? remedy_at_older(contents->kind) : NULL;
}

/* Adds what was refused in a call's sheet that is right in itself; false where nothing is. */
static bool add_beside(const struct reading *r, const struct contents *contents, const struct refusal *refusal,
    struct bytes *field)
{
    const struct call *call = call_of(r);
    if (call->kind == CALL_REQUEST && refusal->number == RP_NO_ROOM && call->number < RP_LONGEST_PLAN
        && (!refusal->placed || refusal->place > call->number)) {
        add_room(call, refusal, field);
        return true;
    }
    if (call->kind == CALL_WHY && says(refusal, RP_BAD_INDEX, 0) && !within(r, call, contents->count)) {
        add_outside(r, call, contents->count, field);
        return true;
    }
    return false;
}

/* Adds the field at which the shelf refused a call, and takes its place; false where the call is not refused so. */
static bool add_field(struct reading *r, struct refusal *refusal, struct bytes *field)
{
    const struct contents *contents = read_sent(r);
    if (contents == NULL) {
        const bool same = says(refusal, hire_refusal(r, call_of(r)), 0);
        if (same)
            add_hire(r, call_of(r), field);
        return same;
    }
    if (older_remedy(r, refusal) != NULL) {
        bytes_addf(field, "the kind: it is %u, which an older shelf does not know", (unsigned)contents->kind);
        refusal->place = 0;
        return true;
    }
    if (contents->refusal == RP_ACCEPTED)
        return add_beside(r, contents, refusal, field);
    if (!says(refusal, contents->refusal, contents->place))
        return false;
    contents_add(contents, field);
    refusal->place = (uint32_t)contents->place;
    return true;
}

/* Adds what has to be told of a call that was refused. */
static void add_refusal(struct reading *r, unsigned line, struct refusal refusal)
{
    struct bytes *told = &r->sheets->told, field = bytes_new();
    const char *older = older_remedy(r, &refusal);
    const bool sent = call_of(r) != NULL, named = sent && add_field(r, &refusal, &field);
    const bool known = refusal.placed || named, no_room = refusal.number == RP_NO_ROOM;
    const bool of_pair = known && refusal.number == RP_BAD_INDEX && refusal.place == 0; /* where a sheet has its kind */
    const bool at_byte = known && !has_no_sheet(refusal.number) && !no_room && !of_pair;
    if (sent && !named)
        r->others++;
    if (r->sheets->refusals++ < r->sheets->most_told) {
        bytes_addf(told, "refused %u", (unsigned)refusal.number);
        if (at_byte)
            bytes_addf(told, " at byte %u", (unsigned)refusal.place);
        bytes_addf(told, ": %s\n  %s:%u: the shelf refused call %u", named ? bytes_text(&field)
            : rp_refusal_words(refusal.number), r->sheets->name, line, r->calls);
        if (named)
            bytes_addf(told, ", %s: %s", call_name(call_of(r)->kind), rp_refusal_words(refusal.number));
        else if (refusal.placed && no_room)
            bytes_addf(told, ", whose plan needs %s bytes", grouped(refusal.place).text);
        if (sent && !named)
            bytes_addf(told, "\n  the calls of %s do not explain it", r->sent->name);
        if (!refusal.placed)
            bytes_addf(told, "\n  the line has no place: it is of an older shelf, or was cut%s",
                at_byte ? "; the place is the calls'" : "");
        bytes_addf(told, "\n  what to do: %s\n", of_pair ? "ask about a block of the request and a disk of the settings"
            : older != NULL ? older : remedy_at_shelf(refusal.number, r->rented));
    }
    bytes_free(&field);
}

/* Adds that the shelf stopped. */
static void add_stop(struct reading *r, unsigned line, uint32_t number)
{
    const bool older = number == RP_WRONG_KIND && call_of(r) != NULL && call_of(r)->kind == CALL_WHY;
    bytes_addf(&r->sheets->told, "stopped %u: %s\n  %s:%u: the shelf stopped at call %u%s\n"
        "  what to do: %s\n", (unsigned)number, why_stopped(number), r->sheets->name, line, r->calls,
        older ? ", why" : "", older ? "use a shelf that has the call why: this one is older"
        : "write the stream of calls again, whole");
    r->sheets->refusals++;
    r->sheets->stopped = true;
}

/* Whether the unit could have accepted the call that a line answers, as one of a kind. */
static bool could_accept(struct reading *r, uint32_t kind)
{
    const struct call *call = call_of(r);
    const struct contents *contents;
    if (call == NULL || call->kind != kind)
        return false;
    contents = read_sent(r);
    if (contents == NULL)
        return hire_refusal(r, call) == RP_ACCEPTED;
    return contents->refusal == RP_ACCEPTED && (kind != CALL_WHY || within(r, call, contents->count));
}

/* Takes a line that accepts a call of a kind, and what that makes of the unit. */
static void accept(struct reading *r, unsigned line, uint32_t kind)
{
    const struct call *call;
    if (r->sent != NULL && !could_accept(r, kind)) {
        say("%s:%u: this line does not answer call %u of %s: other calls were sent", r->sheets->name, line, r->calls,
            r->sent->name);
        r->sent = NULL;
        r->settings = NULL;
        r->sheets->astray = true;
    }
    call = call_of(r);
    if (kind == CALL_SETTINGS) {
        if (call != NULL) {
            const struct contents *contents = read_sent(r);
            r->disks = contents->count;
            r->out = contents_out(contents);
        }
        r->settings = call;
        r->read = NULL;
    }
    if (kind == CALL_RENT || kind == CALL_RETURN) {
        r->rented = kind == CALL_RENT;
        r->tenancy = call == NULL ? 0 : call->number;
        r->disks = 0;
        r->out = 0;
        r->settings = NULL;
        r->read = NULL;
    }
}

static void add_sheet(struct reading *r, struct bytes *sheet, unsigned line, const struct call *call)
{
    const struct found found = { *sheet, line, call, r->settings };
    bytes_add(&r->found, &found, sizeof found);
}

/* A line of the shelf that is no plan; false where it is none. */
static bool take_word(struct reading *r, unsigned line, struct span code)
{
    uint32_t numbers[2] = { 0, 0 };
    struct span rest;
    unsigned count;
    if (span_is(code, "rented"))
        accept(r, line, CALL_RENT);
    else if (span_is(code, "set"))
        accept(r, line, CALL_SETTINGS);
    else if (span_is(code, "returned"))
        accept(r, line, CALL_RETURN);
    else if (begins(code, "refused", &rest) && (count = numbers_in(rest, numbers)) > 0 && numbers[0] > 0)
        add_refusal(r, line, (struct refusal){ numbers[0], count == 2 ? numbers[1] : 0, count == 2 });
    else if (begins(code, "stopped", &rest) && numbers_in(rest, numbers) == 1)
        add_stop(r, line, numbers[0]);
    else
        return false;
    return true;
}

/* A reason of the shelf; false where it is none. */
static bool take_reason(struct reading *r, unsigned line, struct span code)
{
    uint32_t numbers[2];
    struct span rest;
    struct why why;
    if (!begins(code, "reason", &rest) || numbers_in(rest, numbers) != 2 || numbers[0] < NO_COPY || numbers[0] > CHOSEN
        || (numbers[0] == LATER) != (numbers[1] > 0))
        return false;
    accept(r, line, CALL_WHY);
    why = (struct why){ line, numbers[0], numbers[1], call_of(r), r->settings };
    bytes_add(&r->whys, &why, sizeof why);
    return true;
}

/* A plan of the shelf; false where it is none. */
static bool take_plan(struct reading *r, unsigned line, struct span code)
{
    struct bytes sheet = bytes_new();
    struct span rest;
    bool good = begins(code, "plan", &rest) && hex_read(rest, &sheet);
    if (good) {
        accept(r, line, CALL_REQUEST);
        add_sheet(r, &sheet, line, call_of(r));
    } else {
        bytes_free(&sheet);
    }
    return good;
}

/* Any line of the shelf; false where it is none. */
static bool take_answer(struct reading *r, unsigned line, struct span code)
{
    r->calls++;
    if (take_word(r, line, code) || take_reason(r, line, code) || take_plan(r, line, code))
        return true;
    r->calls--;
    return false;
}

/* Whether a line's code is a word of the shelf, or its beginning, and then letters of a set alone. */
static bool may_be(struct span code, const char *word, const char *letters)
{
    const size_t len = strlen(word);
    if (memcmp(code.at, word, code.len < len ? code.len : len) != 0)
        return false;
    for (size_t i = len; i < code.len; i++)
        if (strchr(letters, code.at[i]) == NULL)
            return false;
    return true;
}

/*
 * Takes a last line without its line feed, if it is one of the shelf: its end may be lost, so nothing is taken from it
 * but that it is there.
 */
static bool take_cut(struct reading *r, unsigned line, struct span code)
{
    const char *digits = " 0123456789";
    const bool numbers = may_be(code, "refused ", digits) || may_be(code, "stopped ", digits)
        || may_be(code, "reason ", digits);
    if (!numbers && !may_be(code, "plan ", " 0123456789ABCDEFabcdef") && !may_be(code, "rented", "")
        && !may_be(code, "set", "") && !may_be(code, "returned", ""))
        return false;
    bytes_addf(&r->sheets->told, "%s:%u: the line is cut%s\n  \"%s\" has no line feed: nothing is taken from it\n"
        "  what to do: fetch the shelf's lines again; if it ended there, its unit is gone with it, so begin again\n",
        r->sheets->name, line, numbers ? ": its number or place may be too" : "", shown(code).text);
    r->sheets->cut = true;
    return true;
}

/* What is wrong with a line that is none. */
static const char *why_no_line(struct span code)
{
    struct span rest;
    if (begins(code, "reason", &rest))
        return "no reason: they are 1 to 5, each with a time, which is 0 but for 2";
    if (begins(code, "refused", &rest))
        return "no line of this shelf: it has a refusal's number and a place, without a 0 before their digits";
    return "neither hex digits, two a byte, nor a line of the shelf";
}

static bool take_line(struct reading *r, unsigned line, struct span code)
{
    size_t before = r->hex.len;
    if (code.len == 0 || take_answer(r, line, code))
        return true;
    if (hex_read(code, &r->hex)) {
        if (r->hex_line == 0)
            r->hex_line = line;
        return true;
    }
    r->hex.len = before;
    say("%s:%u: \"%s\" is %s", r->sheets->name, line, shown(code).text, why_no_line(code));
    return false;
}

static bool read_lines(struct reading *r, const struct bytes *text)
{
    struct lines lines = lines_of(text);
    struct span line;
    while (lines_next(&lines, &line)) {
        const struct span code = code_of(line);
        const bool ended = line.at + line.len < (const char *)text->at + text->len;
        if ((ended || code.len == 0 || !take_cut(r, lines.number, code)) && !take_line(r, lines.number, code))
            return false;
    }
    if (r->hex_line > 0) {
        add_sheet(r, &r->hex, r->hex_line, NULL);
        r->hex = bytes_new();
    }
    return true;
}

static bool read_dump(struct reading *r, const struct bytes *text)
{
    unsigned wrong = dump_read(text, &r->hex);
    if (wrong > 0) {
        say("%s:%u: this line does not go on with the dump that begins above it", r->sheets->name, wrong);
        return false;
    }
    add_sheet(r, &r->hex, 0, NULL);
    r->hex = bytes_new();
    return true;
}

/* The file's bytes are the sheet. */
static bool read_bytes(struct reading *r, struct bytes *all)
{
    add_sheet(r, all, 0, NULL);
    *all = bytes_new();
    return true;
}

/* Reads a file with the calls that were sent, null where they are not known. */
static bool read_file(const char *path, const struct calls *sent, struct sheets *sheets)
{
    struct bytes all = bytes_new();
    struct reading r = { .sheets = sheets, .found = bytes_new(), .whys = bytes_new(), .hex = bytes_new(),
        .sent = sent };
    bool good = input_read(path, &all);
    if (good && (is_text(&all) || is_wide_text(&all))) {
        text_plain(&all);
        good = dump_is(&all) ? read_dump(&r, &all) : read_lines(&r, &all);
    } else if (good) {
        good = read_bytes(&r, &all);
    }
    bytes_free(&all);
    bytes_free(&r.hex);
    sheets->list = (struct found *)(void *)r.found.at;
    sheets->count = r.found.len / sizeof(struct found);
    sheets->whys = (struct why *)(void *)r.whys.at;
    sheets->why_count = r.whys.len / sizeof(struct why);
    sheets->lines = r.calls;
    sheets->settings = r.settings;
    sheets->astray = sheets->astray || r.others > 0;
    if (good && sent != NULL && r.calls == 0 && !sheets->cut)
        say("%s: there is no line of the shelf in it for the calls of %s", sheets->name, sent->name);
    if (good && r.sent != NULL && r.others > 0)
        say("%s: %u refusal%s that the calls of %s do not explain: other calls were sent", sheets->name, r.others,
            r.others == 1 ? "" : "s", sent->name);
    if (!good)
        sheets_free(sheets);
    return good;
}

bool sheets_read(const char *path, const char *calls_path, unsigned most_told, struct sheets *sheets)
{
    *sheets = (struct sheets){ .name = input_name(path), .most_told = most_told, .sent = { .name = NULL } };
    if (calls_path != NULL && !calls_read(calls_path, &sheets->sent))
        return false;
    sheets->told = bytes_new();
    return read_file(path, calls_path == NULL ? NULL : &sheets->sent, sheets);
}

void sheets_free(struct sheets *sheets)
{
    for (size_t i = 0; i < sheets->count; i++)
        bytes_free(&sheets->list[i].sheet);
    free(sheets->list);
    free(sheets->whys);
    bytes_free(&sheets->told);
    if (sheets->sent.name != NULL)
        calls_free(&sheets->sent);
    sheets->list = NULL;
    sheets->count = 0;
}

void sheets_tell(const struct sheets *sheets)
{
    fwrite(sheets->told.at, 1, sheets->told.len, stderr);
    if (sheets->refusals > sheets->most_told)
        say("%s: %u refusals in all, of which the first %u are told; show tells all", sheets->name, sheets->refusals,
            sheets->most_told);
}

bool sheets_trouble(const struct sheets *sheets)
{
    return sheets->refusals > 0 || sheets->cut;
}

/* ---- one plan of several ---- */

/* Says whose the plans are, where none is the one asked for. */
static void say_whose(const struct sheets *sheets, uint32_t unit, uint32_t tenancy)
{
    enum { MOST_NAMED = 8 };
    static struct contents contents;
    struct bytes whose = bytes_new();
    for (size_t i = 0; i < sheets->count && i < MOST_NAMED; i++) {
        contents_read(&sheets->list[i].sheet, &ANYTHING, &contents, NULL);
        if (contents.refusal != RP_ACCEPTED)
            bytes_addf(&whose, "%sline %u refused %u", i > 0 ? ", " : "", sheets->list[i].line, contents.refusal);
        else
            bytes_addf(&whose, "%sline %u unit %u tenancy %u", i > 0 ? ", " : "", sheets->list[i].line,
                (unsigned)contents.unit, (unsigned)contents.tenancy);
    }
    say("%s: none of its %zu plans is of unit %u and tenancy %u: %s%s", sheets->name, sheets->count, (unsigned)unit,
        (unsigned)tenancy, bytes_text(&whose), sheets->count > MOST_NAMED ? ", .." : "");
    bytes_free(&whose);
}

/* The nth plan of a unit and tenancy, from 1; how many there are. */
static size_t find_plan(const struct sheets *sheets, uint32_t unit, uint32_t tenancy, uint32_t nth,
    const struct found **plan)
{
    size_t count = 0;
    for (size_t i = 0; i < sheets->count; i++)
        if (contents_is_of(&sheets->list[i].sheet, PLAN, unit, tenancy) && ++count == nth)
            *plan = &sheets->list[i];
    return count;
}

const struct found *sheets_plan(const struct sheets *sheets, uint32_t unit, uint32_t tenancy, uint32_t nth)
{
    const struct found *plan = NULL;
    size_t count = find_plan(sheets, unit, tenancy, nth == 0 ? 1 : nth, &plan);
    if (sheets->count == 0)
        say("%s: there is no plan in it", sheets->name);
    else if (count == 0 && sheets->count == 1)
        return &sheets->list[0];    /* the library says what is wrong with it */
    else if (count == 0)
        say_whose(sheets, unit, tenancy);
    else if (nth == 0 && count > 1) {
        say("%s: %zu plans of unit %u and tenancy %u; choose one with --nth 1 to --nth %zu", sheets->name, count,
            (unsigned)unit, (unsigned)tenancy, count);
        return NULL;
    } else if (nth > count)
        say("%s: there is no plan %u: it has %zu of unit %u and tenancy %u", sheets->name, (unsigned)nth, count,
            (unsigned)unit, (unsigned)tenancy);
    return plan;
}
