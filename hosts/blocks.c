#include "blocks.h"

#include <stdio.h>
#include <stdlib.h>
#include <string.h>

#include "contents.h"
#include "faults.h"
#include "input.h"
#include "remedy.h"
#include "say.h"

static const char SEPARATORS[] = " \t,;|/";

/* A list as it is read. */
struct reading {
    const char *name;
    struct bytes list;      /* struct block */
    struct faults faults;
    struct gaps gaps;
    bool numbered;          /* whether every block so far has its number before it */
    unsigned taken_out;     /* the line of the first block in a comment, 0 for none */
    unsigned commented;     /* the same, where a block follows */
};

/* Adds one disk to a block's copies. */
static void add_disk(struct reading *r, unsigned line, struct span word, uint64_t *copies)
{
    uint32_t disk;
    if (!number_of(word, &disk))
        faults_add(&r->faults, "%s:%u: \"%s\" is not a disk number", r->name, line, shown(word).text);
    else if (disk >= RP_MOST_DISKS)
        faults_add(&r->faults, "%s:%u: disk %u, and no unit has a disk above %d", r->name, line, (unsigned)disk,
            RP_MOST_DISKS - 1);
    else if (*copies >> disk & 1)
        faults_add(&r->faults, "%s:%u: disk %u is named twice", r->name, line, (unsigned)disk);
    else
        *copies |= (uint64_t)1 << disk;
}

/* Takes a block's number and colon off a line, where they are there, and checks them. */
static void take_number(struct reading *r, unsigned line, struct span *code)
{
    size_t due = r->list.len / sizeof(struct block);
    struct span rest = *code, name;
    uint32_t number;
    span_next(&rest, ":", &name);
    if (rest.at == NULL) {
        r->numbered = false;
        return;
    }
    *code = trimmed(rest);
    name = trimmed(name);
    if (name.len > 5 && span_is_any_case((struct span){ name.at, 5 }, "block"))
        name = trimmed((struct span){ name.at + 5, name.len - 5 });
    if (!number_of(name, &number))
        faults_add(&r->faults, "%s:%u: \"%s\" before the colon is not a block number", r->name, line,
            shown(name).text);
    else if (number != due)
        faults_add(&r->faults, "%s:%u: block %u stands where block %zu is due; give every block a line, in order",
            r->name, line, (unsigned)number, due);
}

static void read_block(struct reading *r, unsigned line, struct span code)
{
    struct block block = { 0, line };
    struct span word;
    unsigned words = 0;
    take_number(r, line, &code);
    if (!span_is(code, "-")) {
        while (span_next(&code, SEPARATORS, &word)) {
            if (word.len > 0)
                add_disk(r, line, word, &block.copies);
            words += word.len > 0;
        }
        if (words == 0)
            faults_add(&r->faults, "%s:%u: no disk is named; write - for a block that no disk holds", r->name, line);
    }
    bytes_add(&r->list, &block, sizeof block);
}

/* Whether a comment is a block that was taken out: disk numbers and nothing else. */
static bool is_block_in_comment(struct span line)
{
    struct span rest, word;
    uint32_t disk;
    unsigned words = 0;
    line = trimmed(line);
    if (line.len == 0 || line.at[0] != '#')
        return false;
    while (line.len > 0 && line.at[0] == '#')
        line = trimmed((struct span){ line.at + 1, line.len - 1 });
    line = rest = code_of(line);
    if (span_next(&rest, ":", &word) && rest.at != NULL && number_of(trimmed(word), &disk))
        line = rest;
    while (span_next(&line, SEPARATORS, &word)) {
        if (word.len > 0 && (!number_of(word, &disk) || disk >= RP_MOST_DISKS))
            return false;
        words += word.len > 0;
    }
    return words > 0;
}

static void read_all(struct reading *r, const struct bytes *text)
{
    struct lines lines = lines_of(text);
    struct span line;
    while (lines_next(&lines, &line)) {
        struct span code = code_of(line);
        gaps_take(&r->gaps, lines.number, line, code);
        if (r->taken_out == 0 && is_block_in_comment(line))
            r->taken_out = lines.number;
        if (code.len > 0) {
            read_block(r, lines.number, code);
            r->commented = r->taken_out;
        }
    }
    gaps_end(&r->gaps, lines.number + 1);
}

/* What was passed over in silence, where the numbers of the blocks rest on it. */
static void tell_passed_over(const struct reading *r)
{
    if (r->numbered)
        return;
    if (r->commented > 0)
        say("%s:%u: a block in a comment is no block: the blocks below it have moved up; a number and a colon before "
            "each line's disks would keep the numbers", r->name, r->commented);
    if (r->gaps.count > 0 && r->list.len > 0)
        say("%s:%u: an empty line is no block (%u such); write - for a block that no disk holds", r->name,
            r->gaps.first, r->gaps.count);
}

static bool read_text(const struct bytes *text, const char *name, struct blocks *blocks)
{
    struct reading r = { .name = name, .list = bytes_new(), .faults = faults_new(), .numbered = true };
    bool good;
    read_all(&r, text);
    good = r.faults.count == 0;
    if (good) {
        tell_passed_over(&r);
        *blocks = (struct blocks){ name, (struct block *)(void *)r.list.at, r.list.len / sizeof(struct block), 0, 0 };
    } else {
        faults_say(&r.faults);
        bytes_free(&r.list);
    }
    faults_free(&r.faults);
    return good;
}

bool blocks_read(const char *path, const struct expected *expected, struct blocks *blocks)
{
    struct bytes text = bytes_new();
    const char *name = input_name(path);
    bool good = input_read(path, &text);
    if (good && contents_begin(&text)) {
        good = contents_blocks(&text, name, *expected, blocks);
    } else if (good) {
        text_plain(&text);
        good = read_text(&text, name, blocks);
    }
    bytes_free(&text);
    return good;
}

void blocks_free(struct blocks *blocks)
{
    free(blocks->list);
    blocks->list = NULL;
    blocks->count = 0;
}

void add_disks(struct bytes *text, uint64_t copies)
{
    for (unsigned disk = 0; disk < RP_MOST_DISKS; disk++)
        if (copies >> disk & 1)
            bytes_addf(text, " %u", disk);
}

static unsigned ones(uint64_t copies)
{
    unsigned count = 0;
    for (; copies != 0; copies &= copies - 1)
        count++;
    return count;
}

static unsigned highest(uint64_t copies)
{
    unsigned disk = 0;
    while (copies >>= 1)
        disk++;
    return disk;
}

/* The line of a block behind the name of its file; nothing where it comes from a sheet. */
static struct digits line_of(const struct block *block)
{
    struct digits line = { "" };
    if (block->line > 0)
        snprintf(line.text, sizeof line.text, ":%u", block->line);
    return line;
}

/* What is wrong with one block, if anything is. */
static void add_block_fault(struct faults *faults, const struct blocks *blocks, size_t i, uint32_t disks)
{
    const struct block *block = &blocks->list[i];
    if (block->copies == 0)
        faults_add(faults, "%s%s: block %zu: no disk holds it", blocks->name, line_of(block).text, i);
    else if (ones(block->copies) > RP_MOST_COPIES)
        faults_add(faults, "%s%s: block %zu: %u copies, and a block has at most %d", blocks->name,
            line_of(block).text, i, ones(block->copies), RP_MOST_COPIES);
    else if (highest(block->copies) >= disks)
        faults_add(faults, "%s%s: block %zu: disk %u, and of %u disk%s the last is %u", blocks->name,
            line_of(block).text, i, highest(block->copies), (unsigned)disks, disks == 1 ? "" : "s",
            (unsigned)disks - 1);
}

/* Says why a list was refused, with everything that is wrong: a writer tells no place, the lines do. */
static void say_fault(const struct blocks *blocks, uint32_t tenancy, uint32_t disks, uint64_t answer)
{
    struct faults faults = faults_new();
    const char *cure = "correct the list and run this again";
    if (tenancy == 0) {
        faults_add(&faults, "TENANCY is 0, and no tenancy is");
        cure = "give the number of the hire";
    } else if (disks < 1 || disks > RP_MOST_DISKS) {
        faults_add(&faults, "DISKS is %u, and a unit has 1 to %d", (unsigned)disks, RP_MOST_DISKS);
        cure = "give the number of disks in the unit's table";
    } else if (blocks->count > RP_MOST_BLOCKS) {
        faults_add(&faults, "%s: %s blocks, and a request has at most %s", blocks->name,
            grouped(blocks->count).text, grouped(RP_MOST_BLOCKS).text);
    } else if (rp_refusal(answer) == RP_NO_ROOM) {
        faults_add(&faults, "%s: the sheet needs %s bytes, the buffer has %s", blocks->name,
            grouped(rp_place(answer)).text, grouped(RP_LONGEST_REQUEST).text);
        cure = remedy_here(RP_NO_ROOM, REQUEST);
    } else {
        if (rp_refusal(answer) == RP_NO_COPY)
            cure = remedy_here(RP_NO_COPY, REQUEST);
        for (size_t i = 0; i < blocks->count; i++)
            add_block_fault(&faults, blocks, i, disks);
    }
    say_refused(rp_refusal(answer), faults_text(&faults), cure);
    faults_free(&faults);
}

uint32_t blocks_sheet(const struct blocks *blocks, uint32_t unit, uint32_t tenancy, uint32_t disks,
    uint8_t sheet[RP_LONGEST_REQUEST])
{
    struct bytes copies = bytes_new();
    uint8_t *list = bytes_more(&copies, 8 * blocks->count);
    uint64_t answer;
    for (size_t i = 0; i < blocks->count; i++)
        rp_put64(list, i, blocks->list[i].copies);
    answer = rp_write_request(blocks->kind == 0 ? RP_REQUEST : blocks->kind, unit, tenancy, blocks->age, disks, list,
        8 * blocks->count, sheet, RP_LONGEST_REQUEST);
    bytes_free(&copies);
    if (rp_refusal(answer) != RP_ACCEPTED) {
        say_fault(blocks, tenancy, disks, answer);
        return 0;
    }
    return rp_length(answer);
}

bool blocks_in_use(const struct blocks *blocks, uint64_t out)
{
    struct faults faults = faults_new();
    struct bytes disks = bytes_new();
    const char *text;
    for (size_t i = 0; i < blocks->count; i++) {
        const struct block *block = &blocks->list[i];
        if (block->copies & ~out)
            continue;
        disks.len = 0;
        add_disks(&disks, block->copies);
        faults_add(&faults, "%s%s: block %zu: its disk%s out:%s", blocks->name, line_of(block).text, i,
            ones(block->copies) == 1 ? " is" : "s are", bytes_text(&disks));
    }
    text = faults_text(&faults);
    if (text != NULL)
        say_refused(RP_ALL_OUT, text, remedy_here(RP_ALL_OUT, NO_SORT));
    faults_free(&faults);
    bytes_free(&disks);
    return text == NULL;
}
