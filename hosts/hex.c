#include "hex.h"

#include <string.h>

static int digit(char c)
{
    if (c >= '0' && c <= '9')
        return c - '0';
    if (c >= 'a' && c <= 'f')
        return c - 'a' + 10;
    if (c >= 'A' && c <= 'F')
        return c - 'A' + 10;
    return -1;
}

bool hex_read(struct span text, struct bytes *into)
{
    size_t i = 0;
    while (i < text.len) {
        int high = digit(text.at[i]);
        int low = i + 1 < text.len ? digit(text.at[i + 1]) : -1;
        if (text.at[i] == ' ' || text.at[i] == '\t') {
            i++;
            continue;
        }
        if (high < 0 || low < 0)
            return false;
        bytes_add(into, &(uint8_t){ (uint8_t)(high * 16 + low) }, 1);
        i += 2;
    }
    return true;
}

/* ---- dumps ---- */

enum { LEAST_DIGITS = 7, MOST_DIGITS = 16, LONGEST = 1 << 20 };

/* The first word of a line, which is its place; the line then goes on behind it. */
static struct span take_place(struct span *line)
{
    struct span place = { line->at, 0 };
    while (place.len < line->len && digit(place.at[place.len]) >= 0)
        place.len++;
    line->at += place.len;
    line->len -= place.len;
    return place;
}

/* The next line of a dump; empty lines and comments are passed over. */
static bool next_line(struct lines *lines, struct span *line)
{
    while (lines_next(lines, line))
        if (trimmed(*line).len > 0 && trimmed(*line).at[0] != '#')
            return true;
    return false;
}

bool dump_is(const struct bytes *text)
{
    struct lines lines = lines_of(text);
    struct span line, place;
    if (!next_line(&lines, &line))
        return false;
    place = take_place(&line);
    for (size_t i = 0; i < place.len; i++)
        if (place.at[i] != '0')
            return false;
    return place.len >= LEAST_DIGITS && place.len <= MOST_DIGITS
        && (line.len == 0 || line.at[0] == ':' || line.at[0] == ' ' || line.at[0] == '\t');
}

/* A dump's places are in hex or, as od has them, in octal: all of them in the one or in the other. */
enum { OCTAL = 8, HEX = 16 };

/* Whether a place is a number. */
static bool is_place(struct span place, unsigned base, size_t value)
{
    size_t sum = 0;
    for (size_t i = 0; i < place.len && sum <= LONGEST; i++) {
        if ((unsigned)digit(place.at[i]) >= base)
            return false;
        sum = sum * base + (size_t)digit(place.at[i]);
    }
    return sum == value;
}

/* What a dump's line has to the right of its bytes is their letters: xxd parts them by two blanks, hexdump by a bar. */
static struct span without_letters(struct span line)
{
    bool xxd = line.len > 0 && line.at[0] == ':';
    size_t len = 0;
    if (xxd)
        line = trimmed((struct span){ line.at + 1, line.len - 1 });
    while (len < line.len && line.at[len] != '|' && !(xxd && line.at[len] == ' ' && len + 1 < line.len
        && line.at[len + 1] == ' '))
        len++;
    return trimmed((struct span){ line.at, len });
}

/* Adds one line's bytes: words of one byte, or as xxd has them of several, or as hexdump has them of two, low first. */
static bool add_words(struct span words, bool xxd, struct bytes *into)
{
    struct span word;
    while (span_next(&words, " \t", &word)) {
        size_t before = into->len;
        if (!hex_read(word, into))
            return false;
        if (!xxd && into->len - before == 2) {
            uint8_t first = into->at[before];
            into->at[before] = into->at[before + 1];
            into->at[before + 1] = first;
        } else if (!xxd && into->len - before > 1) {
            return false;
        }
    }
    return true;
}

/* A star stands for lines like the one before it, to the place of the next. */
static bool repeat(struct bytes *into, size_t line_length, struct span place, unsigned base)
{
    while (line_length > 0 && into->len < LONGEST && !is_place(place, base, into->len)) {
        bytes_more(into, line_length);
        bytes_add(into, into->at + into->len - line_length, line_length);
    }
    return is_place(place, base, into->len);
}

/* Reads a dump whose places are of one base; the line that is wrong, or 0. */
static unsigned read_places(const struct bytes *text, unsigned base, struct bytes *into)
{
    struct lines lines = lines_of(text);
    size_t line_length = 0;
    bool star = false;
    struct span line, place;
    while (next_line(&lines, &line)) {
        bool xxd;
        size_t before;
        if (span_is(trimmed(line), "*")) {
            star = true;
            continue;
        }
        place = take_place(&line);
        xxd = line.len > 0 && line.at[0] == ':';
        if (place.len < LEAST_DIGITS || place.len > MOST_DIGITS || (star && !repeat(into, line_length, place, base)))
            return lines.number;
        star = false;
        /* hexdump fills the last word of an odd length; the last place has the length */
        if (trimmed(line).len == 0 && into->len > 0 && !is_place(place, base, into->len)
            && is_place(place, base, into->len - 1))
            into->len--;
        before = into->len;
        if (!is_place(place, base, before) || !add_words(without_letters(line), xxd, into))
            return lines.number;
        line_length = into->len - before;
    }
    return 0;
}

unsigned dump_read(const struct bytes *text, struct bytes *into)
{
    struct bytes octal = bytes_new();
    size_t before = into->len;
    unsigned wrong = read_places(text, HEX, into), wrong_octal = read_places(text, OCTAL, &octal);
    if (wrong_octal == 0 && wrong > 0) {
        into->len = before;
        bytes_add(into, octal.at, octal.len);
        wrong = 0;
    } else if (wrong_octal > wrong && wrong > 0) {
        wrong = wrong_octal;
    }
    bytes_free(&octal);
    return wrong;
}
