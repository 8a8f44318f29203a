/* Reading: whole files, lines with comments, and numbers. */
#ifndef INPUT_H
#define INPUT_H

#include <stdbool.h>
#include <stddef.h>
#include <stdint.h>
#include <sys/types.h>

#include "bytes.h"

/* The name to show for a file; null and "-" stand for standard input. */
const char *input_name(const char *path);

/* Adds all of a file to `into`, or says why not. */
bool input_read(const char *path, struct bytes *into);

/* Whether a file was read by this program. */
bool input_was(dev_t device, ino_t number);

/* Makes bytes that are text plain: a byte order mark is taken off, UTF-16 becomes UTF-8. */
void text_plain(struct bytes *text);

/* A part of a text. */
struct span {
    const char *at;
    size_t len;
};
struct span span_of(const char *text);

/* A whole number of 0 to 4,294,967,295 in decimal digits and nothing else. */
bool number_of(struct span text, uint32_t *value);

/* The part without blanks at either end. */
struct span trimmed(struct span s);

/* Whether a part is a word, and whether it is so in small or capital letters. */
bool span_is(struct span s, const char *word);
bool span_is_any_case(struct span s, const char *word);

/* The part up to the first of some separators; `rest` goes beyond it. False where nothing is left. */
bool span_next(struct span *rest, const char *separators, struct span *part);

/* The start of a part as it can be shown in a message. */
struct shown {
    char text[32];
};
struct shown shown(struct span s);

/* The lines of a text, which end in any of LF, CR LF, CR. */
struct lines {
    struct span rest;
    unsigned number;    /* of the line last given, from 1 */
};
struct lines lines_of(const struct bytes *text);
bool lines_next(struct lines *lines, struct span *line);

/* A line without its comment, which begins with #, and without blanks at the ends. */
struct span code_of(struct span line);

/* Empty lines that stand among others with no comment beside them: someone may have meant something by them. */
struct gaps {
    unsigned first;     /* the line of the first, 0 for none */
    unsigned count;
    unsigned open;      /* how many are open: whether they count is seen at the next line */
    bool commented;     /* whether a comment stands before them */
};

/* Takes a line's code; `line` is its number and `whole` the line as it is. */
void gaps_take(struct gaps *gaps, unsigned line, struct span whole, struct span code);
/* Takes the end of the text. */
void gaps_end(struct gaps *gaps, unsigned line);

#endif
