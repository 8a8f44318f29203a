/* What a program says on standard error, and how it ends. */
#ifndef SAY_H
#define SAY_H

#include <stddef.h>

enum {
    STATUS_DONE = 0,
    STATUS_BAD = 1,     /* refused, or an input or output that can not be used */
    STATUS_USAGE = 2,   /* called wrongly */
    STATUS_TOLD = 3     /* what was asked for is shown, and the shelf's lines tell of trouble beside it */
};

/* The program's name, to stand before its messages. */
void say_as(const char *program);

/* One line: the program's name and a message. */
#if defined(__GNUC__)
__attribute__((format(printf, 1, 2)))
#endif
void say(const char *form, ...);

/* A refusal in words with its number, what it was met at (lines, or null), and what to do. */
void say_refused(unsigned refusal, const char *where, const char *what_to_do);

/*
 * A refusal of a sheet: its number, its place and what stands there; the refusal in words, behind the name of the sheet
 * (or null); and what to do.
 */
void say_refused_at(unsigned refusal, size_t place, const char *what, const char *name, const char *what_to_do);

#endif
