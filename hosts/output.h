/* Writing: a file comes out whole or not at all, and never over an input. */
#ifndef OUTPUT_H
#define OUTPUT_H

#include <stdbool.h>
#include <stddef.h>

/* Writes text to a file, or to standard output for null and "-"; or says why not. */
bool output_write(const char *path, const void *data, size_t len);

/* The same for the bytes of sheets and calls, which no terminal gets. */
bool output_bytes(const char *path, const void *data, size_t len);

/* Whether a file is also where standard output goes: two outputs would mix there. */
bool output_is_standard(const char *path);

/* How wide a line of text may be: as the terminal is, or else as COLUMNS says. */
unsigned output_width(void);

#endif
