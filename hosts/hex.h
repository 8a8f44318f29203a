/* Bytes as hex digits, two a byte, and as the dumps that xxd, hexdump and od print. */
#ifndef HEX_H
#define HEX_H

#include <stdbool.h>

#include "bytes.h"
#include "input.h"

/* Adds the bytes that a text of hex digits stands for; blanks may part the bytes. */
bool hex_read(struct span text, struct bytes *into);

/* Whether a text is a dump: its first line begins with the place 0 in seven digits or more. */
bool dump_is(const struct bytes *text);

/* Adds the bytes of a dump; where it is none after all, gives the number of the line that is wrong, else 0. */
unsigned dump_read(const struct bytes *text, struct bytes *into);

#endif
