/* Numbers in sheet form: groups of seven bits, lowest first; a byte of 128 or more says that another follows. */
#ifndef NUMBER_H
#define NUMBER_H

#include <stddef.h>
#include <stdint.h>

#include "bytes.h"

enum form { FORM_GOOD, FORM_ENDS, FORM_BAD };

/* Reads the number that some bytes begin with, of which the first `used` show what it is, or how it is wrong. */
enum form number_read(const uint8_t *bytes, size_t len, uint32_t *value, size_t *used);

/* Adds a number. */
void number_add(struct bytes *out, uint32_t value);

#endif
