#include "number.h"

enum { MOST_BYTES = 5, MOST_IN_LAST = 15 };

enum form number_read(const uint8_t *bytes, size_t len, uint32_t *value, size_t *used)
{
    uint64_t sum = 0;
    for (size_t i = 0; i < len; i++) {
        *used = i + 1;
        if ((i + 1 == MOST_BYTES && bytes[i] > MOST_IN_LAST) || (i > 0 && bytes[i] == 0))
            return FORM_BAD;
        sum |= (uint64_t)(bytes[i] & 127) << 7 * i;
        if (bytes[i] < 128) {
            *value = (uint32_t)sum;
            return FORM_GOOD;
        }
    }
    *used = len;
    return FORM_ENDS;
}

void number_add(struct bytes *out, uint32_t value)
{
    for (; value >= 128; value >>= 7)
        bytes_add(out, &(uint8_t){ (uint8_t)(value | 128) }, 1);
    bytes_add(out, &(uint8_t){ (uint8_t)value }, 1);
}
