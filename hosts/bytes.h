/* Bytes that grow: a file that was read, a list to lend, a text to be written. */
#ifndef BYTES_H
#define BYTES_H

#include <stdarg.h>
#include <stddef.h>
#include <stdint.h>

struct bytes {
    uint8_t *at;    /* never null after bytes_new */
    size_t len;
    size_t room;
};

struct bytes bytes_new(void);
void bytes_free(struct bytes *b);

/* Room for so many bytes more; the program ends with status 1 where there is no memory. */
uint8_t *bytes_more(struct bytes *b, size_t len);

void bytes_add(struct bytes *b, const void *data, size_t len);

#if defined(__GNUC__)
__attribute__((format(printf, 2, 3)))
#endif
void bytes_addf(struct bytes *b, const char *form, ...);
void bytes_addv(struct bytes *b, const char *form, va_list values);

/* Ends a text with a null byte that is not counted, and gives it. */
char *bytes_text(struct bytes *b);

/* A number as text: an amount has its thousands parted by commas, a name such as a block's has not. */
struct digits {
    char text[32];
};
struct digits grouped(uint64_t value);
struct digits plain(uint64_t value);

#endif
