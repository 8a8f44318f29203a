#include "bytes.h"

#include <stdarg.h>
#include <stdio.h>
#include <stdlib.h>
#include <string.h>

#include "say.h"

enum { FIRST_ROOM = 256 };

static void *need(void *memory)
{
    if (memory == NULL) {
        say("there is no memory left");
        exit(STATUS_BAD);
    }
    return memory;
}

struct bytes bytes_new(void)
{
    struct bytes b = { need(malloc(FIRST_ROOM)), 0, FIRST_ROOM };
    return b;
}

void bytes_free(struct bytes *b)
{
    free(b->at);
    b->at = NULL;
    b->len = b->room = 0;
}

uint8_t *bytes_more(struct bytes *b, size_t len)
{
    size_t room = b->room;
    if (len > SIZE_MAX / 4 || b->len > SIZE_MAX / 4)
        need(NULL);
    while (room - b->len < len)
        room *= 2;
    if (room > b->room)
        b->at = need(realloc(b->at, room));
    b->room = room;
    return b->at + b->len;
}

void bytes_add(struct bytes *b, const void *data, size_t len)
{
    memcpy(bytes_more(b, len), data, len);
    b->len += len;
}

void bytes_addv(struct bytes *b, const char *form, va_list values)
{
    va_list again;
    int len;
    va_copy(again, values);
    len = vsnprintf(NULL, 0, form, values);
    if (len >= 0) {
        vsnprintf((char *)bytes_more(b, (size_t)len + 1), (size_t)len + 1, form, again);
        b->len += (size_t)len;
    }
    va_end(again);
}

void bytes_addf(struct bytes *b, const char *form, ...)
{
    va_list values;
    va_start(values, form);
    bytes_addv(b, form, values);
    va_end(values);
}

char *bytes_text(struct bytes *b)
{
    *bytes_more(b, 1) = '\0';
    return (char *)b->at;
}

struct digits plain(uint64_t value)
{
    struct digits d;
    snprintf(d.text, sizeof d.text, "%llu", (unsigned long long)value);
    return d;
}

struct digits grouped(uint64_t value)
{
    struct digits bare = plain(value), d;
    size_t len = strlen(bare.text), at = 0;
    for (size_t i = 0; i < len; i++) {
        if (i > 0 && (len - i) % 3 == 0)
            d.text[at++] = ',';
        d.text[at++] = bare.text[i];
    }
    d.text[at] = '\0';
    return d;
}
