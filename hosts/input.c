#define _XOPEN_SOURCE 700

#include "input.h"

#include <errno.h>
#include <stdio.h>
#include <stdlib.h>
#include <string.h>
#include <strings.h>
#include <sys/stat.h>
#include <unistd.h>

#include "say.h"

enum { PIECE = 65536, MOST = 16 << 20 };

/* The regular files that were read, so that none of them is written; `stream` reads as many as it is given. */
static struct file {
    dev_t device;
    ino_t number;
} *files;
static size_t file_count;

static bool is_standard(const char *path)
{
    return path == NULL || strcmp(path, "-") == 0;
}

const char *input_name(const char *path)
{
    return is_standard(path) ? "standard input" : path;
}

bool input_was(dev_t device, ino_t number)
{
    for (size_t i = 0; i < file_count; i++)
        if (files[i].device == device && files[i].number == number)
            return true;
    return false;
}

/* All that a stream still has; the reason why not, or null. */
static const char *read_all(FILE *file, struct bytes *into)
{
    size_t before = into->len;
    for (;;) {
        size_t got = fread(bytes_more(into, PIECE), 1, PIECE, file);
        into->len += got;
        if (into->len - before > MOST)
            return "longer than 16 MiB, which no input of this program is";
        if (got == 0)
            return ferror(file) ? strerror(errno) : NULL;
    }
}

/* Adds a file to those that were read. */
static bool keep(dev_t device, ino_t number)
{
    struct file *more = realloc(files, (file_count + 1) * sizeof *files);
    if (more == NULL)
        return false;
    files = more;
    files[file_count++] = (struct file){ device, number };
    return true;
}

/* Keeps a file in mind; the reason why it can not be read, or null. */
static const char *meet(int handle)
{
    struct stat there, out;
    if (fstat(handle, &there) != 0 || !S_ISREG(there.st_mode))
        return NULL;
    if (fstat(STDOUT_FILENO, &out) == 0 && out.st_dev == there.st_dev && out.st_ino == there.st_ino)
        return "standard output goes to this same file; send it to another";
    return keep(there.st_dev, there.st_ino) ? NULL : "there is no memory left";
}

bool input_read(const char *path, struct bytes *into)
{
    static bool standard_read;
    const char *reason;
    FILE *file = is_standard(path) ? stdin : fopen(path, "rb");
    if (file == NULL) {
        say("%s: %s", path, strerror(errno));
        return false;
    }
    if (file == stdin && standard_read) {
        say("standard input can be read only once; give a file for the other");
        return false;
    }
    standard_read = standard_read || file == stdin;
    if (file == stdin && isatty(STDIN_FILENO))
        say("reading what you type; end with Ctrl-D on a line of its own");
    reason = meet(fileno(file));
    if (reason == NULL)
        reason = read_all(file, into);
    if (reason != NULL)
        say("%s: %s", input_name(path), reason);
    if (file != stdin)
        fclose(file);
    return reason == NULL;
}

/* One letter in UTF-8; what is beyond 16 bits comes as two letters, each of which will do in a message. */
static void add_letter(struct bytes *text, unsigned letter)
{
    uint8_t bytes[3] = { (uint8_t)letter, 0, 0 };
    size_t len = letter < 0x80 ? 1 : letter < 0x800 ? 2 : 3;
    if (len == 2)
        bytes[0] = (uint8_t)(0xC0 | letter >> 6);
    if (len == 3)
        bytes[0] = (uint8_t)(0xE0 | letter >> 12);
    if (len == 3)
        bytes[1] = (uint8_t)(0x80 | (letter >> 6 & 0x3F));
    if (len > 1)
        bytes[len - 1] = (uint8_t)(0x80 | (letter & 0x3F));
    bytes_add(text, bytes, len);
}

void text_plain(struct bytes *text)
{
    bool low_first = text->len >= 2 && memcmp(text->at, "\xFF\xFE", 2) == 0;
    bool high_first = text->len >= 2 && memcmp(text->at, "\xFE\xFF", 2) == 0;
    if (low_first || high_first) {
        struct bytes narrow = bytes_new();
        for (size_t i = 2; i + 1 < text->len; i += 2)
            add_letter(&narrow, text->at[i + low_first] * 256u + text->at[i + high_first]);
        bytes_free(text);
        *text = narrow;
    } else if (text->len >= 3 && memcmp(text->at, "\xEF\xBB\xBF", 3) == 0) {
        text->len -= 3;
        memmove(text->at, text->at + 3, text->len);
    }
}

struct span span_of(const char *text)
{
    return (struct span){ text, strlen(text) };
}

bool number_of(struct span text, uint32_t *value)
{
    uint64_t sum = 0;
    for (size_t i = 0; i < text.len; i++) {
        if (text.at[i] < '0' || text.at[i] > '9')
            return false;
        sum = sum * 10 + (uint64_t)(text.at[i] - '0');
        if (sum > UINT32_MAX)
            return false;
    }
    if (text.len == 0)
        return false;
    *value = (uint32_t)sum;
    return true;
}

static bool is_blank(char c)
{
    return c == ' ' || c == '\t' || c == '\r';
}

struct span trimmed(struct span s)
{
    while (s.len > 0 && is_blank(s.at[0])) {
        s.at++;
        s.len--;
    }
    while (s.len > 0 && is_blank(s.at[s.len - 1]))
        s.len--;
    return s;
}

bool span_is(struct span s, const char *word)
{
    return s.len == strlen(word) && memcmp(s.at, word, s.len) == 0;
}

bool span_is_any_case(struct span s, const char *word)
{
    return s.len == strlen(word) && strncasecmp(s.at, word, s.len) == 0;
}

bool span_next(struct span *rest, const char *separators, struct span *part)
{
    size_t len = 0;
    if (rest->at == NULL)
        return false;
    while (len < rest->len && (rest->at[len] == '\0' || strchr(separators, rest->at[len]) == NULL))
        len++;
    part->at = rest->at;
    part->len = len;
    rest->at = len < rest->len ? rest->at + len + 1 : NULL;
    rest->len = len < rest->len ? rest->len - len - 1 : 0;
    return true;
}

struct shown shown(struct span s)
{
    struct shown text;
    size_t len = 0;
    for (; len < s.len && len < 24; len++)
        text.text[len] = s.at[len] >= ' ' && s.at[len] <= '~' ? s.at[len] : '?';
    strcpy(text.text + len, len < s.len ? "..." : "");
    return text;
}

struct lines lines_of(const struct bytes *text)
{
    return (struct lines){ { (const char *)text->at, text->len }, 0 };
}

bool lines_next(struct lines *lines, struct span *line)
{
    struct span *rest = &lines->rest;
    if (rest->at == NULL || rest->len == 0 || !span_next(rest, "\r\n", line))
        return false;
    if (rest->at != NULL && rest->at[-1] == '\r' && rest->len > 0 && rest->at[0] == '\n') {
        rest->at++;
        rest->len--;
    }
    lines->number++;
    return true;
}

struct span code_of(struct span line)
{
    struct span code;
    span_next(&line, "#", &code);
    return trimmed(code);
}

void gaps_take(struct gaps *gaps, unsigned line, struct span whole, struct span code)
{
    if (trimmed(whole).len == 0) {
        gaps->open++;
        return;
    }
    if (code.len > 0)
        gaps_end(gaps, line);
    gaps->open = 0;
    gaps->commented = code.len == 0;
}

void gaps_end(struct gaps *gaps, unsigned line)
{
    if (gaps->open == 0 || gaps->commented)
        return;
    if (gaps->first == 0)
        gaps->first = line - gaps->open;
    gaps->count += gaps->open;
}
