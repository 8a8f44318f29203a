#include "say.h"

#include <stdarg.h>
#include <stdio.h>
#include <string.h>

#include "rippleplank.h"

static const char *name = "?";

void say_as(const char *program)
{
    name = program;
}

void say(const char *form, ...)
{
    va_list values;
    fprintf(stderr, "%s: ", name);
    va_start(values, form);
    vfprintf(stderr, form, values);
    va_end(values);
    fputc('\n', stderr);
}

void say_refused(unsigned refusal, const char *where, const char *what_to_do)
{
    fprintf(stderr, "refused %u: %s\n", refusal, rp_refusal_words(refusal));
    while (where != NULL && *where != '\0') {
        size_t len = strcspn(where, "\n");
        fprintf(stderr, "  %.*s\n", (int)len, where);
        where += len + (where[len] == '\n');
    }
    fprintf(stderr, "  what to do: %s\n", what_to_do);
}

void say_refused_at(unsigned refusal, size_t place, const char *what, const char *name, const char *what_to_do)
{
    fprintf(stderr, "refused %u at byte %zu: %s\n  %s%s%s\n  what to do: %s\n", refusal, place, what,
        name == NULL ? "" : name, name == NULL ? "" : ": ", rp_refusal_words(refusal), what_to_do);
}
