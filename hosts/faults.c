#include "faults.h"

#include <stdarg.h>
#include <stdio.h>
#include <string.h>

#include "say.h"

enum { MOST_TOLD = 20 };

struct faults faults_new(void)
{
    return (struct faults){ bytes_new(), 0 };
}

void faults_free(struct faults *faults)
{
    bytes_free(&faults->text);
}

void faults_add(struct faults *faults, const char *form, ...)
{
    va_list values;
    if (faults->count++ >= MOST_TOLD)
        return;
    va_start(values, form);
    bytes_addv(&faults->text, form, values);
    va_end(values);
    bytes_add(&faults->text, "\n", 1);
}

const char *faults_text(struct faults *faults)
{
    if (faults->count == 0)
        return NULL;
    if (faults->count > MOST_TOLD) {
        bytes_addf(&faults->text, "and %u more\n", faults->count - MOST_TOLD);
        faults->count = MOST_TOLD;
    }
    return bytes_text(&faults->text);
}

void faults_say(struct faults *faults)
{
    const char *text = faults_text(faults);
    while (text != NULL && *text != '\0') {
        size_t len = strcspn(text, "\n");
        say("%.*s", (int)len, text);
        text += len + 1;
    }
}
