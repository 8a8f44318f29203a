#include "show.h"

#include <stdio.h>

#include "contents.h"
#include "options.h"
#include "output.h"
#include "program.h"
#include "say.h"
#include "sheet.h"

/* Writes what the shelf refused, which is a part of what is asked for; in short it is said as well. */
static bool put_told(const struct sheets *sheets)
{
    const unsigned refused = sheets->refusals - sheets->stopped;
    const bool good = sheets->told.len == 0 || (output_write(NULL, sheets->told.at, sheets->told.len)
        && (sheets->count == 0 || output_write(NULL, "\n", 1)));
    if (refused > 0)
        say("%s: the shelf refused %u call%s", sheets->name, refused, refused == 1 ? "" : "s");
    if (sheets->stopped)
        say("%s: the shelf stopped", sheets->name);
    if (sheets->cut)
        say("%s: the last line is cut", sheets->name);
    return good;
}

/* Shows every sheet of a file. */
static int show_all(const struct sheets *sheets, const struct expected *expected, bool disks_known)
{
    int status = STATUS_DONE;
    char title[64];
    for (size_t i = 0; i < sheets->count; i++) {
        int one;
        snprintf(title, sizeof title, "%ssheet %zu of %zu, line %u", i > 0 ? "\n" : "", i + 1, sheets->count,
            sheets->list[i].line);
        one = contents_show(&sheets->list[i].sheet, expected, disks_known, sheets->count > 1 ? title : NULL);
        status = one != STATUS_DONE ? one : status;
    }
    return status;
}

int show_sheets(char **words)
{
    const char *places[1] = { NULL }, *unit_word = NULL, *tenancy_word = NULL, *disks_word = NULL, *calls = NULL;
    const struct option options[] = {
        { "--unit", &unit_word, NULL }, { "--tenancy", &tenancy_word, NULL }, { "--disks", &disks_word, NULL },
        { "--calls", &calls, NULL }, { NULL, NULL, NULL }
    };
    struct expected expected = ANYTHING;
    struct sheets sheets;
    uint32_t unit, tenancy;
    bool good;
    int status;
    if (!options_read(words, places, 0, 1, options) || (unit_word != NULL && !word_number("--unit", unit_word, &unit))
        || (tenancy_word != NULL && !word_number("--tenancy", tenancy_word, &tenancy))
        || (disks_word != NULL && !word_number("--disks", disks_word, &expected.disks)))
        return program_usage();
    if (expected.disks < 1 || expected.disks > RP_MOST_DISKS) {
        say("--disks has to be 1 to %d", RP_MOST_DISKS);
        return program_usage();
    }
    expected.unit = unit_word == NULL ? NULL : &unit;
    expected.tenancy = tenancy_word == NULL ? NULL : &tenancy;
    if (!sheets_read(places[0], calls, ALL_TOLD, &sheets))
        return STATUS_BAD;
    good = put_told(&sheets);
    if (sheets.count == 0)
        say("%s: there is no sheet in it", sheets.name);
    status = sheets.count == 0 || !good ? STATUS_BAD : show_all(&sheets, &expected, disks_word != NULL);
    if (status == STATUS_DONE && sheets_trouble(&sheets))
        status = STATUS_TOLD;
    sheets_free(&sheets);
    return status;
}
