#define _XOPEN_SOURCE 700

#include "program.h"

#include <errno.h>
#include <fcntl.h>
#include <stdbool.h>
#include <stdio.h>
#include <string.h>
#include <unistd.h>

#include "input.h"
#include "rippleplank.h"
#include "say.h"

static const struct program *running;

/* A standard stream that is closed must not become a file of ours: it is opened the way that nobody can use. */
static void keep_standard_streams(void)
{
    for (int handle = 0; handle <= 2; handle++)
        if (fcntl(handle, F_GETFD) == -1 && errno == EBADF)
            (void)!open("/dev/null", handle == 0 ? O_WRONLY : O_RDONLY);
}

/* Whether a word stands before any -- that ends the options. */
static bool asks(int count, char **words, const char *word)
{
    for (int i = 1; i < count && strcmp(words[i], "--") != 0; i++)
        if (strcmp(words[i], word) == 0)
            return true;
    return false;
}

/* Shows a text and what follows it in parts. */
static int show(const char *first, const char *const *parts)
{
    fputs(first, stdout);
    for (; *parts != NULL; parts++)
        fputs(*parts, stdout);
    if (fflush(stdout) == 0 && !ferror(stdout))
        return STATUS_DONE;
    say("standard output: %s", strerror(errno));
    return STATUS_BAD;
}

static int show_version(const struct program *program)
{
    const char *const nothing = NULL;
    char text[128];
    snprintf(text, sizeof text, "%s of Rippleplank %s, library %s\n", program->name, RP_VERSION, rp_version());
    return show(text, &nothing);
}

int program_usage(void)
{
    fputs(running->usage, stderr);
    return STATUS_USAGE;
}

int program_main(const struct program *program, int count, char **words)
{
    running = program;
    say_as(program->name);
    keep_standard_streams();
    if (asks(count, words, "--help") || asks(count, words, "-h"))
        return show(program->usage, program->help);
    if (asks(count, words, "--version"))
        return show_version(program);
    if (count < 2)
        return program_usage();
    if (program->commands == NULL)
        return program->run(words + 1);
    for (const struct command *command = program->commands; command->name != NULL; command++)
        if (strcmp(words[1], command->name) == 0)
            return command->run(words + 2);
    say("there is no command \"%s\"", shown(span_of(words[1])).text);
    return program_usage();
}
