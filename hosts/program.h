/* A program's words: its name, its commands, help and version. */
#ifndef PROGRAM_H
#define PROGRAM_H

struct command {
    const char *name;
    int (*run)(char **words);   /* the words after the name; gives the status */
};

struct program {
    const char *name;
    const char *usage;
    const char *const *help;            /* in parts, of which the last is null: no compiler need take a longer text */
    const struct command *commands;     /* ends with a null name; null for a program without commands */
    int (*run)(char **words);           /* of a program without commands */
};

int program_main(const struct program *program, int count, char **words);

/* Shows how the program is called, on standard error; gives the status for it. */
int program_usage(void);

#endif
