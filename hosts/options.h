/* A command's words: places in order, and options. */
#ifndef OPTIONS_H
#define OPTIONS_H

#include <stdbool.h>
#include <stddef.h>
#include <stdint.h>

/* An option with a value, as "-o FILE", or without one, as "--json". */
struct option {
    const char *name;
    const char **value;     /* where it goes; it has to be null before */
    bool *flag;             /* for an option without a value, in its place; it has to be false before */
};

/* Sorts words into places and options; says what is wrong with them, if anything is. The list ends with a null name. */
bool options_read(char **words, const char **places, size_t least, size_t most, const struct option *options);

/* A word that has to be a 32-bit number. */
bool word_number(const char *what, const char *word, uint32_t *value);

/* The same of an age; of one that is too large it says what to give. */
bool word_age(const char *what, const char *word, uint32_t *age);

#endif
