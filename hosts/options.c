#include "options.h"

#include <string.h>

#include "input.h"
#include "say.h"

static bool says_no_number(const char *what, const char *word, const char *more)
{
    say("%s has to be a whole number of 0 to 4,294,967,295, not \"%s\"%s", what, shown(span_of(word)).text, more);
    return false;
}

bool word_number(const char *what, const char *word, uint32_t *value)
{
    return number_of(span_of(word), value) || says_no_number(what, word, "");
}

bool word_age(const char *what, const char *word, uint32_t *age)
{
    const size_t digits = strspn(word, "0123456789");
    const bool too_large = digits > 0 && word[digits] == '\0';
    return number_of(span_of(word), age) || says_no_number(what, word, too_large ? "; an age of 100,000,000 (100 seconds) "
        "or more leaves nothing of any load: give that for anything older" : "");
}

/* The option of a word: its name or, where it has a value, its name and = and the value. */
static const struct option *find(const char *word, const struct option *options, const char **joined)
{
    for (; options->name != NULL; options++) {
        size_t len = strlen(options->name);
        *joined = NULL;
        if (strcmp(word, options->name) == 0)
            return options;
        if (len > 2 && options->value != NULL && strncmp(word, options->name, len) == 0 && word[len] == '=') {
            *joined = word + len + 1;
            return options;
        }
    }
    return NULL;
}

static bool says_twice(const char *name)
{
    say("%s is given twice", name);
    return false;
}

/* Takes the option at (*words)[0], and its value if it has one; words then stands at its last word. */
static bool take(char ***words, const struct option *options)
{
    const char *value, *word = (*words)[0];
    const struct option *option = find(word, options, &value);
    if (option == NULL) {
        say("there is no option %s here", shown(span_of(word)).text);
        return false;
    }
    if (option->flag != NULL) {
        if (*option->flag)
            return says_twice(option->name);
        return *option->flag = true;
    }
    if (value == NULL && (*words)[1] != NULL)
        value = *++*words;
    if (value == NULL) {
        say("%s needs a value", option->name);
        return false;
    }
    if (*option->value != NULL)
        return says_twice(option->name);
    *option->value = value;
    return true;
}

bool options_read(char **words, const char **places, size_t least, size_t most, const struct option *options)
{
    size_t count = 0;
    bool plain = false;
    for (; *words != NULL; words++) {
        if (!plain && strcmp(*words, "--") == 0) {
            plain = true;
        } else if (!plain && (*words)[0] == '-' && (*words)[1] != '\0') {
            if (!take(&words, options))
                return false;
        } else if (count == most) {
            say("\"%s\" is one word too many", shown(span_of(*words)).text);
            return false;
        } else {
            places[count++] = *words;
        }
    }
    if (count < least)
        say("%zu more word%s due", least - count, least - count == 1 ? " is" : "s are");
    return count >= least;
}
