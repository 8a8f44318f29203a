/* What to do about a refusal: one line for each number in remedy.c. */
#ifndef REMEDY_H
#define REMEDY_H

#include <stdbool.h>

#include "contents.h"

/* Of a sheet of a sort that this program read; NO_SORT where it is none. */
const char *remedy_here(unsigned refusal, enum sort sort);

/* Of a call that the shelf refused; `rented` where its lines show that the unit was rented then. */
const char *remedy_at_shelf(unsigned refusal, bool rented);

/* Of a sheet whose kind an older shelf does not know; null where every shelf knows it. */
const char *remedy_at_older(uint32_t kind);

/* Why the shelf stopped: its stream of calls is damaged. */
const char *why_stopped(unsigned number);

#endif
