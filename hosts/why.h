/* The reasons of a request in words, as a table, in JSON, and those of one block as a picture. */
#ifndef WHY_H
#define WHY_H

#include <stdbool.h>
#include <stdint.h>

#include "bytes.h"
#include "question.h"

/* What is to be shown: of a request's reasons those of one block, of one disk, of both, or all. */
struct choice {
    const struct question *question;
    bool of_block, of_disk;
    uint32_t block, disk;
};

/* Whether a reason is to be shown. */
bool choice_has(const struct choice *choice, const struct pair *pair);

/* Adds what is true of a block and a disk: "it holds a copy, but read there .." */
void add_why(struct bytes *text, const struct question *question, const struct pair *pair);

/* When the last block is in, at best, if a block is read from a disk that holds it; the plan has to be known. */
uint64_t in_by(const struct question *question, const struct pair *pair);

/* Adds the reasons as text, as one line of JSON and, of one block whose plan is known, as a picture in SVG. */
void why_show(const struct choice *choice, struct bytes *text);
void why_json(const struct choice *choice, struct bytes *text);
void why_draw(const struct question *question, uint32_t block, struct bytes *svg);

#endif
