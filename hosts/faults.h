/* What is wrong with a file, fault by fault, so that one run tells them all. */
#ifndef FAULTS_H
#define FAULTS_H

#include "bytes.h"

struct faults {
    struct bytes text;      /* a line for each */
    unsigned count;
};

struct faults faults_new(void);
void faults_free(struct faults *faults);

/* Adds a fault; beyond the first twenty they are only counted. */
#if defined(__GNUC__)
__attribute__((format(printf, 2, 3)))
#endif
void faults_add(struct faults *faults, const char *form, ...);

/* The faults as lines, with how many more there are; null for none. */
const char *faults_text(struct faults *faults);

/* Says each of them. */
void faults_say(struct faults *faults);

#endif
