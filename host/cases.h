/*
 * The files of cases and of answers. Their forms are in reference/README.md.
 *
 * Whatever is wrong with a file, or with what it asks, ends the program with words and exit status 2.
 */
#ifndef CASES_H
#define CASES_H

#include "bytes.h"

#include <stdio.h>

/* The numbers of the services in a file of cases. */
enum { VERDICT = 1, CHECK = 2, WRITE = 3, DEAD_ENDS = 4, PROGRAM = 5 };

/* One case: what a service is asked. */
struct asked {
    uint64_t goal, start, room;
    struct bytes image, table, certificate;
};

/* What was answered to a case: a result, and the bytes that go with it. */
struct answer {
    uint64_t result;
    struct bytes bytes;
};

/* The cases that are left, how many were taken, and where the answers go. */
struct files {
    struct bytes left;
    size_t taken;
    FILE *answers;
};

struct files open_files(const char *cases, const char *answers);

/* Takes the next case, which must be for the service; 0 when none is left. */
int next_case(struct files *files, uint64_t service, struct asked *asked);

void write_answer(struct files *files, struct answer answer);

void close_files(struct files *files);

/* Writes a number big-endian into 8 bytes. */
void put_number(uint8_t *to, uint64_t number);

#endif
