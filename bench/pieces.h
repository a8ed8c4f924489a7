/*
 * The pieces of work of a file that `work` made, and the three versions of each service that answer them. The file's form is in README.md.
 */
#ifndef PIECES_H
#define PIECES_H

#include "../host/bytes.h"

enum { VERDICT = 1, CHECK, WRITE, DEAD_ENDS, SERVICES };
enum { OURS, IDIOMATIC, FASTEST, VERSIONS };

struct piece {
    int service;
    uint64_t goal, start;
    size_t room;
    struct bytes name, image, table, certificate;
};

/* Pieces of which one thing grows from each to the next. */
struct series {
    struct bytes name;
    size_t *pieces;
    size_t count;
};

struct work {
    struct piece *pieces;
    struct series *series;
    size_t count, series_count;
};

/* What a call gave: the result, and for writing the length. What it wrote is in the buffer that was lent. */
struct answer {
    uint64_t result, length;
};

extern const char *const version_names[VERSIONS], *const service_names[SERVICES];

/* Reads a file of pieces; ends the program where it is not one. Pieces of services of ours that are not linked are left out. */
struct work read_work(const char *name);
void say_what_is_left_out(void);

/* Calls a version of a piece's service, and lends it the buffer, which has room for the piece. */
struct answer call(int version, const struct piece *p, uint8_t *buffer);

#endif
