/*
 * Bytes of a file, taken from the front: what the files of cases, of answers and of the benchmark's work are read by.
 *
 * Whatever is wrong with a file ends the program with words and exit status 2.
 */
#ifndef BYTES_H
#define BYTES_H

#include <stddef.h>
#include <stdint.h>

struct bytes {
    const uint8_t *at;
    size_t len;
};

_Noreturn void fail(const char *what);

struct bytes whole_file(const char *name);

struct bytes take(struct bytes *left, size_t len);

/* A big-endian number of so many bytes, 8 at most. */
uint64_t take_number(struct bytes *left, size_t width);

/* A length of 4 bytes, and then as many bytes. */
struct bytes take_counted(struct bytes *left);

#endif
