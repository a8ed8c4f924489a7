/* See bytes.h. */
#include "bytes.h"

#include <stdio.h>
#include <stdlib.h>

void fail(const char *what)
{
    fflush(stdout);
    fprintf(stderr, "%s\n", what);
    exit(2);
}

static _Noreturn void unreadable(const char *name)
{
    fprintf(stderr, "%s: ", name);
    fail("it cannot be read");
}

struct bytes whole_file(const char *name)
{
    FILE *f = fopen(name, "rb");
    long size;
    uint8_t *bytes;
    if (f == NULL || fseek(f, 0, SEEK_END) != 0 || (size = ftell(f)) < 0 || fseek(f, 0, SEEK_SET) != 0)
        unreadable(name);
    bytes = malloc((size_t)size + 1);
    if (bytes == NULL || fread(bytes, 1, (size_t)size, f) != (size_t)size)
        unreadable(name);
    fclose(f);
    return (struct bytes){bytes, (size_t)size};
}

struct bytes take(struct bytes *left, size_t len)
{
    struct bytes front = {left->at, len};
    if (left->len < len)
        fail("a file is cut short");
    left->at += len;
    left->len -= len;
    return front;
}

uint64_t take_number(struct bytes *left, size_t width)
{
    struct bytes from = take(left, width);
    uint64_t number = 0;
    size_t i;
    for (i = 0; i < width; i++)
        number = number << 8 | from.at[i];
    return number;
}

struct bytes take_counted(struct bytes *left)
{
    return take(left, (size_t)take_number(left, 4));
}
