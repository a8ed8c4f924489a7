/*
 * Prints the graph of a stage image in Graphviz's dot form, with its dead ends marked: picture IMAGE.
 *
 * A dead end, a stage from which the scope can no longer fire, is filled; a stage of predicate 0, which has fired, has a double line. What is a dead end is
 * said by zseq_dead_ends, which reads the image first: this program decides nothing, and draws only what that accepted. Exit status 0 when the
 * graph was drawn, 1 when the image is refused, with the number on standard error, and 2 when it cannot be read.
 */
#include "../include/zseq.h"

#include <errno.h>
#include <inttypes.h>
#include <stdio.h>
#include <string.h>

/* An image has at most 7 bytes, 16 arities and 64 + 16 * 64 sets: a longer one is refused whatever it holds, with or without what is cut off. */
enum { MOST = 7 + 16 + 8 * (64 + 16 * 64) };

/* A set of stages as it is stored. */
static int has(const uint8_t *set, unsigned stage)
{
    return set[7 - stage / 8] >> stage % 8 & 1;
}

static void draw(const uint8_t *image, const uint8_t *dead)
{
    unsigned n = image[5], p = image[6], s, t;
    const uint8_t *sets = image + 7 + p, *fired = sets + 8 * n;
    puts("digraph stages {");
    puts("    node [shape=circle];");
    for (s = 0; s < n; s++)
        printf("    %u [shape=%s%s];\n", s, has(fired, s) ? "doublecircle" : "circle", has(dead, s) ? ", style=filled, fillcolor=gray" : "");
    for (s = 0; s < n; s++)
        for (t = 0; t < n; t++)
            if (has(sets + 8 * s, t))
                printf("    %u -> %u;\n", s, t);
    puts("}");
}

int main(int argc, char **argv)
{
    static uint8_t image[MOST + 1];
    uint8_t dead[ZSEQ_SET];
    uint64_t result;
    size_t len;
    FILE *file;
    if (argc != 2) {
        fputs("usage: picture IMAGE\n", stderr);
        return 2;
    }
    file = fopen(argv[1], "rb");
    if (file == NULL) {
        fprintf(stderr, "picture: cannot read %s: %s\n", argv[1], strerror(errno));
        return 2;
    }
    len = fread(image, 1, sizeof image, file);
    if (ferror(file)) {
        fprintf(stderr, "picture: cannot read %s: %s\n", argv[1], strerror(errno));
        return 2;
    }
    fclose(file);
    result = zseq_dead_ends(image, len, dead, sizeof dead);
    if (result < ZSEQ_ANSWER) {
        fprintf(stderr, "picture: the image is refused with %" PRIu64 "\n", result);
        return 1;
    }
    draw(image, dead);
    if (fflush(stdout) != 0) {
        fprintf(stderr, "picture: cannot write: %s\n", strerror(errno));
        return 2;
    }
    return 0;
}
