/*
 * The smallest program over the checker: asks whether the certificate of examples/README.md, goal 2 from stage 0, is accepted. Exit status 0 when it
 * is, and 1 when it is refused. host/loader.c does the same with files.
 */
#include "../include/zseq.h"

#include <inttypes.h>
#include <stdio.h>

/* Version 1, 3 stages, 1 predicate, of arity 1; 0 leads to 0 and 1, 1 to 0 and 2, 2 to 2; predicate 0 is {2}. */
static const uint8_t image[] = {
    'Z', 'S', 'M', 0, 1, 3, 1, 1, 0, 0, 0, 0, 0, 0, 0, 3, 0, 0, 0, 0, 0, 0, 0, 5, 0, 0, 0, 0, 0, 0, 0, 4, 0, 0, 0, 0, 0, 0, 0, 4,
};

/* Version 1, 3 entries: predicate 0 of variable 1; true; EU of entry 1, which binds variable 2, and entry 0, which binds variable 1, at variable 0. */
static const uint8_t table[] = {
    'Z', 'S', 'F', 0, 1, 3, 2, 0, 0, 0, 0, 65, 0, 0, 0, 0, 0, 0, 11, 1, 0, 2, 1, 64,
};

/* Version 1, side 0, goal 2, start 0; then the steps: on to 1, on to 2, now. */
static const uint8_t certificate[] = {'Z', 'S', 'C', 0, 1, 0, 2, 0, 16, 1, 0, 16, 2, 0, 15, 1};

int main(void)
{
    uint64_t result = zseq_check(image, sizeof image, table, sizeof table, certificate, sizeof certificate, 2, 0);
    if (result < ZSEQ_ANSWER) {
        printf("refused %" PRIu64 "\n", result);
        return 1;
    }
    printf("accepted: side %" PRIu64 "\n", result - ZSEQ_ANSWER);
    return 0;
}
