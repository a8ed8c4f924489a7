/*
 * Measures the deepest stack of each piece of work: stack WORK. Each call runs on a stack of its own, which is painted before; how far it
 * was touched is printed, less what an empty call touches.
 */
#include "pieces.h"

#include "../include/zseq.h"

#include <stdio.h>
#include <stdlib.h>
#include <string.h>
#include <sys/mman.h>
#include <ucontext.h>

enum { SIZE = 16 << 20, ROOM = 1 << 16, PAINT = 0xA5 };

static uint8_t *own_stack;
static uint8_t buffer[ROOM];
static ucontext_t here, there;

/* What is called on the painted stack, and what it gave. */
static const struct piece *called;
static int called_version;
static struct answer given;

static void on_own_stack(void)
{
    given = call(called_version, called, buffer);
}

static void run(int version, const struct piece *p)
{
    if (p->room > ROOM)
        fail("a piece wants more room than there is");
    called = p;
    called_version = version;
    if (getcontext(&there) != 0)
        fail("no context");
    there.uc_stack.ss_sp = own_stack;
    there.uc_stack.ss_size = SIZE;
    there.uc_link = &here;
    makecontext(&there, on_own_stack, 0);
    if (swapcontext(&here, &there) != 0)
        fail("no context");
}

/* The bytes of stack that a call touches. A stack grows downwards. */
static size_t touched(int version, const struct piece *p)
{
    size_t untouched = 0;
    memset(own_stack, PAINT, SIZE);
    run(version, p);
    while (untouched < SIZE && own_stack[untouched] == PAINT)
        untouched++;
    if (untouched == 0)
        fail("the stack was too small");
    return SIZE - untouched;
}

int main(int argc, char **argv)
{
    static const struct piece nothing;
    size_t most[SERVICES][VERSIONS] = {{0}};
    struct work w;
    size_t i, empty;
    int version, service;
    if (argc != 2)
        fail("usage: stack WORK");
    w = read_work(argv[1]);
    say_what_is_left_out();
    own_stack = mmap(NULL, SIZE, PROT_READ | PROT_WRITE, MAP_PRIVATE | MAP_ANONYMOUS, -1, 0);
    if (own_stack == MAP_FAILED)
        fail("no memory");
    empty = touched(OURS, &nothing);
    printf("%-44s%12s%12s%12s\n", "bytes of stack", version_names[OURS], version_names[IDIOMATIC], version_names[FASTEST]);
    for (i = 0; i < w.count; i++) {
        const struct piece *p = &w.pieces[i];
        uint64_t result = 0;
        printf("%-44.*s", (int)p->name.len, (const char *)p->name.at);
        for (version = 0; version < VERSIONS; version++) {
            size_t bytes = touched(version, p) - empty;
            printf("%12zu", bytes);
            if (version == OURS)
                result = given.result;
            if (given.result != result || result < ZSEQ_YES)
                fail("a piece is not answered, or not by all alike");
            if (bytes > most[p->service][version])
                most[p->service][version] = bytes;
        }
        printf("\n");
    }
    printf("\n");
    for (service = VERDICT; service < SERVICES; service++)
        if (most[service][OURS] > 0)
            printf("deepest: %-35s%12zu%12zu%12zu\n", service_names[service], most[service][OURS], most[service][IDIOMATIC],
                   most[service][FASTEST]);
    return 0;
}
