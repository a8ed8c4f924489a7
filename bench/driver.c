/*
 * Measures the pieces of work.
 *
 *   driver WORK                        calls the three versions of every piece and compares their answers; how many pieces there are
 *   driver WORK count                  each version of each piece once in `counted`, after an empty call, for a counter to watch
 *   driver WORK calls PIECE VERSION N  one version of one piece, N times
 *   driver WORK table COUNTS [times]   the table; COUNTS has the instructions of each piece and version, one number a line, or -
 *
 * Exit status 1 where two versions answer otherwise, 2 where a file cannot be read or the usage is wrong.
 */
#include "pieces.h"

#include <inttypes.h>
#include <stdio.h>
#include <stdlib.h>
#include <string.h>
#include <time.h>

enum { ROOM = 1 << 16, FILL = 0xAA };

/* The width of a ratio's columns. */
enum { RATIO = 22 };

/* What each version wrote, in memory that is the same for every call. */
static uint8_t buffers[VERSIONS][ROOM];

/* The call that is counted. Not inlined, so that a counter finds it by its name. */
__attribute__((noinline)) struct answer counted(int version, const struct piece *p)
{
    return call(version, p, buffers[version]);
}

static void agree(const struct piece *p)
{
    struct answer ours = {0, 0};
    int version;
    if (p->room > ROOM)
        fail("a piece wants more room than there is");
    for (version = 0; version < VERSIONS; version++) {
        struct answer a;
        memset(buffers[version], FILL, sizeof buffers[version]);
        a = call(version, p, buffers[version]);
        if (version == OURS)
            ours = a;
        if (a.result != ours.result || a.length != ours.length || memcmp(buffers[version], buffers[OURS], ROOM) != 0) {
            fflush(stdout);
            fprintf(stderr, "%.*s: ours gives %" PRIu64 ", %s gives %" PRIu64 ", or other bytes\n", (int)p->name.len,
                    (const char *)p->name.at, ours.result, version_names[version], a.result);
            exit(1);
        }
    }
}

static void count(const struct work *w)
{
    static const struct piece nothing;
    size_t i;
    int version;
    counted(OURS, &nothing);
    for (i = 0; i < w->count; i++)
        for (version = 0; version < VERSIONS; version++)
            counted(version, &w->pieces[i]);
}

/* Microseconds of the processor's time, which others on the machine do not lengthen. */
static double now(void)
{
    struct timespec t;
    clock_gettime(CLOCK_PROCESS_CPUTIME_ID, &t);
    return (double)t.tv_sec * 1e6 + (double)t.tv_nsec / 1e3;
}

static double batch(int version, const struct piece *p, long calls)
{
    double begin = now();
    long i;
    for (i = 0; i < calls; i++)
        counted(version, p);
    return (now() - begin) / (double)calls;
}

/* Microseconds for a call of each version: the least of some batches, the versions in turn. */
static void times(const struct piece *p, double *least)
{
    enum { BATCHES = 9, LONG_ENOUGH = 3000 };
    long calls[VERSIONS];
    int version, k;
    for (version = 0; version < VERSIONS; version++) {
        least[version] = batch(version, p, 1);
        calls[version] = 1 + (long)(LONG_ENOUGH / (least[version] + 0.01));
    }
    for (k = 0; k < BATCHES; k++)
        for (version = 0; version < VERSIONS; version++) {
            double one = batch(version, p, calls[version]);
            if (one < least[version])
                least[version] = one;
        }
}

/* The instructions of each piece and version; less than 0 where they were not counted. */
static double *read_counts(const char *name, size_t pieces)
{
    FILE *f = fopen(name, "r");
    double *counts = calloc(pieces + 1, VERSIONS * sizeof *counts);
    size_t i;
    char word[64];
    if (f == NULL || counts == NULL)
        fail("cannot read the counts");
    for (i = 0; i < pieces * VERSIONS; i++) {
        if (fscanf(f, "%63s", word) != 1)
            fail("there are fewer counts than pieces and versions");
        counts[i] = strcmp(word, "-") == 0 ? -1 : strtod(word, NULL);
    }
    if (fscanf(f, "%63s", word) == 1)
        fail("there are more counts than pieces and versions");
    fclose(f);
    return counts;
}

static void print_ratio(double a, double b, int width)
{
    if (a < 0 || b <= 0)
        printf("%*s", width, "-");
    else
        printf("%*.2f", width, a / b);
}

static void print_line(const struct piece *p, const double *counts, const double *micros)
{
    int version, rival;
    printf("%-44.*s", (int)p->name.len, (const char *)p->name.at);
    for (version = 0; version < VERSIONS; version++) {
        if (counts[version] < 0)
            printf("%13s", "-");
        else
            printf("%13.0f", counts[version]);
        if (micros != NULL)
            printf("%11.2f", micros[version]);
    }
    for (rival = FASTEST; rival >= IDIOMATIC; rival--) {
        if (micros != NULL)
            print_ratio(micros[OURS], micros[rival], RATIO / 2);
        print_ratio(counts[OURS], counts[rival], micros != NULL ? RATIO / 2 : RATIO);
    }
    printf("\n");
    fflush(stdout);
}

static void print_heading(int with_times)
{
    int column;
    printf("%-44s", "");
    for (column = 0; column < VERSIONS; column++)
        printf("%*s", with_times ? 24 : 13, version_names[column]);
    printf("%*s%*s\n%-44s", RATIO, "ours / fastest", RATIO, "ours / idiomatic Rust", "");
    for (column = 0; column < VERSIONS; column++)
        printf("%13s%s", "instructions", with_times ? "         us" : "");
    for (column = 0; column < 2; column++) {
        if (with_times)
            printf("%*s", RATIO / 2, "time");
        printf("%*s", with_times ? RATIO / 2 : RATIO, "instr.");
    }
    printf("\n");
}

static void print_growth(const struct series *s, const double *counts)
{
    size_t i;
    int version;
    printf("%-62.*s", (int)s->name.len, (const char *)s->name.at);
    for (version = 0; version < VERSIONS; version++) {
        printf("  %s", version_names[version]);
        for (i = 1; i < s->count; i++) {
            double before = counts[s->pieces[i - 1] * VERSIONS + (size_t)version], after = counts[s->pieces[i] * VERSIONS + (size_t)version];
            printf(" x");
            print_ratio(after, before, 1);
        }
    }
    printf("\n");
}

static void table(const struct work *w, const char *counts_name, int with_times)
{
    double *counts = read_counts(counts_name, w->count);
    double micros[VERSIONS];
    size_t i;
    print_heading(with_times);
    for (i = 0; i < w->count; i++) {
        if (with_times)
            times(&w->pieces[i], micros);
        print_line(&w->pieces[i], counts + VERSIONS * i, with_times ? micros : NULL);
    }
    printf("\nHow the instructions grow, from each to the next:\n\n");
    for (i = 0; i < w->series_count; i++)
        print_growth(&w->series[i], counts);
}

static void calls(const struct work *w, char **args)
{
    size_t piece = strtoul(args[0], NULL, 10), version = strtoul(args[1], NULL, 10);
    long n = strtol(args[2], NULL, 10);
    if (piece >= w->count || version >= VERSIONS)
        fail("no such piece or version");
    while (n-- > 0)
        counted((int)version, &w->pieces[piece]);
}

int main(int argc, char **argv)
{
    const char *what = argc > 2 ? argv[2] : "agree";
    struct work w;
    size_t i;
    if (argc < 2)
        fail("usage: driver WORK [count | calls PIECE VERSION N | table COUNTS [times]]");
    w = read_work(argv[1]);
    if (strcmp(what, "count") == 0) {
        count(&w);
    } else if (strcmp(what, "calls") == 0 && argc == 6) {
        calls(&w, argv + 3);
    } else if (strcmp(what, "table") == 0 && argc > 3) {
        table(&w, argv[3], argc > 4);
    } else if (strcmp(what, "agree") == 0) {
        say_what_is_left_out();
        for (i = 0; i < w.count; i++)
            agree(&w.pieces[i]);
        printf("%zu\n", w.count);
    } else {
        fail("usage: driver WORK [count | calls PIECE VERSION N | table COUNTS [times]]");
    }
    return 0;
}
