#include "pieces.h"

#include "../include/zseq.h"

#include <stdio.h>
#include <stdlib.h>

/* Each service in the three versions. Ours are weak: a service whose archive is not linked is null. */
#define VERDICT_OF(name) \
    uint64_t name(const uint8_t *image, size_t image_len, const uint8_t *table, size_t table_len, uint64_t goal, uint64_t start)
#define CHECK_OF(name) \
    uint64_t name(const uint8_t *image, size_t image_len, const uint8_t *table, size_t table_len, const uint8_t *certificate, \
                  size_t certificate_len, uint64_t goal, uint64_t start)
#define WRITE_OF(name) \
    uint64_t name(const uint8_t *image, size_t image_len, const uint8_t *table, size_t table_len, uint64_t goal, uint64_t start, \
                  uint8_t *buffer, size_t buffer_len, uint64_t *length)
#define DEAD_ENDS_OF(name) uint64_t name(const uint8_t *image, size_t image_len, uint8_t *set, size_t set_len)
#define WEAK __attribute__((weak))

VERDICT_OF(zseq_verdict) WEAK;
VERDICT_OF(idiomatic_verdict);
VERDICT_OF(fastest_verdict);
CHECK_OF(zseq_check) WEAK;
CHECK_OF(idiomatic_check);
CHECK_OF(fastest_check);
WRITE_OF(zseq_write) WEAK;
WRITE_OF(idiomatic_write);
WRITE_OF(fastest_write);
DEAD_ENDS_OF(zseq_dead_ends) WEAK;
DEAD_ENDS_OF(idiomatic_dead_ends);
DEAD_ENDS_OF(fastest_dead_ends);

const char *const version_names[VERSIONS] = {"ours", "idiomatic", "fastest"};

const char *const service_names[SERVICES] = {"", "verdict", "check", "write", "dead ends"};

struct answer call(int version, const struct piece *p, uint8_t *buffer)
{
    static VERDICT_OF((*const verdicts[VERSIONS])) = {zseq_verdict, idiomatic_verdict, fastest_verdict};
    static CHECK_OF((*const checks[VERSIONS])) = {zseq_check, idiomatic_check, fastest_check};
    static WRITE_OF((*const writers[VERSIONS])) = {zseq_write, idiomatic_write, fastest_write};
    static DEAD_ENDS_OF((*const reports[VERSIONS])) = {zseq_dead_ends, idiomatic_dead_ends, fastest_dead_ends};
    struct answer a = {0, 0};
    struct bytes image = p->image, table = p->table, certificate = p->certificate;
    switch (p->service) {
    case VERDICT:
        a.result = verdicts[version](image.at, image.len, table.at, table.len, p->goal, p->start);
        break;
    case CHECK:
        a.result = checks[version](image.at, image.len, table.at, table.len, certificate.at, certificate.len, p->goal, p->start);
        break;
    case WRITE:
        a.result = writers[version](image.at, image.len, table.at, table.len, p->goal, p->start, buffer, p->room, &a.length);
        break;
    case DEAD_ENDS:
        a.result = reports[version](image.at, image.len, buffer, p->room);
        break;
    }
    return a;
}

static int is_linked(int service)
{
    switch (service) {
    case VERDICT:
        return zseq_verdict != NULL;
    case CHECK:
        return zseq_check != NULL;
    case WRITE:
        return zseq_write != NULL;
    default:
        return zseq_dead_ends != NULL;
    }
}

static struct piece read_piece(struct bytes *from, int service)
{
    struct piece p = {.service = service};
    p.goal = take_number(from, 8);
    p.start = take_number(from, 8);
    p.room = take_number(from, 8);
    p.name = take_counted(from);
    p.image = take_counted(from);
    p.table = take_counted(from);
    p.certificate = take_counted(from);
    return p;
}

enum { LEFT_OUT = -1 };

/* Where the pieces of the file went: their places among those that are kept, or LEFT_OUT. */
struct places {
    long at[1024];
    size_t count;
};

/* A series, with the pieces that are left out taken away. */
static struct series read_series(struct bytes *from, const struct places *places)
{
    struct series s = {.name = take_counted(from)};
    size_t i, count = take_number(from, 4);
    s.pieces = calloc(count + 1, sizeof *s.pieces);
    if (s.pieces == NULL)
        fail("no memory");
    for (i = 0; i < count; i++) {
        size_t piece = take_number(from, 4);
        if (piece >= places->count)
            fail("a series names a piece that is not there");
        if (places->at[piece] != LEFT_OUT)
            s.pieces[s.count++] = (size_t)places->at[piece];
    }
    return s;
}

void say_what_is_left_out(void)
{
    int service;
    for (service = VERDICT; service < SERVICES; service++)
        if (!is_linked(service))
            fprintf(stderr, "Left out   %s: its archive is not there yet\n", service_names[service]);
}

struct work read_work(const char *name)
{
    static struct places places;
    struct bytes from = whole_file(name);
    struct work w = {calloc(1024, sizeof *w.pieces), calloc(1024, sizeof *w.series), 0, 0};
    if (w.pieces == NULL || w.series == NULL)
        fail("no memory");
    while (from.len > 0) {
        int service = (int)take_number(&from, 1);
        if (service >= SERVICES || places.count == 1024 || w.series_count == 1024)
            fail("the work is not of its form");
        if (service == 0) {
            struct series s = read_series(&from, &places);
            if (s.count > 1)
                w.series[w.series_count++] = s;
        } else {
            struct piece p = read_piece(&from, service);
            places.at[places.count++] = is_linked(service) ? (long)w.count : LEFT_OUT;
            if (is_linked(service))
                w.pieces[w.count++] = p;
        }
    }
    return w;
}
