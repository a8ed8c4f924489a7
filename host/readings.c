/*
 * A row of images, tables and questions, whole and damaged, each with a name and the result that document 01 gives it: readings.
 * Writes a line for each, and exits with 1 where one came out otherwise.
 */
#include "../include/zseq.h"

#include <stdio.h>
#include <string.h>

enum { IMAGE = 40, TABLE = 36, ROOM = 700, LEAVE = -1 };

static const uint8_t example_image[IMAGE] = {
    0x5A, 0x53, 0x4D, 0x00, 0x01, 0x03, 0x01, 0x01, 0, 0, 0, 0, 0, 0, 0, 3, 0, 0, 0, 0,
    0,    0,    0,    5,    0,    0,    0,    0,    0, 0, 0, 4, 0, 0, 0, 0, 0, 0, 0, 4,
};

static const uint8_t example_table[TABLE] = {
    0x5A, 0x53, 0x46, 0x00, 0x01, 0x05, 0x02, 0, 0, 0, 0, 0x41, 0x00, 0, 0, 0, 0, 0,
    0x0B, 1,    0,    2,    1,    0x40, 0x02, 0, 0, 0, 0, 0x41, 0x08, 3, 0, 1, 0, 0x40,
};

/* A byte of an image or a table that is changed; at LEAVE none is. */
struct change {
    int at;
    int to;
};

/* What is done to the example, and the result: changes to image and table, their lengths, goal and start. */
struct reading {
    const char *name;
    uint64_t result;
    struct change image[3];
    int image_len;
    struct change table[5];
    int table_len;
    uint64_t goal, start;
};

#define NONE {{LEAVE, 0}, {LEAVE, 0}, {LEAVE, 0}}
#define PLAIN {{LEAVE, 0}, {LEAVE, 0}, {LEAVE, 0}, {LEAVE, 0}, {LEAVE, 0}}
#define OF_IMAGE(name, result, len, ...) {name, result, {__VA_ARGS__}, len, PLAIN, TABLE, 2, 0}
#define OF_TABLE(name, result, len, ...) {name, result, NONE, IMAGE, {__VA_ARGS__}, len, 2, 0}
#define OF_GOAL(name, result, goal, start) {name, result, NONE, IMAGE, PLAIN, TABLE, goal, start}

static const struct reading readings[] = {
    OF_GOAL("EU(true, fired) at 0", ZSEQ_YES, 2, 0),
    OF_GOAL("AF(fired) at 0", ZSEQ_NO, 4, 0),
    OF_GOAL("AF(fired) at 2", ZSEQ_YES, 4, 2),
    OF_GOAL("true at 1", ZSEQ_YES, 1, 1),
    OF_GOAL("goal 0: variable 1 is free", 13, 0, 0),
    OF_GOAL("goal 5 of 5", 11, 5, 0),
    OF_GOAL("goal 258, not taken for 2", 11, 258, 0),
    OF_GOAL("start 3 of 3", 12, 2, 3),
    OF_GOAL("start 256, not taken for 0", 12, 2, 256),
    OF_GOAL("goal 5 and start 3", 11, 5, 3),
    OF_GOAL("goal 0 and start 3", 12, 0, 3),
    OF_IMAGE("image of no bytes", 1, 0, {LEAVE, 0}, {LEAVE, 0}, {LEAVE, 0}),
    OF_IMAGE("image of 6 bytes", 1, 6, {LEAVE, 0}, {LEAVE, 0}, {LEAVE, 0}),
    OF_IMAGE("a table's mark on the image", 1, IMAGE, {2, 'F'}, {LEAVE, 0}, {LEAVE, 0}),
    OF_IMAGE("image of version 257", 1, IMAGE, {3, 1}, {LEAVE, 0}, {LEAVE, 0}),
    OF_IMAGE("image of version 2", 1, IMAGE, {4, 2}, {LEAVE, 0}, {LEAVE, 0}),
    OF_IMAGE("no stage", 2, IMAGE, {5, 0}, {LEAVE, 0}, {LEAVE, 0}),
    OF_IMAGE("65 stages", 2, IMAGE, {5, 65}, {LEAVE, 0}, {LEAVE, 0}),
    OF_IMAGE("17 predicates", 2, IMAGE, {6, 17}, {LEAVE, 0}, {LEAVE, 0}),
    OF_IMAGE("no stage, image of 7 bytes", 2, 7, {5, 0}, {6, 0}, {LEAVE, 0}),
    OF_IMAGE("image of 39 bytes", 3, 39, {LEAVE, 0}, {LEAVE, 0}, {LEAVE, 0}),
    OF_IMAGE("image of 41 bytes", 3, 41, {LEAVE, 0}, {LEAVE, 0}, {LEAVE, 0}),
    OF_IMAGE("image of 7 bytes, arity byte missing", 3, 7, {LEAVE, 0}, {LEAVE, 0}, {LEAVE, 0}),
    OF_IMAGE("arity 0", 3, IMAGE, {7, 0}, {LEAVE, 0}, {LEAVE, 0}),
    OF_IMAGE("arity 3", 3, IMAGE, {7, 3}, {LEAVE, 0}, {LEAVE, 0}),
    OF_IMAGE("arity 2 with one set", 3, IMAGE, {7, 2}, {LEAVE, 0}, {LEAVE, 0}),
    OF_IMAGE("bit 3 in a predicate", 4, IMAGE, {39, 8}, {LEAVE, 0}, {LEAVE, 0}),
    OF_IMAGE("bit 63 in a successor set", 4, IMAGE, {8, 128}, {LEAVE, 0}, {LEAVE, 0}),
    OF_IMAGE("successor set of 1 made 0", 5, IMAGE, {23, 0}, {LEAVE, 0}, {LEAVE, 0}),
    OF_IMAGE("successor set of 2 made 0", 5, IMAGE, {31, 0}, {LEAVE, 0}, {LEAVE, 0}),
    OF_IMAGE("successor set of 1 made 0, and bit 3 in a predicate", 4, IMAGE, {23, 0}, {39, 8}, {LEAVE, 0}),
    OF_TABLE("table of 5 bytes", 6, 5, {LEAVE, 0}, {LEAVE, 0}, {LEAVE, 0}, {LEAVE, 0}, {LEAVE, 0}),
    OF_TABLE("an image's mark on the table", 6, TABLE, {2, 'M'}, {LEAVE, 0}, {LEAVE, 0}, {LEAVE, 0}, {LEAVE, 0}),
    OF_TABLE("table of version 2", 6, TABLE, {4, 2}, {LEAVE, 0}, {LEAVE, 0}, {LEAVE, 0}, {LEAVE, 0}),
    OF_TABLE("no entry", 7, TABLE, {5, 0}, {LEAVE, 0}, {LEAVE, 0}, {LEAVE, 0}, {LEAVE, 0}),
    OF_TABLE("65 entries", 7, TABLE, {5, 65}, {LEAVE, 0}, {LEAVE, 0}, {LEAVE, 0}, {LEAVE, 0}),
    OF_TABLE("4 entries and bytes for 5", 7, TABLE, {5, 4}, {LEAVE, 0}, {LEAVE, 0}, {LEAVE, 0}, {LEAVE, 0}),
    OF_TABLE("table of 35 bytes", 7, 35, {LEAVE, 0}, {LEAVE, 0}, {LEAVE, 0}, {LEAVE, 0}, {LEAVE, 0}),
    OF_TABLE("kind 12", 8, TABLE, {6, 12}, {LEAVE, 0}, {LEAVE, 0}, {LEAVE, 0}, {LEAVE, 0}),
    OF_TABLE("true with a field that it does not use", 8, TABLE, {13, 1}, {LEAVE, 0}, {LEAVE, 0}, {LEAVE, 0}, {LEAVE, 0}),
    OF_TABLE("an entry that is its own operand", 8, TABLE, {19, 2}, {LEAVE, 0}, {LEAVE, 0}, {LEAVE, 0}, {LEAVE, 0}),
    OF_TABLE("variable 4 bound", 8, TABLE, {21, 4}, {LEAVE, 0}, {LEAVE, 0}, {LEAVE, 0}, {LEAVE, 0}),
    OF_TABLE("stage 3 as a term of 3 stages", 8, TABLE, {35, 3}, {LEAVE, 0}, {LEAVE, 0}, {LEAVE, 0}, {LEAVE, 0}),
    OF_TABLE("term 68", 8, TABLE, {35, 68}, {LEAVE, 0}, {LEAVE, 0}, {LEAVE, 0}, {LEAVE, 0}),
    OF_TABLE("predicate 1 of one", 8, TABLE, {7, 1}, {LEAVE, 0}, {LEAVE, 0}, {LEAVE, 0}, {LEAVE, 0}),
    OF_TABLE("second term for arity 1", 8, TABLE, {8, 1}, {LEAVE, 0}, {LEAVE, 0}, {LEAVE, 0}, {LEAVE, 0}),
    OF_TABLE("e and e", 9, TABLE, {18, 4}, {20, 1}, {21, 0}, {22, 0}, {23, 0}),
    OF_TABLE("an entry that is operand of two", 9, TABLE, {31, 0}, {LEAVE, 0}, {LEAVE, 0}, {LEAVE, 0}, {LEAVE, 0}),
};

static size_t changed(uint8_t *to, const uint8_t *example, size_t whole, const struct change *changes, size_t count, int len)
{
    size_t i;
    memset(to, 0, ROOM);
    memcpy(to, example, whole);
    for (i = 0; i < count; i++)
        if (changes[i].at != LEAVE)
            to[changes[i].at] = (uint8_t)changes[i].to;
    return (size_t)len;
}

static int failures;

static void told(const char *name, uint64_t wanted, uint64_t got)
{
    printf("%s %llu %s\n", wanted == got ? "ok  " : "FAIL", (unsigned long long)got, name);
    failures += wanted != got;
}

/* Entries: true, then AX over the entry before at variable 0, as many as asked. */
static size_t nested(uint8_t *table, int modalities)
{
    static const uint8_t head[] = {'Z', 'S', 'F', 0, 1};
    int e;
    memset(table, 0, ROOM);
    memcpy(table, head, sizeof head);
    table[5] = (uint8_t)(modalities + 1);
    for (e = 1; e <= modalities; e++) {
        table[6 + 6 * e] = 6;
        table[7 + 6 * e] = (uint8_t)(e - 1);
        table[11 + 6 * e] = 64;
    }
    return 6 + 6 * (size_t)(modalities + 1);
}

/* 64 stages, each with every successor, and 16 predicates of arity 1. */
static size_t largest(uint8_t *image)
{
    static const uint8_t head[] = {'Z', 'S', 'M', 0, 1, 64, 16};
    memset(image, 255, ROOM);
    memcpy(image, head, sizeof head);
    memset(image + 7, 1, 16);
    return 7 + 16 + 8 * (64 + 16);
}

static void largest_and_deepest(void)
{
    static uint8_t image[ROOM], table[ROOM];
    size_t image_len = largest(image), len = nested(table, 4);
    told("64 stages, 16 predicates, 4 modalities nested", ZSEQ_YES, zseq_verdict(image, image_len, table, len, 4, 63));
    told("start 64 of 64", 12, zseq_verdict(image, image_len, table, len, 4, 64));
    told("64 stages, one byte short", 3, zseq_verdict(image, image_len - 1, table, len, 4, 0));
    image[5] = 63;
    told("the same sets for 63 stages", 4, zseq_verdict(image, image_len - 8, table, len, 4, 0));
    image_len = largest(image);
    len = nested(table, 5);
    told("5 modalities nested", 10, zseq_verdict(image, image_len, table, len, 5, 0));
    told("5 modalities nested beside the goal", 10, zseq_verdict(image, image_len, table, len, 0, 0));
    len = nested(table, 6);
    told("6 modalities nested", 10, zseq_verdict(image, image_len, table, len, 6, 0));
    table[13] = 0, table[19] = 0;
    told("6 modalities nested, and an entry that is operand twice", 9, zseq_verdict(image, image_len, table, len, 6, 0));
    len = nested(table, 0);
    table[5] = 64;
    told("64 entries", ZSEQ_YES, zseq_verdict(image, image_len, table, 6 + 6 * 64, 63, 0));
    told("64 entries, one record short", 7, zseq_verdict(image, image_len, table, len + 6 * 62, 63, 0));
}

int main(void)
{
    static uint8_t image[ROOM], table[ROOM];
    size_t i;
    for (i = 0; i < sizeof readings / sizeof readings[0]; i++) {
        const struct reading *r = &readings[i];
        size_t image_len = changed(image, example_image, IMAGE, r->image, 3, r->image_len);
        size_t table_len = changed(table, example_table, TABLE, r->table, 5, r->table_len);
        told(r->name, r->result, zseq_verdict(image, image_len, table, table_len, r->goal, r->start));
    }
    largest_and_deepest();
    printf("readings: %s\n", failures == 0 ? "every one as it should be" : "some came out otherwise");
    return failures == 0 ? 0 : 1;
}
