/*
 * Answers a file of cases with the linked library: answers CASES ANSWERS.
 *
 * Each case is asked twice: with every input and buffer lent so that its last byte lies against a page that can be neither read nor
 * written, and so that its first byte does. So an access outside ends the program. Both answers must be the same, no byte of an input may
 * change, nor a byte of a buffer that is to be kept.
 *
 * Exit status 0 when every case was answered, 1 when the library did otherwise, and 2 when a file cannot be read or written, or is not of
 * its form. An access outside ends it by a signal.
 */
#include "answers.h"

#include <stdlib.h>
#include <string.h>
#include <sys/mman.h>
#include <unistd.h>

enum { MOST = 1 << 20, FILL = 0xAA };

/* The number of the case in hand. */
static size_t in_hand;

void must(int holds, const char *otherwise)
{
    if (!holds) {
        fprintf(stderr, "answers: case %zu: %s\n", in_hand, otherwise);
        exit(1);
    }
}

/* A stretch of memory with an unreadable page on either side. */
struct stretch {
    uint8_t *inside;
    size_t room;
};

static struct stretch image_room, table_room, certificate_room, buffer_room;

static struct stretch stretch(void)
{
    size_t page = (size_t)sysconf(_SC_PAGESIZE);
    size_t room = (MOST + page - 1) / page * page;
    uint8_t *at = mmap(NULL, room + 2 * page, PROT_NONE, MAP_PRIVATE | MAP_ANONYMOUS, -1, 0);
    if (at == MAP_FAILED || mprotect(at + page, room, PROT_READ | PROT_WRITE) != 0)
        fail("answers: no memory");
    return (struct stretch){at + page, room};
}

static uint8_t *part(struct stretch of, size_t len, enum place place)
{
    if (len > of.room)
        fail("answers: a case has more bytes than can be lent");
    return place == AT_START ? of.inside : of.inside + of.room - len;
}

static struct bytes lend(struct stretch to, struct bytes input, enum place place)
{
    uint8_t *at = part(to, input.len, place);
    memcpy(at, input.at, input.len);
    return (struct bytes){at, input.len};
}

uint8_t *lend_buffer(size_t len, enum place place)
{
    uint8_t *at = part(buffer_room, len, place);
    memset(at, FILL, len);
    return at;
}

int kept(const uint8_t *bytes, size_t len)
{
    size_t i;
    for (i = 0; i < len; i++)
        if (bytes[i] != FILL)
            return 0;
    return 1;
}

static int same(struct bytes left, struct bytes right)
{
    return left.len == right.len && memcmp(left.at, right.at, left.len) == 0;
}

/* Lends the inputs of a case, asks, and looks at the inputs again. */
static struct answer asked_at(const struct asked *asked, enum place place)
{
    struct asked lent = *asked;
    struct answer answer;
    lent.image = lend(image_room, asked->image, place);
    lent.table = lend(table_room, asked->table, place);
    lent.certificate = lend(certificate_room, asked->certificate, place);
    answer = ask(&lent, place);
    must(same(lent.image, asked->image) && same(lent.table, asked->table) && same(lent.certificate, asked->certificate), "an input was written");
    return answer;
}

/* The answer of both calls. */
static struct answer asked_twice(const struct asked *asked)
{
    static uint8_t first_bytes[MOST + 8];
    struct answer first = asked_at(asked, AT_END), second;
    if (first.bytes.len > sizeof first_bytes)
        fail("answers: an answer has more bytes than can be held");
    memcpy(first_bytes, first.bytes.at, first.bytes.len);
    first.bytes.at = first_bytes;
    second = asked_at(asked, AT_START);
    must(first.result == second.result && same(first.bytes, second.bytes), "asked twice, it was answered in two ways");
    return first;
}

int main(int argc, char **argv)
{
    struct files files;
    struct asked asked;
    if (argc != 3)
        fail("usage: answers CASES ANSWERS");
    files = open_files(argv[1], argv[2]);
    image_room = stretch();
    table_room = stretch();
    certificate_room = stretch();
    buffer_room = stretch();
    for (in_hand = 0; next_case(&files, service, &asked); in_hand++)
        write_answer(&files, asked_twice(&asked));
    close_files(&files);
    printf("%zu cases answered, each with its inputs against unreadable pages, once at their ends and once at their fronts\n", files.taken);
    return 0;
}
