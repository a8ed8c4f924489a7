/*
 * The loader: asks the checker about a certificate that stands in a file.
 *
 *     loader IMAGE TABLE CERTIFICATE GOAL START
 *
 * IMAGE, TABLE and CERTIFICATE are files, GOAL and START decimal numbers, which go to the checker as wide as they are. It prints one line:
 * "accepted" with the side that the certificate proves, or "refused" with the refusal's number and what document 01 says of it. Exit
 * status 0 when it is accepted, 1 when it is refused, and 2 when a file cannot be read or the arguments are not of this shape.
 *
 * It links the checker alone.
 */
#include "../include/zseq.h"

#include <errno.h>
#include <inttypes.h>
#include <stdio.h>
#include <stdlib.h>
#include <string.h>

enum status { ACCEPTED = 0, REFUSED = 1, UNREADABLE = 2 };

/* What document 01 says of each refusal that checking gives. */
static const char *const refusals[] = {
    [1] = "stage image under 7 bytes, or wrong mark or version",
    [2] = "n or p outside its range",
    [3] = "an arity byte missing or not 1 or 2, or wrong total length",
    [4] = "a bit n or above set in any set",
    [5] = "a stage without successor",
    [6] = "formula table under 6 bytes, or wrong mark or version",
    [7] = "m outside its range, or wrong total length",
    [8] = "a record has a kind above 11 or breaks its kind's rules",
    [9] = "an entry is operand twice",
    [10] = "nesting over 4",
    [11] = "goal m or above",
    [12] = "start n or above",
    [13] = "variable 1, 2 or 3 free in the goal",
    [20] = "certificate under 8 bytes, wrong mark or version, or side above 1",
    [21] = "it names another goal or start",
    [22] = "a code or chosen byte is missing",
    [23] = "the code is not one for the formula in hand",
    [24] = "the rule's own condition fails: atom, successor, walk",
    [25] = "bytes remain after the last premise",
};

static enum status usage(void)
{
    fputs("usage: loader IMAGE TABLE CERTIFICATE GOAL START\n", stderr);
    return UNREADABLE;
}

/* Whether a text is a decimal number that fits: digits, at least one, and nothing else. */
static int read_number(const char *text, uint64_t *number)
{
    uint64_t n = 0;
    if (*text == '\0')
        return 0;
    for (; *text != '\0'; text++) {
        uint64_t digit;
        if (*text < '0' || *text > '9')
            return 0;
        digit = (uint64_t)(*text - '0');
        if (n > (UINT64_MAX - digit) / 10)
            return 0;
        n = 10 * n + digit;
    }
    *number = n;
    return 1;
}

static int read_argument(const char *name, const char *text, uint64_t *number)
{
    if (read_number(text, number))
        return 1;
    fprintf(stderr, "loader: %s is not a decimal number of 64 bits: %s\n", name, text);
    return 0;
}

/* The bytes of a file. They are never at the null pointer, so that a file of no bytes can be lent too. */
struct file {
    uint8_t *bytes;
    size_t len;
};

/* Twice the room; 0 where there is no memory for it. */
static int grow(uint8_t **bytes, size_t *room)
{
    uint8_t *more = *room > SIZE_MAX / 2 ? NULL : realloc(*bytes, 2 * *room);
    if (more == NULL) {
        errno = ENOMEM;
        return 0;
    }
    *bytes = more;
    *room *= 2;
    return 1;
}

/* Reads to the end, whatever the length; nothing asks beforehand how long it is, so that a pipe will do. */
static int read_stream(FILE *stream, struct file *file)
{
    size_t room = 4096;
    file->len = 0;
    file->bytes = malloc(room);
    if (file->bytes == NULL)
        return 0;
    for (;;) {
        file->len += fread(file->bytes + file->len, 1, room - file->len, stream);
        if (file->len < room)
            return !ferror(stream);
        if (!grow(&file->bytes, &room))
            return 0;
    }
}

static int read_file(const char *name, struct file *file)
{
    FILE *stream = fopen(name, "rb");
    int whole = stream != NULL && read_stream(stream, file);
    if (!whole)
        fprintf(stderr, "loader: cannot read %s: %s\n", name, strerror(errno));
    if (stream != NULL)
        fclose(stream);
    return whole;
}

/* One line for a result of the checker. A number that the header does not give is no answer, and is not taken for one. */
static enum status say(uint64_t result)
{
    enum status status = REFUSED;
    if (result == ZSEQ_YES || result == ZSEQ_NO) {
        status = ACCEPTED;
        puts(result == ZSEQ_YES ? "accepted: side 0 (the goal holds)" : "accepted: side 1 (its dual holds)");
    } else if (result < sizeof refusals / sizeof refusals[0] && refusals[result] != NULL) {
        printf("refused %" PRIu64 ": %s\n", result, refusals[result]);
    } else {
        fprintf(stderr, "loader: the checker gave %" PRIu64 ", which is none of its results\n", result);
        return UNREADABLE;
    }
    if (fflush(stdout) != 0) {
        fprintf(stderr, "loader: cannot write: %s\n", strerror(errno));
        return UNREADABLE;
    }
    return status;
}

int main(int argc, char **argv)
{
    struct file image, table, certificate;
    uint64_t goal, start;
    if (argc != 6)
        return usage();
    if (!read_argument("GOAL", argv[4], &goal) || !read_argument("START", argv[5], &start))
        return usage();
    if (!read_file(argv[1], &image) || !read_file(argv[2], &table) || !read_file(argv[3], &certificate))
        return UNREADABLE;
    return say(zseq_check(image.bytes, image.len, table.bytes, table.len, certificate.bytes, certificate.len, goal, start));
}
