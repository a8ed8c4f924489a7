/*
 * Has the checker look at every certificate that the program wrote: accepts CASES ANSWERS.
 *
 * CASES are cases for the program and ANSWERS its lines. For each line with a certificate, the image, table, goal and start are taken out of the case's
 * input, and the checker must accept the certificate for the side that the line names. Exit status 0 when it accepts every one and there is one, 1
 * when it does not, and 2 when a file cannot be read or is not of its form.
 *
 * It links the checker alone.
 */
#include "../include/zseq.h"
#include "cases.h"

#include <string.h>

enum { MOST_CERTIFICATE = 32768 };

static int nibble(uint8_t digit)
{
    if (digit >= '0' && digit <= '9')
        return digit - '0';
    if (digit >= 'A' && digit <= 'F')
        return digit - 'A' + 10;
    fail("accepts: a line with something else than upper-case hexadecimal");
}

/* Takes the certificate out of a line that begins with a side word: its length in decimal, a space, and its bytes. */
static struct bytes certificate_of(struct bytes line, size_t word)
{
    static uint8_t certificate[MOST_CERTIFICATE];
    size_t i = word, length = 0, k;
    while (i < line.len && line.at[i] >= '0' && line.at[i] <= '9')
        length = 10 * length + (size_t)(line.at[i++] - '0');
    if (length > MOST_CERTIFICATE || line.len != i + 1 + 2 * length + 1 || line.at[i] != ' ' || line.at[line.len - 1] != '\n')
        fail("accepts: a line whose length is not the certificate's");
    for (k = 0; k < length; k++)
        certificate[k] = (uint8_t)(nibble(line.at[i + 1 + 2 * k]) << 4 | nibble(line.at[i + 2 + 2 * k]));
    return (struct bytes){certificate, length};
}

/* Whether a line begins with a word. */
static int begins(struct bytes line, const char *word)
{
    return line.len >= strlen(word) && memcmp(line.at, word, strlen(word)) == 0;
}

/* Whether the checker accepts what a line shows, for its side. The input is framed, or there would be no certificate. */
static int accepted(struct bytes input, struct bytes line, int side)
{
    struct bytes image = take(&input, (size_t)take_number(&input, 2)), table = take(&input, (size_t)take_number(&input, 2));
    struct bytes certificate = certificate_of(line, side == 0 ? 4 : 3);
    uint64_t goal = take_number(&input, 1), start = take_number(&input, 1);
    return zseq_check(image.at, image.len, table.at, table.len, certificate.at, certificate.len, goal, start) == ZSEQ_YES + (uint64_t)side;
}

/* The bytes of the next answer. Of its result, 8 bytes, nothing is said here. */
static struct bytes next_line(struct bytes *answers)
{
    take(answers, 8);
    return take_counted(answers);
}

int main(int argc, char **argv)
{
    struct files files;
    struct asked asked;
    struct bytes answers;
    size_t sides[2] = {0, 0};
    if (argc != 3)
        fail("usage: accepts CASES ANSWERS");
    answers = whole_file(argv[2]);
    files = open_files(argv[1], "/dev/null");
    while (next_case(&files, PROGRAM, &asked)) {
        struct bytes line = next_line(&answers);
        int side = begins(line, "yes ") ? 0 : begins(line, "no ") ? 1 : -1;
        if (side < 0)
            continue;
        if (!accepted(asked.image, line, side)) {
            fprintf(stderr, "accepts: case %zu: the checker does not accept what the program wrote\n", files.taken - 1);
            return 1;
        }
        sides[side]++;
    }
    close_files(&files);
    printf("the checker accepts every certificate that the program wrote: %zu of side 0 and %zu of side 1\n", sides[0], sides[1]);
    return sides[0] > 0 && sides[1] > 0 ? 0 : 1;
}
