/* See cases.h. */
#include "cases.h"

struct files open_files(const char *cases, const char *answers)
{
    struct files files = {whole_file(cases), 0, fopen(answers, "wb")};
    if (files.answers == NULL)
        fail("cannot write the answers");
    return files;
}

int next_case(struct files *files, uint64_t service, struct asked *asked)
{
    struct bytes *left = &files->left;
    if (left->len == 0)
        return 0;
    if (take_number(left, 1) != service)
        fail("a case asks for a service that is not linked");
    asked->goal = take_number(left, 8);
    asked->start = take_number(left, 8);
    asked->room = take_number(left, 8);
    asked->image = take_counted(left);
    asked->table = take_counted(left);
    asked->certificate = take_counted(left);
    files->taken++;
    return 1;
}

void put_number(uint8_t *to, uint64_t number)
{
    int i;
    for (i = 0; i < 8; i++)
        to[i] = (uint8_t)(number >> (56 - 8 * i));
}

void write_answer(struct files *files, struct answer answer)
{
    uint8_t number[8];
    put_number(number, answer.result);
    fwrite(number, 1, 8, files->answers);
    put_number(number, answer.bytes.len);
    fwrite(number + 4, 1, 4, files->answers);
    fwrite(answer.bytes.at, 1, answer.bytes.len, files->answers);
}

void close_files(struct files *files)
{
    int failed = ferror(files->answers);
    if (fclose(files->answers) != 0 || failed)
        fail("cannot write the answers");
}
