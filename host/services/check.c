/* Answers by zseq_check. */
#include "../answers.h"

const uint64_t service = CHECK;

struct answer ask(const struct asked *lent, enum place place)
{
    struct bytes image = lent->image, table = lent->table, certificate = lent->certificate;
    uint64_t result = zseq_check(image.at, image.len, table.at, table.len, certificate.at, certificate.len, lent->goal, lent->start);
    (void)place;
    return (struct answer){result, {image.at, 0}};
}
