/* Answers by zseq_verdict. */
#include "../answers.h"

const uint64_t service = VERDICT;

struct answer ask(const struct asked *lent, enum place place)
{
    struct bytes image = lent->image, table = lent->table;
    (void)place;
    return (struct answer){zseq_verdict(image.at, image.len, table.at, table.len, lent->goal, lent->start), {image.at, 0}};
}
