/*
 * Answers by zseq_dead_ends. Each case is asked with a buffer that just has room for the set, with one that has room to spare, and with one
 * of a byte too few, which stays as it is.
 */
#include "../answers.h"

#include <string.h>

const uint64_t service = DEAD_ENDS;

/* Asks with a buffer of a length. The set goes to `set`; all zeros where none was written. */
static uint64_t with_buffer(struct bytes image, size_t len, enum place place, uint8_t *set)
{
    uint8_t *buffer = lend_buffer(len, place);
    uint64_t result = zseq_dead_ends(image.at, image.len, buffer, len);
    size_t written = result >= ZSEQ_ANSWER && len >= ZSEQ_SET ? ZSEQ_SET : 0;
    must(kept(buffer + written, len - written), "a byte of the buffer changed that is none of the set's");
    memset(set, 0, ZSEQ_SET);
    memcpy(set, buffer, written);
    return result;
}

struct answer ask(const struct asked *lent, enum place place)
{
    static uint8_t set[ZSEQ_SET];
    uint8_t other[ZSEQ_SET];
    uint64_t result = with_buffer(lent->image, ZSEQ_SET, place, set);
    uint64_t roomy = with_buffer(lent->image, ZSEQ_SET + 24, place, other);
    must(roomy == result && memcmp(other, set, ZSEQ_SET) == 0, "a longer buffer changed the answer");
    must(with_buffer(lent->image, ZSEQ_SET - 1, place, other) == result, "a buffer that is too short changed the result");
    return (struct answer){result, {set, ZSEQ_SET}};
}
