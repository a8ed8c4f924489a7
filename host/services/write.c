/*
 * Answers by zseq_write, into a buffer of as many bytes as the case lends. The answer's bytes are the length and then the whole buffer, so that
 * a byte written past the certificate, or before a refusal, is seen.
 */
#include "../answers.h"

#include <string.h>

const uint64_t service = WRITE;

/* What the lent number for the length holds before: a refusal leaves it so. */
enum { UNTOUCHED = 0x5A5A5A5A };

struct answer ask(const struct asked *lent, enum place place)
{
    static uint8_t said[8 + (1 << 20)];
    struct bytes image = lent->image, table = lent->table;
    size_t room = (size_t)lent->room;
    uint8_t *buffer = lend_buffer(room, place);
    uint64_t length = UNTOUCHED;
    uint64_t result = zseq_write(image.at, image.len, table.at, table.len, lent->goal, lent->start, buffer, room, &length);
    if (result < ZSEQ_ANSWER) {
        must(length == UNTOUCHED, "a refusal changed the length");
        length = 0;
    }
    put_number(said, length);
    memcpy(said + 8, buffer, room);
    return (struct answer){result, {said, 8 + room}};
}
