/*
 * The sequence checker, called from C or C++.
 *
 * Results. A refusal is its own number, 1 to 25, as document 01 gives them; an answer is 128 or more. So no refusal looks like an answer, and every
 * input whatever, of any length, has one result.
 *
 * Slices. A byte slice is a pointer and then a length. A slice of length 0 may have any pointer that is not null, and no byte is read through it;
 * null is not allowed, with length 0 either. Bytes need no alignment. Inputs are never written, and may overlap one another. A buffer that is lent to
 * be written overlaps no input. After a refusal a lent buffer holds what it held.
 *
 * Goal and start are wide numbers: 258 is refused, and never taken for 2.
 *
 * State. There is none: no function keeps a pointer after it returns, allocates, or reads or sets anything but its arguments. So any number of threads
 * may call them at once, each with buffers of its own. 256 KiB of stack do for each of them; docs/LIMITS.md has the figures.
 *
 * Each function has an archive of its own, for x86-64, and the checker's has nothing of the search.
 */
#ifndef ZSEQ_H
#define ZSEQ_H

#include <stddef.h>
#include <stdint.h>

#ifdef __cplusplus
extern "C" {
#endif

#define ZSEQ_ANSWER 128u /* the least result that is no refusal */
#define ZSEQ_YES 128u    /* side 0: the goal holds */
#define ZSEQ_NO 129u     /* side 1: its dual holds */
#define ZSEQ_SET 8u      /* the bytes of a set of stages: big-endian, stage k being the bit worth 2^k */

/*
 * The verdict on a goal, asked at a start stage. Archive: libverdict.a.
 *
 * ZSEQ_YES   exactly when the goal's formula holds of the graph
 * ZSEQ_NO    exactly when its dual holds, which is exactly when the formula does not
 * 1 to 13    the first of these refusals whose condition holds
 */
uint64_t zseq_verdict(const uint8_t *image, size_t image_len, const uint8_t *table, size_t table_len, uint64_t goal, uint64_t start);

/*
 * The check of a certificate for a goal, asked at a start stage. What is accepted holds of the graph, whoever wrote the certificate, and every proof by
 * the rules of document 01 is accepted. Archive: libchecker.a.
 *
 * ZSEQ_YES   exactly when the certificate is of side 0 and proves the goal's formula
 * ZSEQ_NO    exactly when it is of side 1 and proves the dual
 * 1 to 13    the first of these refusals, as for the verdict
 * 20 to 25   otherwise the first fault in the certificate
 */
uint64_t zseq_check(const uint8_t *image, size_t image_len, const uint8_t *table, size_t table_len, const uint8_t *certificate,
                    size_t certificate_len, uint64_t goal, uint64_t start);

/*
 * The writing of the certificate for a goal, asked at a start stage. `length` is not null, is aligned as a uint64_t, and lies in no input and not in the
 * buffer. Archive: libwriter.a.
 *
 * ZSEQ_YES   the goal's formula holds: the certificate of side 0 stands at the front of the buffer, and its length in *length; the rest of the
 *            buffer holds what it held
 * ZSEQ_NO    the dual holds: the same with the certificate of side 1
 * 1 to 13    the first of these refusals, as for the verdict
 * 14         otherwise, exactly when the certificate is longer than the buffer, however long it is
 *
 * A refusal changes neither the buffer nor *length.
 */
uint64_t zseq_write(const uint8_t *image, size_t image_len, const uint8_t *table, size_t table_len, uint64_t goal, uint64_t start, uint8_t *buffer,
                    size_t buffer_len, uint64_t *length);

/*
 * The dead ends of a graph: the stages from which no path reaches predicate 0, the stage itself counted. Archive: libdeadends.a.
 *
 * 128 to 192  ZSEQ_ANSWER and the number of dead ends added: the set of them stands in the first ZSEQ_SET bytes of the lent buffer, and the rest of it
 *             holds what it held. A buffer of fewer than ZSEQ_SET bytes is not written, and the result is the same.
 * 1 to 5      the first of these refusals whose condition holds
 * 15          otherwise, exactly when predicate 0 is missing or not of arity 1
 *
 * A refusal does not change the buffer.
 */
uint64_t zseq_dead_ends(const uint8_t *image, size_t image_len, uint8_t *set, size_t set_len);

#ifdef __cplusplus
}
#endif

#endif
