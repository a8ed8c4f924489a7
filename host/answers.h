/*
 * What answers.c and the file of a service, services/NAME.c, say to each other. One of these files is linked, and with it the archive that
 * has its function.
 */
#ifndef ANSWERS_H
#define ANSWERS_H

#include "../include/zseq.h"
#include "cases.h"

/* Where a stretch is lent: its last byte against an unreadable page, or its first byte. */
enum place { AT_END, AT_START };

/* The service's number in a file of cases. */
extern const uint64_t service;

/* Makes the call on inputs that are lent. The bytes of the answer stand until the next call. */
struct answer ask(const struct asked *lent, enum place place);

/* A buffer for the service to write, filled with AA. */
uint8_t *lend_buffer(size_t len, enum place place);

/* Whether bytes of a lent buffer are AA still. */
int kept(const uint8_t *bytes, size_t len);

/* Where something does not hold that the library owes: ends the program, with words and exit status 1. */
void must(int holds, const char *otherwise);

#endif
