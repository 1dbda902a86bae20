/* The archive asked about a file, and compared with the rules: every answer, and every element of every array that is lent. */
#ifndef ASKED_H
#define ASKED_H

#include "rules.h"

/* What was asked so far, by what was answered. */
struct tally { uint64_t yes, no[20], reason[4], short_arrays; };

/* Asks all three calls, with arrays of lengths that `shape` chooses. Hands back NULL, or what differs. */
const char *archive_differs(const uint8_t *file, size_t length, uint64_t shape, struct tally *tally);

#endif
