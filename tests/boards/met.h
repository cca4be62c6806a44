/* What was met in the cases: how often each number of each call, and a digest of all that the library gave back. */
#ifndef MET_H
#define MET_H

#include "bjorkneve.h"
#include "stack.h"

/* Bytes after a lent buffer that no call may change. */
enum { GUARD = 8 };

/* The buffer, with what an earlier call may have left in it. */
uint8_t *lend(uint8_t *buffer, uint32_t length);

/* A number and a detail of this call. */
void count(enum call call, uint32_t number, uint64_t detail);

/* Other values of an answer, and all bytes of a lent buffer with those after it. */
void fold(uint64_t number);
void fold_lent(const uint8_t *buffer, uint32_t lent);
void fold_answer(BjorkneveAnswer answer);

/* What must hold of every case. */
void must(int holds, const char *what);

const char *call_name(enum call call);

/* Prints how often each number was met, and the digest; 0 where each call gave every number that it can, and all that must hold did. */
int say_met(void);

#endif
