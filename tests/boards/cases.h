/* Pseudo-random cases over all calls. */
#ifndef CASES_H
#define CASES_H

#include <stdint.h>

/* Prints what was met and the digest; 0 where each call gave every number that it can. */
int run_cases(uint32_t seed, uint32_t cases);

#endif
