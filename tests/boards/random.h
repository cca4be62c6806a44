/* Pseudo-random numbers from a seed, the same on every machine. C leaves the order open in which most parts of an expression are
 * worked out, so that one expression asks for two of them only where C says which comes first. */
#ifndef RANDOM_H
#define RANDOM_H

#include <stdbool.h>
#include <stdint.h>

void random_start(uint32_t seed);
uint32_t random_word(void);

/* From 0 to below the limit. */
uint32_t random_below(uint32_t limit);
bool one_in(uint32_t cases);

/* A number of so many bits, 0 to 64, or fewer. */
uint64_t random_bits(uint32_t bits);

/* A number of any size up to the limit, small ones as often as large ones; now and then the limit itself. */
uint64_t random_up_to(uint64_t limit);

#endif
