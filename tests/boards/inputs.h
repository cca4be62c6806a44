/* Pseudo-random rooms, levels and counts. */
#ifndef INPUTS_H
#define INPUTS_H

#include "bjorkneve.h"

/* Mostly a little more than is needed, at times less, at times the largest. */
uint32_t some_room(uint32_t needed, uint32_t largest);

/* Mostly 1 or 2. */
uint32_t some_level(void);

/* Mostly counts of frequencies near to those that the sections are near to. */
BjorkneveCounts some_counts(void);

#endif
