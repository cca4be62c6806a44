/* The sections of a pseudo-random image, as the builder takes them. */
#ifndef SECTIONS_H
#define SECTIONS_H

#include <stdint.h>

enum { MOST_SECTIONS = 20 };

extern uint32_t kinds[MOST_SECTIONS], section_count, bodies_length;
extern uint64_t lengths[MOST_SECTIONS];
extern uint8_t bodies[];

/* Frequencies, in 1/65,536 Hz, that the offsets of the sets are near to. */
extern uint64_t pressure_frequency, temperature_frequency;

/* Makes the sections of the next case. */
void make_sections(void);

#endif
