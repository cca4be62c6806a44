/* Damage to images and texts. */
#ifndef DAMAGE_H
#define DAMAGE_H

#include <stdint.h>

/* The image's new length, at most one more than before. */
uint32_t damage_image(uint8_t *image, uint32_t length);

/* The text's new length, at most the room's. The text is one that the writer made, or empty. */
uint32_t damage_text(uint8_t *text, uint32_t length, uint32_t room);

#endif
