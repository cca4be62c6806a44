/* A panel with a history. */
#ifndef PANELS_H
#define PANELS_H

#include <stdint.h>

/* What happens to the panel next, with this image and this text. */
void go_on_with_panel(const uint8_t *image, uint32_t image_length, const uint8_t *text, uint32_t text_length);

#endif
