/* The image that outlives the power. */
#ifndef PAGE_H
#define PAGE_H

#include "bjorkneve.h"

/* From here on nothing is recalled, whenever the power goes. */
void page_invalidate(void);

/* Keeps an image. Where the power goes before this returns, nothing is recalled. */
void page_keep(const uint8_t image[BJORKNEVE_LARGEST_IMAGE], uint32_t length);

/* The bytes that were kept, and how many; 0 where nothing was. They are to be judged. */
uint32_t page_recall(uint8_t image[BJORKNEVE_LARGEST_IMAGE]);

#endif
