/* An image in a flash page: the image's words from the first on, then its length, then the seal. The seal is the first word that a new
 * load clears and the last that is written, so that a page with a seal holds what was kept, all of it. */
#include "page.h"
#include "flash.h"

enum { LENGTH_AT = BJORKNEVE_LARGEST_IMAGE / 4, SEAL_AT = LENGTH_AT + 1 };
static const uint32_t SEAL = 0x6b657074;

/* No erase is wanted to clear bits, so that this is one word. */
void page_invalidate(void) { flash_write(SEAL_AT, 0); }

void page_keep(const uint8_t image[BJORKNEVE_LARGEST_IMAGE], uint32_t length) {
    page_invalidate();
    flash_erase();
    for (uint32_t at = 0; at < length; at += 4)
        flash_write(at / 4, image[at] | (uint32_t)image[at + 1] << 8 | (uint32_t)image[at + 2] << 16 | (uint32_t)image[at + 3] << 24);
    flash_write(LENGTH_AT, length);
    flash_write(SEAL_AT, SEAL);
}

uint32_t page_recall(uint8_t image[BJORKNEVE_LARGEST_IMAGE]) {
    const uint32_t length = flash_word(LENGTH_AT);
    if (flash_word(SEAL_AT) != SEAL || BJORKNEVE_LARGEST_IMAGE < length) return 0;
    for (uint32_t at = 0; at < length; at++) image[at] = (uint8_t)(flash_word(at / 4) >> 8 * (at % 4));
    return length;
}
