/* Memory that behaves as a flash page does, also where the power goes while a word changes. A real board has its maker's driver here. */
#include "flash.h"
#include "board.h"

static void change(uint32_t at, uint32_t word) {
    if (POWER[0] == 1) {
        POWER[0] = 0;
        PAGE[at] = (PAGE[at] & ~POWER[1]) | (word & POWER[1]);
        restart();
    }
    if (POWER[0] != 0) POWER[0]--;
    PAGE[at] = word;
}

void flash_erase(void) {
    for (uint32_t at = 0; at < FLASH_WORDS; at++) change(at, UINT32_MAX);
}

void flash_write(uint32_t at, uint32_t word) { change(at, PAGE[at] & word); }

uint32_t flash_word(uint32_t at) { return PAGE[at]; }
