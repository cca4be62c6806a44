/* Numbers in words, where there is no C library. */
#include "say.h"

void say_number(uint32_t number) {
    char digits[11];
    uint32_t at = sizeof digits - 1;
    digits[at] = 0;
    do {
        digits[--at] = (char)('0' + number % 10);
        number /= 10;
    } while (number != 0);
    put_text(digits + at);
}

void say_hexadecimal(uint32_t number) {
    char digits[9];
    for (uint32_t i = 0; i < 8; i++) digits[i] = "0123456789abcdef"[number >> (28 - 4 * i) & 15];
    digits[8] = 0;
    put_text(digits);
}
