/* Numbers in words and back, in decimal. */
#include "words.h"
#include "machine.h"

void put_number(uint64_t number) {
    char digits[21];
    uint32_t at = sizeof digits - 1;
    digits[at] = 0;
    do {
        digits[--at] = (char)('0' + number % 10);
        number /= 10;
    } while (number != 0);
    put_text(digits + at);
}

void put_signed(int64_t number) {
    if (number < 0) put_text("-");
    put_number(number < 0 ? -(uint64_t)number : (uint64_t)number);
}

bool take_number(const uint8_t **words, const uint8_t *end, uint64_t *number) {
    const uint8_t *at = *words;
    if (end - at < 2 || *at++ != ' ') return false;
    *number = 0;
    for (; at != end && *at != ' '; at++) {
        const uint64_t digit = (uint64_t)*at - '0';
        if (digit > 9 || *number > (UINT64_MAX - digit) / 10) return false;
        *number = 10 * *number + digit;
    }
    const bool some = at != *words + 1;
    *words = at;
    return some;
}
