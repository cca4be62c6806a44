/* Pseudo-random numbers, by Marsaglia's xorshift of 128 bits. */
#include "random.h"

static uint32_t random_state[4];

uint32_t random_word(void) {
    uint32_t word = random_state[3];
    const uint32_t first = random_state[0];
    random_state[3] = random_state[2];
    random_state[2] = random_state[1];
    random_state[1] = first;
    word ^= word << 11;
    word ^= word >> 8;
    random_state[0] = word ^ first ^ first >> 19;
    return random_state[0];
}

void random_start(uint32_t seed) {
    random_state[0] = seed;
    random_state[1] = 0x9e3779b9;
    random_state[2] = 0x243f6a88;
    random_state[3] = 0xb7e15162;
    for (uint32_t i = 0; i < 64; i++) (void)random_word();
}

uint32_t random_below(uint32_t limit) { return (uint32_t)((uint64_t)random_word() * limit >> 32); }

bool one_in(uint32_t cases) { return random_below(cases) == 0; }

uint64_t random_bits(uint32_t bits) {
    const uint64_t high = random_word();
    const uint64_t word = high << 32 | random_word();
    return bits == 0 ? 0 : word >> (64 - bits);
}

uint64_t random_up_to(uint64_t limit) {
    uint32_t bits = 0;
    while (bits < 64 && limit >> bits != 0) bits++;
    const uint64_t number = random_bits(random_below(bits + 1));
    return number > limit || one_in(64) ? limit : number;
}
