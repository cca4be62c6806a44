/* Pseudo-random rooms, levels and counts. */
#include "inputs.h"
#include "random.h"
#include "sections.h"

uint32_t some_room(uint32_t needed, uint32_t largest) {
    if (one_in(16) || largest < needed) return random_below(2) == 0 ? largest : random_below(largest + 1);
    if (one_in(12)) return random_below(needed + 1);
    const uint32_t room = needed + random_below(24);
    return room > largest ? largest : room;
}

uint32_t some_level(void) {
    if (one_in(16)) return one_in(2) ? random_word() : 257 * random_below(3);
    return 1 + random_below(2);
}

static BjorkneveChannel some_channel(uint64_t frequency) {
    uint64_t sensor = 1 + random_below(1048576);
    const uint64_t near = frequency + random_up_to(frequency / 4);
    uint64_t reference = (uint64_t)7200000 * 65536 * sensor / near;
    if (one_in(32)) sensor = one_in(2) ? 0 : random_bits(64);
    if (one_in(32)) reference = one_in(2) ? 0 : random_up_to(UINT64_MAX);
    const BjorkneveChannel channel = {.sensor = {sensor}, .reference = {reference}};
    return channel;
}

BjorkneveCounts some_counts(void) {
    BjorkneveCounts counts;
    counts.pressure = some_channel(pressure_frequency);
    counts.temperature = some_channel(temperature_frequency);
    return counts;
}
