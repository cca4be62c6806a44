/* Sections of a pseudo-random image: mostly good ones, and every way to spoil them. */
#include "sections.h"
#include "bjorkneve.h"
#include "random.h"

enum { BODIES_ROOM = BJORKNEVE_LARGEST_IMAGE + 1024 };
static const uint64_t LOWEST_FREQUENCY = 655360000, HIGHEST_FREQUENCY = 6553600000;

uint32_t kinds[MOST_SECTIONS], section_count, bodies_length;
uint64_t lengths[MOST_SECTIONS], pressure_frequency, temperature_frequency;
uint8_t bodies[BODIES_ROOM];

/* The lowest byte first; what has no room is left out. */
static void put_number(uint32_t width, uint64_t number) {
    for (uint32_t i = 0; i < width && bodies_length < BODIES_ROOM; i++) bodies[bodies_length++] = (uint8_t)(number >> 8 * i);
}

static uint64_t random_frequency(void) {
    const uint64_t frequency = LOWEST_FREQUENCY + random_bits(33);
    return frequency > HIGHEST_FREQUENCY ? HIGHEST_FREQUENCY - random_bits(20) : frequency;
}

/* As two's complement. */
static uint64_t random_signed(uint64_t limit) {
    const uint64_t magnitude = random_up_to(limit);
    return one_in(2) ? magnitude : ~magnitude + 1;
}

static void put_identity(void) {
    put_number(4, random_word());
    put_number(2, 1980 + random_below(120));
    put_number(1, 1 + random_below(12));
    put_number(1, 1 + random_below(one_in(8) ? 31 : 28));
    put_number(4, random_below(200) - 100);
    put_number(4, 100 + random_below(10000));
    put_number(4, random_below(2000) - 1000);
    put_number(4, 1000 + random_below(60000));
}

static void put_prescale(uint32_t order, uint64_t frequency) {
    const uint64_t below = random_up_to((uint64_t)1 << 33), above = random_up_to((uint64_t)1 << 32);
    uint64_t offset = one_in(2) ? frequency + above : frequency < below ? 0 : frequency - below;
    if (offset > HIGHEST_FREQUENCY) offset = HIGHEST_FREQUENCY;
    put_number(4, order == 0 ? 0 : 1 + random_up_to(one_in(8) ? 0x3fffffff : 0xffffff));
    put_number(8, order == 0 ? 0 : offset);
}

static void put_set(void) {
    const uint32_t pressure_order = random_below(5), temperature_order = random_below(5), bits = random_below(36);
    const uint64_t limit = bits > 34 ? (uint64_t)1 << 34 : (uint64_t)1 << bits;
    put_number(1, 1);
    put_number(1, 1);
    put_number(1, pressure_order);
    put_number(1, temperature_order);
    put_prescale(pressure_order, pressure_frequency);
    put_prescale(temperature_order, temperature_frequency);
    for (uint32_t i = 0; i < (pressure_order + 1) * (temperature_order + 1); i++) put_number(8, random_signed(limit));
}

static void put_trim(void) {
    put_number(4, 1 + random_below(3));
    put_number(4, 1 + random_up_to(0x7fffffff));
    put_number(8, random_signed((uint64_t)1 << 40));
}

static void put_note(void) {
    for (uint32_t left = 1 + random_below(64); left != 0; left--) put_number(1, 32 + random_below(95));
}

static void put_bytes(uint32_t count) {
    while (count-- != 0) put_number(1, random_word() & 255);
}

static void put_section(uint32_t kind) {
    const uint32_t start = bodies_length;
    if (kind == 1) put_identity();
    else if (kind == 2 || kind == 3) put_set();
    else if (kind == 4) put_trim();
    else if (kind == 129) put_note();
    else put_bytes(one_in(32) ? random_below(BJORKNEVE_LARGEST_IMAGE) : random_below(24));
    kinds[section_count] = kind;
    lengths[section_count++] = bodies_length - start;
}

/* Kinds and lengths as the builder refuses them. */
static void spoil_list(void) {
    const uint32_t at = random_below(section_count);
    switch (random_below(8)) {
    case 0: kinds[at] = random_below(3) == 0 ? 0 : kinds[random_below(section_count)]; break;
    case 1: kinds[at] += 256; break;
    case 2: section_count = 0; break;
    case 3: while (section_count < MOST_SECTIONS) put_section(section_count == 0 ? 1 : kinds[section_count - 1] + 1); break;
    case 4: lengths[at] += random_up_to(UINT64_MAX); break;
    case 5: lengths[at] += (uint64_t)1 << (32 + random_below(32)); break;
    case 6: lengths[at] -= 1 + random_up_to(UINT64_MAX - 1); break;
    default: bodies_length -= bodies_length == 0 ? 0 : random_below(bodies_length); break;
    }
}

/* Bodies that are wrong in what they hold, in an image that is laid out well. */
static void spoil_body(void) {
    const uint32_t at = random_below(section_count);
    uint32_t start = 0;
    for (uint32_t i = 0; i < at; i++) start += (uint32_t)lengths[i];
    if (lengths[at] == 0) return;
    if (at + 1 < section_count && one_in(4)) {
        lengths[at]--;
        lengths[at + 1]++;
    } else {
        const uint32_t first = lengths[at] > 28 && one_in(2) ? 28 : (uint32_t)lengths[at], place = random_below(first);
        bodies[start + place] ^= (uint8_t)(1 + random_below(255));
    }
}

void make_sections(void) {
    section_count = bodies_length = 0;
    pressure_frequency = random_frequency();
    temperature_frequency = random_frequency();
    for (uint32_t kind = 1; kind <= 3; kind++)
        if (!one_in(48)) put_section(kind);
    if (one_in(3)) put_section(4);
    if (one_in(16)) put_section(5 + random_below(123));
    if (one_in(8)) put_section(128);
    if (one_in(4)) put_section(129);
    if (one_in(4)) put_section(130 + random_below(63));
    if (one_in(8)) put_section(193 + random_below(63));
    if (section_count == 0) put_section(200);
    if (one_in(4)) spoil_body();
    if (one_in(12)) spoil_list();
}
