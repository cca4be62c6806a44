/* Pseudo-random cases over all calls, from SEED: an image is built, judged, read by, written as a text and loaded again, well or damaged on
 * the way; then a panel goes on with its history. What is met is printed, so that machines can be compared. */
#include "cases.h"
#include "bjorkneve.h"
#include "damage.h"
#include "inputs.h"
#include "met.h"
#include "panels.h"
#include "random.h"
#include "say.h"
#include "sections.h"
#include "stack.h"

/* With room for an image that is too large for the writer. */
enum { IMAGE_ROOM = BJORKNEVE_LARGEST_IMAGE + GUARD, TEXT_ROOM = BJORKNEVE_LONGEST_WRITTEN_TEXT + 600 };
static uint8_t image[IMAGE_ROOM + 1], text[TEXT_ROOM + GUARD], other[IMAGE_ROOM + GUARD];

static void count_filled(enum call call, BjorkneveFilled answer, const uint8_t *buffer, uint32_t lent) {
    count(call, answer.number, answer.detail);
    fold(answer.length);
    fold_lent(buffer, lent);
}

/* The header's own function, where the lengths fit in the size_t of every machine. */
static void build_of_sizes(uint32_t room) {
    size_t sizes[MOST_SECTIONS];
    for (uint32_t i = 0; i < section_count; i++) {
        if (lengths[i] > UINT32_MAX) return;
        sizes[i] = (size_t)lengths[i];
    }
    lend(other, room);
    count_filled(BUILD, bjorkneve_build_of_sizes(kinds, sizes, section_count, bodies, bodies_length, other, room), other, room);
}

static uint32_t build_image(void) {
    const uint32_t room = some_room(2 + 8 * section_count + bodies_length, BJORKNEVE_LARGEST_IMAGE);
    const uint32_t length_count = one_in(64) ? random_below(MOST_SECTIONS) : section_count;
    if (one_in(4)) build_of_sizes(room);
    lend(image, room);
    LOOKED_AT(BUILD, const BjorkneveFilled built =
                         bjorkneve_build(kinds, section_count, lengths, length_count, bodies, bodies_length, image, room));
    count_filled(BUILD, built, image, room);
    return (uint32_t)built.length;
}

static void judge_image(uint32_t length) {
    const uint32_t level = some_level(), kind = one_in(8) ? (uint32_t)random_bits(random_below(33)) : kinds[random_below(MOST_SECTIONS)];
    const BjorkneveCounts counts = some_counts();
    LOOKED_AT(LAYOUT, const BjorkneveVerdict layout = bjorkneve_layout(image, length));
    count(LAYOUT, layout.number, layout.detail);
    LOOKED_AT(VERDICT, const BjorkneveVerdict verdict = bjorkneve_verdict(image, length, level));
    count(VERDICT, verdict.number, verdict.detail);
    LOOKED_AT(FIND, const BjorknevePlace place = bjorkneve_find(image, length, kind));
    count(FIND, place.there, place.offset);
    fold(place.length);
    LOOKED_AT(READING, const BjorkneveAnswer answer = bjorkneve_reading(image, length, level, counts));
    count(READING, answer.number, answer.detail);
    fold_answer(answer);
}

static uint32_t write_text(uint32_t length) {
    const uint32_t lent = one_in(64) ? IMAGE_ROOM - random_below(GUARD) : length;
    const uint32_t room = some_room(12 + 44 * (lent / 16) + (lent % 16 == 0 ? 0 : 12 + 2 * (lent % 16)), BJORKNEVE_LONGEST_WRITTEN_TEXT);
    lend(text, room);
    LOOKED_AT(WRITE, const BjorkneveFilled written = bjorkneve_write(image, lent, text, room));
    count_filled(WRITE, written, text, room);
    return (uint32_t)written.length;
}

static void read_text(uint32_t length, uint32_t image_length) {
    const uint32_t level = some_level(), room = some_room(image_length, IMAGE_ROOM);
    lend(other, room);
    LOOKED_AT(READ, const BjorkneveFilled read = bjorkneve_read(text, length, other, room));
    count_filled(READ, read, other, room);
    lend(other, room);
    LOOKED_AT(LOAD, const BjorkneveFilled loaded = bjorkneve_load(text, length, level, other, room));
    count_filled(LOAD, loaded, other, room);
}

int run_cases(uint32_t seed, uint32_t cases) {
    random_start(seed);
    for (uint32_t done = 0; done < cases; done++) {
        look_at_stack(done < 2000);
        make_sections();
        uint32_t length = build_image();
        if (one_in(5)) length = damage_image(image, length);
        judge_image(length);
        uint32_t text_length = write_text(length);
        if (one_in(2)) text_length = damage_text(text, text_length, TEXT_ROOM);
        read_text(text_length, length);
        go_on_with_panel(image, length, text, text_length);
    }
    look_at_stack(0);
    put_text("seed ");
    say_number(seed);
    put_text(" cases ");
    say_number(cases);
    put_text("\n");
    return say_met();
}
