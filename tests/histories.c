/* Histories of a panel from C. Each text of the command line, as it is, with each line lost and with each line damaged, is loaded whole
 * and by lines, at every level and with several rooms: both panels and buffers are what bjorkneve_load says. Then the first two texts,
 * of two gauges, and the last, which is bad, in turn: the lamp, the readings and the gauge follow the last load that began. */
#include "bjorkneve.h"
#include <stdio.h>
#include <string.h>

enum { ROOM = BJORKNEVE_LARGEST_IMAGE, GUARD = 8, DIRT = 0xa5 };

typedef struct {
    uint8_t bytes[BJORKNEVE_LONGEST_WRITTEN_TEXT];
    size_t length;
} Text;

static int failed;
static unsigned long compared;

static void expect(int holds, const char *what) {
    if (!holds) {
        printf("histories: wrong: %s\n", what);
        failed = 1;
    }
}

/* The length of the line that starts here, with its LF. */
static size_t line_length(const uint8_t *start, size_t left) {
    const uint8_t *const end = memchr(start, '\n', left);
    return end == NULL ? left : (size_t)(end - start) + 1;
}

/* The first lines of the text, `most` of them, with no end. */
static BjorknevePanel some_lines(BjorknevePanel panel, const Text *text, size_t most, uint8_t *image, size_t room) {
    panel = bjorkneve_panel_begin(panel, image, room);
    for (size_t at = 0; at < text->length && most != 0; most--) {
        const size_t length = line_length(text->bytes + at, text->length - at);
        panel = bjorkneve_panel_line(panel, text->bytes + at, length, image, room);
        at += length;
    }
    return panel;
}

static BjorknevePanel by_lines(BjorknevePanel panel, const Text *text, uint8_t *image, size_t room) {
    return bjorkneve_panel_end(some_lines(panel, text, SIZE_MAX, image, room), image, room);
}

static void compare(const Text *text) {
    static const size_t rooms[] = {ROOM, 0, 1, 16, 266};
    static uint8_t whole[ROOM + GUARD], lined[ROOM + GUARD], loaded[ROOM + GUARD];
    for (uint32_t level = 0; level <= 3; level++)
        for (size_t i = 0; i < sizeof rooms / sizeof rooms[0]; i++) {
            memset(whole, DIRT, sizeof whole);
            memset(lined, DIRT, sizeof lined);
            memset(loaded, DIRT, sizeof loaded);
            const BjorknevePanel panel = bjorkneve_panel_power_on(level, NULL, 0, 0);
            const BjorkneveStatus one = bjorkneve_panel_status(bjorkneve_panel_load(panel, text->bytes, text->length, whole, rooms[i]));
            const BjorkneveStatus other = bjorkneve_panel_status(by_lines(panel, text, lined, rooms[i]));
            const BjorkneveFilled answer = bjorkneve_load(text->bytes, text->length, level, loaded, rooms[i]);
            expect(one.number == answer.number && one.detail == answer.detail && one.length == answer.length, "a whole text");
            expect(other.number == answer.number && other.detail == answer.detail && other.length == answer.length, "a text by lines");
            expect(one.lamp == (answer.number == 0) && other.lamp == one.lamp && one.level == level && other.level == level, "a lamp or a level");
            expect(memcmp(whole, loaded, sizeof loaded) == 0 && memcmp(lined, loaded, sizeof loaded) == 0, "an image");
            compared++;
        }
}

/* The text, and what becomes of it where one line is lost, or damaged. */
static void compare_damaged(const Text *text) {
    static Text damaged;
    compare(text);
    for (size_t at = 0, length; at < text->length; at += length) {
        length = line_length(text->bytes + at, text->length - at);
        damaged = *text;
        memmove(damaged.bytes + at, damaged.bytes + at + length, text->length - at - length);
        damaged.length -= length;
        compare(&damaged);
        damaged = *text;
        damaged.bytes[at + length - 2] ^= 1;
        compare(&damaged);
    }
}

static const BjorkneveCounts counts = {
    .pressure = {.sensor = {10000}, .reference = {2847876}},
    .temperature = {.sensor = {10000}, .reference = {1352875}},
};

/* The lamp is out: no reading and no gauge, and no call takes any part of the buffer for an image. */
static void out(BjorknevePanel panel, const uint8_t *image, const char *when) {
    expect(!bjorkneve_panel_status(panel).lamp, when);
    expect(bjorkneve_panel_reading(panel, image, ROOM, counts).number == BJORKNEVE_REFUSED_NOT_AN_IMAGE, when);
    expect(bjorkneve_panel_gauge(panel, image, ROOM).number == BJORKNEVE_REFUSED_NOT_AN_IMAGE, when);
    for (size_t length = 0; length <= ROOM; length++) {
        expect(bjorkneve_verdict(image, length, BJORKNEVE_LEVEL_2).number == BJORKNEVE_REFUSED_NOT_AN_IMAGE, when);
        expect(bjorkneve_layout(image, length).number == BJORKNEVE_REFUSED_NOT_AN_IMAGE, when);
    }
}

/* The lamp is green: reading and gauge are those of the text's image, and the identity's first bytes are the serial. */
static void green(BjorknevePanel panel, const uint8_t *image, const Text *text, const char *when) {
    static uint8_t loaded[ROOM];
    const uint64_t length = bjorkneve_load(text->bytes, text->length, BJORKNEVE_LEVEL_2, loaded, ROOM).length;
    const BjorkneveAnswer told = bjorkneve_panel_reading(panel, image, ROOM, counts);
    const BjorkneveAnswer right = bjorkneve_reading(loaded, length, BJORKNEVE_LEVEL_2, counts);
    const BjorkneveGauge gauge = bjorkneve_panel_gauge(panel, image, ROOM);
    const uint8_t *const identity = loaded + bjorkneve_find(loaded, length, 1).offset;
    expect(bjorkneve_panel_status(panel).lamp && bjorkneve_panel_status(panel).length == length, when);
    expect(told.number == 0 && told.pressure == right.pressure && told.temperature == right.temperature, when);
    expect(told.unit == right.unit && told.mark == right.mark, when);
    expect(gauge.number == 0 && gauge.serial == (identity[0] | identity[1] << 8 | identity[2] << 16 | (uint32_t)identity[3] << 24), when);
    expect(gauge.year == (identity[4] | identity[5] << 8) && gauge.month == identity[6] && gauge.day == identity[7], when);
}

static void history(const Text *good, const Text *another, const Text *bad) {
    static uint8_t image[ROOM], kept[ROOM];
    BjorknevePanel panel = bjorkneve_panel_power_on(BJORKNEVE_LEVEL_2, image, ROOM, 0);
    out(panel, image, "at power-on with nothing kept");
    panel = bjorkneve_panel_load(panel, good->bytes, good->length, image, ROOM);
    green(panel, image, good, "after a good load");
    panel = bjorkneve_panel_load(panel, bad->bytes, bad->length, image, ROOM);
    out(panel, image, "after a bad load");
    panel = by_lines(panel, another, image, ROOM);
    green(panel, image, another, "after another gauge's load");
    const uint32_t serial = bjorkneve_panel_gauge(panel, image, ROOM).serial;
    panel = by_lines(panel, good, image, ROOM);
    green(panel, image, good, "after the first gauge's load again");
    expect(bjorkneve_panel_gauge(panel, image, ROOM).serial != serial, "two texts of one gauge");
    for (size_t taken = 0; taken <= 20; taken++) {
        panel = some_lines(panel, good, taken, image, ROOM);
        out(panel, image, "while a text is under way");
        panel = bjorkneve_panel_end(panel, image, ROOM);
        if (bjorkneve_panel_status(panel).lamp) green(panel, image, good, "after all lines");
        else out(panel, image, "after a text that stops");
    }
    panel = by_lines(panel, bad, image, ROOM);
    out(panel, image, "after a bad load by lines");
    panel = by_lines(panel, good, image, ROOM);
    memcpy(kept, image, ROOM);
    panel = bjorkneve_panel_power_on(BJORKNEVE_LEVEL_2, kept, ROOM, bjorkneve_panel_status(panel).length);
    green(panel, kept, good, "at power-on with an image kept");
    kept[40] ^= 1;
    panel = bjorkneve_panel_power_on(BJORKNEVE_LEVEL_2, kept, ROOM, bjorkneve_panel_status(panel).length);
    out(panel, kept, "at power-on with a damaged image kept");
}

int main(int count, char **words) {
    static Text texts[16];
    if (count < 4 || count > 17) return 2;
    for (int i = 1; i < count; i++) {
        FILE *const file = fopen(words[i], "rb");
        if (file == NULL) return 2;
        texts[i - 1].length = fread(texts[i - 1].bytes, 1, sizeof texts[0].bytes, file);
        fclose(file);
        compare_damaged(&texts[i - 1]);
    }
    history(&texts[0], &texts[1], &texts[count - 2]);
    if (!failed) printf("histories: %lu loads by lines are as whole ones, and the lamp follows the last load that began\n", compared);
    return failed;
}
