/* Every call from C with nothing lent, with dirty buffers and with wrong numbers: each answers, and a refusal leaves zeros alone. The
 * header's names stand for what the library says. */
#include "bjorkneve.h"
#include <stdio.h>
#include <string.h>

static int failed, asked;

static void expect(int holds, const char *what) {
    asked++;
    if (!holds) {
        printf("calls: wrong: %s\n", what);
        failed = 1;
    }
}

static uint8_t buffer[BJORKNEVE_LARGEST_IMAGE + 904];

/* Lent with what an earlier load may have left in it. */
static uint8_t *dirty(void) { return memset(buffer, 0xa5, sizeof buffer); }

/* Zeros in what was lent, and not a byte changed after it. */
static int cleared(size_t lent) {
    for (size_t i = 0; i < sizeof buffer; i++)
        if (buffer[i] != (i < lent ? 0 : 0xa5)) return 0;
    return 1;
}

static int refused(BjorkneveFilled answer, uint32_t number, uint64_t detail, size_t lent) {
    return answer.number == number && answer.detail == detail && answer.length == 0 && cleared(lent);
}

static int withheld(BjorkneveAnswer answer, uint32_t number) {
    return answer.number == number && answer.detail == 0 && answer.pressure == 0 && answer.temperature == 0 && answer.unit == 0 &&
           answer.mark == 0;
}

/* The limits, on both sides of each. */
static void limits(void) {
    static uint8_t image[BJORKNEVE_LARGEST_IMAGE + 1], text[BJORKNEVE_LONGEST_WRITTEN_TEXT];
    BjorkneveFilled written = bjorkneve_write(image, BJORKNEVE_LARGEST_IMAGE, text, sizeof text);
    expect(written.number == 0 && written.length == sizeof text, "the longest text");
    expect(bjorkneve_read(text, sizeof text, image, sizeof image).length == BJORKNEVE_LARGEST_IMAGE, "the largest image");
    written = bjorkneve_write(image, BJORKNEVE_LARGEST_IMAGE, text, sizeof text - 1);
    expect(written.number == BJORKNEVE_REFUSED_NO_ROOM, "no room for the longest text");
    written = bjorkneve_write(image, BJORKNEVE_LARGEST_IMAGE + 1, text, sizeof text);
    expect(written.number == BJORKNEVE_REFUSED_TOO_LARGE, "an image that is too large");
    expect(bjorkneve_verdict(NULL, 0, BJORKNEVE_LEVEL_1 - 1).number == BJORKNEVE_REFUSED_NO_SUCH_LEVEL, "no level below the first");
    expect(bjorkneve_verdict(NULL, 0, BJORKNEVE_LEVEL_2).number == BJORKNEVE_REFUSED_NOT_AN_IMAGE, "the highest level");
    expect(bjorkneve_verdict(NULL, 0, BJORKNEVE_LEVEL_2 + 1).number == BJORKNEVE_REFUSED_NO_SUCH_LEVEL, "no level above the last");
}

/* Lengths that are kept as size_t: the same image, and the same answer where there are more sections than the header's table has. */
static void sizes(void) {
    static const uint8_t bodies[20] = {1, 2, 3};
    uint32_t kinds[20];
    size_t sizes[20];
    for (uint32_t i = 0; i < 20; i++) kinds[i] = 200 + i, sizes[i] = 1;
    for (size_t count = 0; count <= 20; count++) {
        static uint8_t image[BJORKNEVE_LARGEST_IMAGE];
        uint64_t lengths[20];
        for (size_t i = 0; i < 20; i++) lengths[i] = sizes[i];
        const BjorkneveFilled built = bjorkneve_build(kinds, count, lengths, count, bodies, count, image, sizeof image);
        const BjorkneveFilled by_sizes = bjorkneve_build_of_sizes(kinds, sizes, count, bodies, count, dirty(), sizeof image);
        expect(by_sizes.number == built.number && by_sizes.detail == built.detail && by_sizes.length == built.length, "an answer by sizes");
        expect(memcmp(buffer, image, sizeof image) == 0, "an image by sizes");
        expect((built.number == 0) == (1 <= count && count <= 16), "1 to 16 sections");
    }
    expect(bjorkneve_build_of_sizes(NULL, NULL, 0, NULL, 0, NULL, 0).number == 18, "an image of no sizes");
}

/* A reading of the trimmed example, built anew with this unit, this lowest pressure and this highest temperature. */
static BjorkneveAnswer trimmed(const uint8_t *image, uint64_t length, uint8_t unit, uint16_t pmin, uint8_t tmax) {
    static uint8_t bodies[BJORKNEVE_LARGEST_IMAGE], anew[BJORKNEVE_LARGEST_IMAGE];
    const uint32_t kinds[] = {1, 2, 3, 4};
    const BjorkneveCounts counts = {
        .pressure = {.sensor = {10000}, .reference = {2847876}},
        .temperature = {.sensor = {10000}, .reference = {1352875}},
    };
    uint64_t lengths[4], all = 0, trim = 0;
    for (size_t i = 0; i < 4; i++) {
        const BjorknevePlace place = bjorkneve_find(image, length, kinds[i]);
        memcpy(bodies + all, image + place.offset, place.length);
        trim = all;
        all += lengths[i] = place.length;
    }
    bodies[12] = tmax;
    bodies[16] = pmin & 255;
    bodies[17] = (uint8_t)(pmin >> 8);
    bodies[trim] = unit;
    const BjorkneveFilled built = bjorkneve_build(kinds, 4, lengths, 4, bodies, all, anew, sizeof anew);
    expect(built.number == 0, "the example built anew");
    return bjorkneve_reading(anew, built.length, BJORKNEVE_LEVEL_2, counts);
}

/* The names of units, and the mark's bits: 2,989 psi and 60 degrees. */
static void readings(const uint8_t *image, uint64_t length) {
    static const struct { uint8_t unit; uint16_t pmin; uint8_t tmax, mark; } cases[] = {
        {BJORKNEVE_UNIT_PSI, 2989, 61, 0},
        {BJORKNEVE_UNIT_BAR, 2989, 60, BJORKNEVE_MARK_TEMPERATURE},
        {BJORKNEVE_UNIT_KPA, 2990, 61, BJORKNEVE_MARK_PRESSURE},
        {BJORKNEVE_UNIT_KPA, 2990, 60, BJORKNEVE_MARK_PRESSURE | BJORKNEVE_MARK_TEMPERATURE},
    };
    for (size_t i = 0; i < sizeof cases / sizeof cases[0]; i++) {
        const BjorkneveAnswer answer = trimmed(image, length, cases[i].unit, cases[i].pmin, cases[i].tmax);
        expect(answer.number == 0 && answer.unit == cases[i].unit && answer.mark == cases[i].mark, "unit and mark");
    }
    expect(trimmed(image, length, BJORKNEVE_UNIT_PSI - 1, 12, 175).number == BJORKNEVE_REFUSED_TRIM, "no unit below the first");
    expect(trimmed(image, length, BJORKNEVE_UNIT_KPA + 1, 12, 175).number == BJORKNEVE_REFUSED_TRIM, "no unit above the last");
}

static int stands(BjorknevePanel panel, uint32_t number, uint64_t detail, uint8_t level) {
    const BjorkneveStatus status = bjorkneve_panel_status(panel);
    return status.number == number && status.detail == detail && status.length == 0 && !status.lamp && status.level == level;
}

static int same(BjorknevePanel one, BjorknevePanel other) {
    return one.lines_or_detail == other.lines_or_detail && one.size_or_number == other.size_or_number && one.level == other.level &&
           one.stage == other.stage && one.first == other.first;
}

static int nameless(BjorkneveGauge gauge, uint32_t number) {
    return gauge.number == number && gauge.detail == 0 && gauge.serial == 0 && gauge.year == 0 && gauge.month == 0 && gauge.day == 0;
}

/* No image in it, and neither a reading nor a gauge by it. */
static int dark(BjorknevePanel panel, uint32_t number) {
    const BjorkneveCounts none = {0};
    return !bjorkneve_panel_status(panel).lamp && withheld(bjorkneve_panel_reading(panel, buffer, 4096, none), number) &&
           nameless(bjorkneve_panel_gauge(panel, buffer, 4096), number) &&
           withheld(bjorkneve_panel_reading(panel, NULL, 0, none), number) && nameless(bjorkneve_panel_gauge(panel, NULL, 0), number);
}

/* Power-on with nothing kept, with bytes that are no image, and at levels that there are not, of which 255 is the last one kept. */
static void power_on(void) {
    static const size_t sizes[] = {0, 1, BJORKNEVE_LARGEST_IMAGE};
    static const struct { uint32_t level; uint8_t kept; } levels[] = {{0, 0}, {3, 3}, {255, 255}, {256, 0}, {257, 0}, {UINT32_MAX, 0}};
    expect(stands(bjorkneve_panel_power_on(2, NULL, 0, 0), 5, 0, 2), "power-on without memory");
    expect(stands(bjorkneve_panel_power_on(1, NULL, 0, UINT64_MAX), 5, 0, 1), "power-on with a size and no memory");
    for (size_t i = 0; i < 3; i++)
        for (size_t j = 0; j < 3; j++) {
            const BjorknevePanel panel = bjorkneve_panel_power_on(2, dirty(), sizes[i], sizes[j]);
            expect(stands(panel, 5, 0, 2) && cleared(sizes[i]) && dark(panel, 5), "power-on with no image in memory");
        }
    for (size_t i = 0; i < sizeof levels / sizeof levels[0]; i++) {
        const BjorknevePanel panel = bjorkneve_panel_power_on(levels[i].level, dirty(), 4096, 4096);
        expect(stands(panel, 20, 0, levels[i].kept) && cleared(4096) && dark(panel, 20), "power-on at a level that there is not");
    }
}

/* Panels that no call gave: of zeros, of 0xFF bytes, and of every stage, with a size and a number of lines that no load comes to. */
static void made_up(const uint8_t *text, size_t length) {
    static const uint8_t data[] = ":020000005101AC\n";
    BjorknevePanel zeros, ones;
    memset(&zeros, 0, sizeof zeros);
    memset(&ones, 0xff, sizeof ones);
    expect(stands(zeros, 5, 0, 0) && dark(zeros, 20), "a panel of zeros");
    expect(stands(bjorkneve_panel_load(zeros, text, length, dirty(), 4096), 20, 0, 0) && cleared(4096), "a load of a panel of zeros");
    expect(stands(bjorkneve_panel_begin(zeros, dirty(), 4096), 0, 0, 0) && cleared(4096), "a panel of zeros that begins");
    expect(stands(ones, UINT32_MAX, UINT64_MAX, 255) && dark(ones, 20), "a panel of 0xFF bytes");
    expect(stands(bjorkneve_panel_load(ones, text, length, dirty(), 4096), 20, 0, 255) && cleared(4096), "a load of a panel of 0xFF bytes");
    for (unsigned stage = 0; stage < 256; stage++) {
        const BjorknevePanel panel = {.lines_or_detail = UINT64_MAX, .size_or_number = UINT32_MAX, .level = 2, .stage = (uint8_t)stage, .first = 0x51};
        const BjorkneveStatus status = bjorkneve_panel_status(panel);
        const BjorkneveCounts none = {0};
        const int under_way = stage == 1 || stage == 2, lit = stage == 3;
        expect(status.lamp == lit && status.length == (lit ? UINT32_MAX : 0) && status.level == 2, "the lamp of a stage");
        expect(status.number == (under_way || lit ? 0 : UINT32_MAX), "the number of a stage");
        expect(withheld(bjorkneve_panel_reading(panel, dirty(), 4096, none), 5), "a reading of a stage");
        expect(nameless(bjorkneve_panel_gauge(panel, buffer, 4096), 5), "the gauge of a stage");
        const BjorknevePanel ended = bjorkneve_panel_end(panel, dirty(), 4096);
        const BjorknevePanel lined = bjorkneve_panel_line(panel, data, sizeof data - 1, buffer, 4096);
        if (!under_way) {
            expect(same(ended, panel) && same(lined, panel) && cleared(0), "a line and an end where no text is under way");
            continue;
        }
        expect(stands(ended, stage == 1 ? 1 : 6, 0, 2) && cleared(4096), "an end at a place that no load comes to");
        expect(stands(bjorkneve_panel_line(panel, data, sizeof data - 1, dirty(), 4096), stage == 1 ? 3 : 1, 0, 2) && cleared(4096),
               "a line at a place that no load comes to");
        expect(stands(bjorkneve_panel_line(panel, NULL, 0, dirty(), 1), 1, 0, 2) && cleared(1), "no line");
        expect(stands(bjorkneve_panel_end(panel, NULL, 0), stage == 1 ? 1 : 5, 0, 2), "an end without memory");
    }
}

/* Loads by lines at their edges, and the longest line on both sides. */
static void lines(void) {
    static const uint8_t end[] = ":00000001FF\n", data[] = ":020000005101AC\n";
    static uint8_t longest[BJORKNEVE_LONGEST_LINE + 2];
    const BjorknevePanel panel = bjorkneve_panel_begin(bjorkneve_panel_power_on(2, NULL, 0, 0), dirty(), 4096);
    expect(stands(panel, 0, 0, 2) && cleared(4096) && dark(panel, 5), "a text that begins");
    expect(stands(bjorkneve_panel_end(panel, dirty(), 4096), 1, 1, 2) && cleared(4096), "a text without a line");
    expect(stands(bjorkneve_panel_load(panel, NULL, 0, dirty(), 4096), 1, 1, 2) && cleared(4096), "a whole text without a line");
    expect(stands(bjorkneve_panel_load(panel, NULL, 0, NULL, 0), 1, 1, 2), "no text, no image");
    expect(stands(bjorkneve_panel_line(panel, NULL, 0, dirty(), 4096), 1, 1, 2) && cleared(4096), "no line at all");
    expect(stands(bjorkneve_panel_line(panel, end, sizeof end - 2, dirty(), 4096), 1, 1, 2) && cleared(4096), "a line without its end");
    expect(stands(bjorkneve_panel_line(panel, data, sizeof data - 1, dirty(), 1), 4, 1, 2) && cleared(1), "a line without room");
    expect(stands(bjorkneve_panel_line(panel, data, sizeof data - 1, NULL, 0), 4, 1, 2), "a line without memory");
    const BjorknevePanel ended = bjorkneve_panel_line(bjorkneve_panel_begin(panel, NULL, 0), end, sizeof end - 1, NULL, 0);
    expect(stands(ended, 0, 0, 2) && stands(bjorkneve_panel_end(ended, NULL, 0), 5, 0, 2), "an empty image needs no room");
    expect(stands(bjorkneve_panel_line(ended, end, sizeof end - 1, dirty(), 4096), 1, 2, 2) && cleared(4096), "a line after the end record");

    /* 255 bytes 0xFF: with the count, the sum is 256 times 255 */
    memset(longest, 'F', sizeof longest);
    memcpy(longest, ":FF000000", 9);
    memcpy(longest + 519, "00\r\n", 4);
    (void)dirty();
    const BjorknevePanel taken = bjorkneve_panel_line(bjorkneve_panel_begin(panel, buffer, 4096), longest, BJORKNEVE_LONGEST_LINE, buffer, 4096);
    expect(stands(taken, 0, 0, 2) && taken.size_or_number == 255 && buffer[0] == 0 && buffer[254] == 0xff && buffer[255] == 0, "the longest line");
    for (size_t more = 1; more <= 2; more++) {
        memcpy(longest + 519 + more, "00\r\n", 4);
        expect(stands(bjorkneve_panel_line(panel, longest, BJORKNEVE_LONGEST_LINE + more, dirty(), 4096), 1, 1, 2) && cleared(4096),
               "a line that is longer");
    }
}

int main(int count, char **words) {
    static const uint8_t end[] = ":00000001FF\n", two[] = ":020000005101AC\n:00000001FF\n", image[] = {0x51, 0x01};
    const uint32_t kinds[] = {200, 201};
    const uint64_t lengths[] = {2, 0};
    const BjorkneveChannel channel = {.sensor = {1}, .reference = {720}};
    const BjorkneveCounts counts = {.pressure = channel, .temperature = channel}, none = {0};

    expect(bjorkneve_read(NULL, 0, NULL, 0).number == 1, "no text, no image");
    expect(bjorkneve_read(end, sizeof end - 1, NULL, 0).number == 0, "an empty image needs no room");
    expect(refused(bjorkneve_read(NULL, 0, dirty(), 4096), 1, 1, 4096), "no text");
    expect(refused(bjorkneve_read(two, sizeof two - 1, dirty(), 1), 4, 1, 1), "no room for two bytes");
    expect(bjorkneve_write(NULL, 0, NULL, 0).number == 17, "no room for the end of a text");
    expect(refused(bjorkneve_write(image, 2, dirty(), 27), 17, 0, 27), "no room for 28 characters");
    BjorkneveFilled written = bjorkneve_write(image, 2, dirty(), 28);
    expect(written.number == 0 && written.length == 28 && memcmp(buffer, two, 28) == 0, "28 characters");
    expect(refused(bjorkneve_load(two, sizeof two - 1, 1, dirty(), 4096), 6, 0, 4096), "a good text of an ill-laid image");
    expect(refused(bjorkneve_load(two, sizeof two - 1, 257, dirty(), 4096), 20, 0, 4096), "level 257 is not level 1");
    expect(bjorkneve_layout(NULL, 0).number == 5, "the layout of nothing");
    expect(bjorkneve_verdict(NULL, 0, 1).number == 5, "the verdict on nothing");
    expect(bjorkneve_verdict(NULL, 0, 0).number == 20, "level 0");
    expect(!bjorkneve_find(NULL, 0, 1).there, "a kind in nothing");
    expect(withheld(bjorkneve_reading(NULL, 0, 1, counts), 5), "a reading from nothing");
    expect(withheld(bjorkneve_reading(image, 2, 257, none), 20), "a reading at level 257");
    expect(bjorkneve_build(NULL, 0, NULL, 0, NULL, 0, NULL, 0).number == 18, "an image of nothing");
    expect(refused(bjorkneve_build(kinds, 2, lengths, 1, image, 2, dirty(), 4096), 18, 0, 4096), "a kind without a length");
    expect(refused(bjorkneve_build(kinds, 2, lengths, 2, image, 1, dirty(), 4096), 19, 0, 4096), "a body too short");
    expect(refused(bjorkneve_build(kinds, 2, lengths, 2, image, 2, dirty(), 19), 17, 0, 19), "no room for 20 bytes");
    BjorkneveFilled built = bjorkneve_build(kinds, 2, lengths, 2, image, 2, dirty(), 20);
    expect(built.number == 0 && built.length == 20 && bjorkneve_layout(buffer, 20).number == 0, "an image of two sections");
    BjorknevePlace place = bjorkneve_find(buffer, 20, 201);
    expect(place.there && place.offset == 20 && place.length == 0, "an empty body is there");
    expect(!bjorkneve_find(buffer, 20, 456).there, "kind 456 is not kind 200");

    sizes();
    limits();
    FILE *file = count == 2 ? fopen(words[1], "rb") : NULL;
    if (!file) return 2;
    static uint8_t text[BJORKNEVE_LONGEST_SHOWN_TEXT], example[BJORKNEVE_LARGEST_IMAGE];
    const size_t length = fread(text, 1, sizeof text, file);
    fclose(file);
    power_on();
    made_up(text, length);
    lines();
    readings(example, bjorkneve_load(text, length, BJORKNEVE_LEVEL_2, example, sizeof example).length);
    if (!failed) printf("calls: %d answers are as they should be\n", asked);
    return failed;
}
