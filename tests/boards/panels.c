/* A panel whose history goes through all cases: power cycles, loads whole and by lines, texts that are left before their end, readings and
 * the gauge; and panels that were made up. What must hold of every history is tested here; the rest goes into the digest. */
#include "panels.h"
#include "inputs.h"
#include "met.h"
#include "random.h"

/* Few images are longer than this, and zeros after them take time. */
enum { ROOM = BJORKNEVE_LARGEST_IMAGE, USUAL_LENGTH = 700 };
static BjorknevePanel panel;
static uint8_t held[ROOM + GUARD], other[ROOM + GUARD];
static uint32_t room;

static void fold_panel(BjorknevePanel folded) {
    fold(folded.lines_or_detail);
    fold(folded.size_or_number);
    fold((uint32_t)folded.level << 16 | (uint32_t)folded.stage << 8 | folded.first);
    fold_lent(held, room);
}

static int same(BjorknevePanel one, BjorknevePanel another) {
    return one.lines_or_detail == another.lines_or_detail && one.size_or_number == another.size_or_number && one.level == another.level &&
           one.stage == another.stage && one.first == another.first;
}

static int under_way(BjorkneveStatus status) { return status.number == 0 && !status.lamp; }

/* What the panel's status tells after this call. */
static void told(enum call call) {
    LOOKED_AT(PANEL_STATUS, const BjorkneveStatus status = bjorkneve_panel_status(panel));
    count(call, status.number, status.detail);
    count(PANEL_STATUS, status.number, status.detail);
    fold(status.length);
    fold((uint32_t)status.lamp << 8 | status.level);
    fold_panel(panel);
    must(status.lamp == (status.length != 0), "a lamp without an image, or an image without a lamp");
}

static void power_cycle(const uint8_t *image, uint32_t length) {
    const uint32_t level = some_level();
    room = some_room(length < USUAL_LENGTH ? USUAL_LENGTH : length, ROOM);
    lend(held, room);
    for (uint32_t i = 0; i < length && i < room; i++) held[i] = image[i];
    const uint64_t size = one_in(8) ? random_up_to(UINT64_MAX) : length;
    LOOKED_AT(PANEL_POWER_ON, panel = bjorkneve_panel_power_on(level, held, room, size));
    told(PANEL_POWER_ON);
}

static void load_whole(const uint8_t *text, uint32_t length) {
    LOOKED_AT(PANEL_LOAD, panel = bjorkneve_panel_load(panel, text, length, held, room));
    told(PANEL_LOAD);
}

/* After a fault, and where no text is under way, nothing changes. */
static void take_line(const uint8_t *line, uint32_t length) {
    const BjorknevePanel before = panel;
    const int was_under_way = under_way(bjorkneve_panel_status(before));
    LOOKED_AT(PANEL_LINE, panel = bjorkneve_panel_line(panel, line, length, held, room));
    const BjorkneveStatus status = bjorkneve_panel_status(panel);
    if (!was_under_way) {
        must(same(before, panel), "a line that changes a panel whose text is not under way");
        return;
    }
    count(PANEL_LINE, status.number, status.detail);
    must(!status.lamp, "a lamp that a line turns green");
    must(length <= BJORKNEVE_LONGEST_LINE || status.number != 0, "a line that is too long and good");
}

static void end_text(void) {
    const BjorknevePanel before = panel;
    const int was_under_way = under_way(bjorkneve_panel_status(before));
    LOOKED_AT(PANEL_END, panel = bjorkneve_panel_end(panel, held, room));
    if (was_under_way) told(PANEL_END);
    else must(same(before, panel), "an end that changes a panel whose text is not under way");
}

/* The lines of the text one by one; now and then one comes in two parts, or nothing comes. Whether all came as they are. */
static int take_lines(const uint8_t *text, uint32_t length) {
    int as_they_are = 1;
    LOOKED_AT(PANEL_BEGIN, panel = bjorkneve_panel_begin(panel, held, room));
    told(PANEL_BEGIN);
    for (uint32_t at = 0, next; at < length; at = next) {
        next = at;
        while (next < length && text[next] != '\n') next++;
        if (next < length) next++;
        if (one_in(512)) {
            const uint32_t part = random_below(next - at);
            take_line(text + at, part);
            at += part;
            as_they_are = 0;
        }
        take_line(text + at, next - at);
    }
    return as_they_are;
}

/* What the lines came to is what the whole text comes to. */
static void compare_with_whole(const uint8_t *text, uint32_t length) {
    const BjorkneveStatus status = bjorkneve_panel_status(panel);
    lend(other, room);
    const BjorkneveFilled loaded = bjorkneve_load(text, length, status.level, other, room);
    must(status.number == loaded.number && status.detail == loaded.detail && status.length == loaded.length, "an answer by lines");
    for (uint32_t i = 0; i < room; i++)
        if (held[i] != other[i]) must(0, "an image by lines");
}

static void ask(BjorknevePanel asked) {
    const BjorkneveCounts counts = some_counts();
    const int lamp = bjorkneve_panel_status(asked).lamp;
    LOOKED_AT(PANEL_READING, const BjorkneveAnswer answer = bjorkneve_panel_reading(asked, held, room, counts));
    count(PANEL_READING, answer.number, answer.detail);
    fold_answer(answer);
    LOOKED_AT(PANEL_GAUGE, const BjorkneveGauge gauge = bjorkneve_panel_gauge(asked, held, room));
    count(PANEL_GAUGE, gauge.number, gauge.detail);
    fold(gauge.serial);
    fold((uint32_t)gauge.year << 16 | (uint32_t)gauge.month << 8 | gauge.day);
    must(lamp || (answer.number != 0 && gauge.number != 0), "a reading or a gauge without a lamp");
}

/* A panel that no call gave, over an image that no panel may have judged. The one with a history goes on from it. */
static void make_up(const uint8_t *image, uint32_t length, const uint8_t *text, uint32_t text_length) {
    power_cycle(image, length);
    lend(held, room);
    for (uint32_t i = 0; i < length && i < room; i++) held[i] = image[i];
    panel.lines_or_detail = random_up_to(UINT64_MAX);
    panel.size_or_number = one_in(8) ? random_word() : length;
    panel.level = (uint8_t)some_level();
    panel.stage = (uint8_t)(one_in(8) ? random_word() : one_in(2) ? 3 : random_below(4));
    panel.first = (uint8_t)(one_in(8) ? random_word() : 0x51);
    const BjorkneveStatus status = bjorkneve_panel_status(panel);
    fold(status.number);
    fold(status.detail);
    fold(status.length);
    fold((uint32_t)status.lamp << 8 | status.level);
    ask(panel);
    if (one_in(2)) panel = bjorkneve_panel_line(panel, text, text_length < 44 ? text_length : 44, held, room);
    fold_panel(panel);
    panel = bjorkneve_panel_end(panel, held, room);
    fold_panel(panel);
    ask(panel);
}

void go_on_with_panel(const uint8_t *image, uint32_t image_length, const uint8_t *text, uint32_t text_length) {
    if (one_in(4)) {
        make_up(image, image_length, text, text_length);
        power_cycle(image, image_length);
    } else if (one_in(4)) {
        power_cycle(image, image_length);
    }
    if (one_in(4)) ask(panel);
    if (one_in(2)) {
        load_whole(text, text_length);
    } else {
        const int as_they_are = take_lines(text, text_length);
        if (one_in(8)) ask(panel);
        if (one_in(16)) return;
        end_text();
        if (as_they_are) compare_with_whole(text, text_length);
    }
    fold_panel(panel);
    ask(panel);
}
