/* A readout panel. Lines come over the UART; each gets one line for an answer, and where the lamp changes one more before it. README.md has
 * the commands. Whatever is no command is a line of the text, so that a damaged line of a text is judged, and refused, as one. */
#include "bjorkneve.h"
#include "board.h"
#include "machine.h"
#include "page.h"
#include "uart.h"
#include "words.h"

enum { LEVEL = BJORKNEVE_LEVEL_2 };

static BjorknevePanel panel;
static uint8_t image[BJORKNEVE_LARGEST_IMAGE];
static uint8_t line[BJORKNEVE_LONGEST_LINE];

static void show_lamp(void) {
    const uint8_t lamp = bjorkneve_panel_status(panel).lamp ? 1 : 0;
    if (*LAMP == lamp) return;
    *LAMP = lamp;
    put_text(lamp == 1 ? "lamp green\n" : "lamp out\n");
}

static void say_refused(uint32_t number, uint64_t detail) {
    put_text("refused ");
    put_number(number);
    put_text(" ");
    put_number(detail);
    put_text("\n");
}

/* What the page holds is judged again, at boot and after it was written. */
static void wake(void) {
    const uint32_t length = page_recall(image);
    panel = bjorkneve_panel_power_on(LEVEL, image, sizeof image, length);
    show_lamp();
}

/* The page first: a load that began and was not accepted leaves nothing that a later boot could read by. */
static void begin(void) {
    page_invalidate();
    panel = bjorkneve_panel_begin(panel, image, sizeof image);
    show_lamp();
    put_text("begun\n");
}

static void take_text(uint32_t length) {
    const BjorkneveStatus before = bjorkneve_panel_status(panel);
    panel = bjorkneve_panel_line(panel, line, length, image, sizeof image);
    const BjorkneveStatus status = bjorkneve_panel_status(panel);
    if (before.lamp) put_text("no load\n");
    else if (status.number != 0) say_refused(status.number, status.detail);
    else put_text("taken\n");
}

/* The image is kept before the lamp is green, and taken from the page: a page that was not written well gives no reading. */
static void end_load(void) {
    const bool was_lit = bjorkneve_panel_status(panel).lamp;
    panel = bjorkneve_panel_end(panel, image, sizeof image);
    const BjorkneveStatus ended = bjorkneve_panel_status(panel);
    if (ended.lamp && !was_lit) {
        page_keep(image, (uint32_t)ended.length);
        wake();
    }
    const BjorkneveStatus status = bjorkneve_panel_status(panel);
    if (!status.lamp) {
        say_refused(status.number, status.detail);
        return;
    }
    put_text("accepted ");
    put_number(status.length);
    put_text("\n");
}

static void take_reading(BjorkneveCounts counts) {
    static const char *const units[] = {[BJORKNEVE_UNIT_PSI] = " psi", [BJORKNEVE_UNIT_BAR] = " bar", [BJORKNEVE_UNIT_KPA] = " kPa"};
    const BjorkneveAnswer answer = bjorkneve_panel_reading(panel, image, sizeof image, counts);
    if (answer.number != 0) {
        say_refused(answer.number, answer.detail);
        return;
    }
    put_text("pressure ");
    put_signed(answer.pressure);
    put_text(units[answer.unit]);
    put_text(" temperature ");
    put_signed(answer.temperature);
    put_text(" mark ");
    put_number(answer.mark);
    put_text("\n");
}

static void say_gauge(void) {
    const BjorkneveStatus status = bjorkneve_panel_status(panel);
    const BjorkneveGauge gauge = bjorkneve_panel_gauge(panel, image, sizeof image);
    put_text("level ");
    put_number(status.level);
    put_text(" ");
    if (!status.lamp && status.number == 0) {
        put_text("loading\n");
    } else if (!status.lamp) {
        say_refused(status.number, status.detail);
    } else if (gauge.number != 0) {
        say_refused(gauge.number, gauge.detail);
    } else {
        put_text("serial ");
        put_number(gauge.serial);
        put_text(" date ");
        put_number(gauge.year);
        put_text(gauge.month < 10 ? "-0" : "-");
        put_number(gauge.month);
        put_text(gauge.day < 10 ? "-0" : "-");
        put_number(gauge.day);
        put_text("\n");
    }
}

/* `R` with four counts. */
static bool is_reading(const uint8_t *end, BjorkneveCounts *counts) {
    const uint8_t *words = line + 1;
    return line[0] == 'R' && take_number(&words, end, &counts->pressure.sensor.cycles) &&
           take_number(&words, end, &counts->pressure.reference.cycles) && take_number(&words, end, &counts->temperature.sensor.cycles) &&
           take_number(&words, end, &counts->temperature.reference.cycles) && words == end;
}

static void obey(uint32_t length) {
    BjorkneveCounts counts;
    uint32_t bare = length;
    if (bare > 0 && line[bare - 1] == '\n') bare--;
    if (bare > 0 && line[bare - 1] == '\r') bare--;
    if (bare == 1 && line[0] == 'L') begin();
    else if (bare == 1 && line[0] == 'E') end_load();
    else if (bare == 1 && line[0] == 'Q') say_gauge();
    else if (is_reading(line + bare, &counts)) take_reading(counts);
    else take_text(length);
}

/* A line with its LF. Of one that is longer than any good one the first part, which has none, and so is refused; the rest is passed over. */
static uint32_t gather(void) {
    uint32_t length = 0;
    uint8_t byte;
    do {
        byte = uart_take();
        if (length < sizeof line) line[length++] = byte;
    } while (byte != '\n');
    return length;
}

int main(void) {
    *LAMP = 0;
    uart_start();
    wake();
    put_text("boot ");
    say_gauge();
    for (;;) obey(gather());
}
