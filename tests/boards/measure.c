/* What a board takes: the stack of each call in the cases that were looked at, and the instructions of a load, whole and by lines, and of
 * a reading of an example. No call may take more stack than the 1.2 KiB that README names. */
#include "measure.h"
#include "bjorkneve.h"
#include "example.h"
#include "met.h"
#include "say.h"

enum { MOST_STACK = 1228, MOST_LINES = 32 };
static _Alignas(8) uint8_t image[BJORKNEVE_LARGEST_IMAGE];

static void say_line(const char *name, uint32_t number) {
    put_text(name);
    put_text(" ");
    say_number(number);
    put_text("\n");
}

/* The example's lines one by one, between the places where they start. */
static BjorknevePanel load_by_lines(BjorknevePanel panel, const uint32_t *starts, uint32_t lines) {
    panel = bjorkneve_panel_begin(panel, image, sizeof image);
    for (uint32_t i = 0; i < lines; i++)
        panel = bjorkneve_panel_line(panel, example + starts[i], starts[i + 1] - starts[i], image, sizeof image);
    return bjorkneve_panel_end(panel, image, sizeof image);
}

static uint32_t find_lines(uint32_t *starts) {
    uint32_t lines = 0;
    starts[0] = 0;
    for (uint32_t i = 0; i < sizeof example && lines < MOST_LINES; i++)
        if (example[i] == '\n') starts[++lines] = i + 1;
    return lines;
}

int measure(void) {
    static const BjorkneveCounts counts = {
        .pressure = {.sensor = {10000}, .reference = {2847876}},
        .temperature = {.sensor = {10000}, .reference = {1352875}},
    };
    int failed = 0;
    for (enum call call = READ; call < CALLS; call++) {
        put_text("stack of ");
        say_line(call_name(call), deepest[call]);
        if (MOST_STACK < deepest[call]) failed = 1;
    }
    count_instructions();
    const uint32_t nothing = instructions();
    count_instructions();
    const BjorkneveFilled loaded = bjorkneve_load(example, sizeof example, BJORKNEVE_LEVEL_2, image, sizeof image);
    say_line("instructions of load", instructions() - nothing);
    count_instructions();
    const BjorkneveAnswer answer = bjorkneve_reading(image, loaded.length, BJORKNEVE_LEVEL_2, counts);
    say_line("instructions of reading", instructions() - nothing);
    uint32_t starts[MOST_LINES + 1];
    const uint32_t lines = find_lines(starts);
    BjorknevePanel panel = bjorkneve_panel_power_on(BJORKNEVE_LEVEL_2, NULL, 0, 0);
    count_instructions();
    panel = load_by_lines(panel, starts, lines);
    say_line("instructions of load by lines", instructions() - nothing);
    count_instructions();
    const BjorkneveAnswer shown = bjorkneve_panel_reading(panel, image, sizeof image, counts);
    say_line("instructions of panel_reading", instructions() - nothing);
    if (loaded.number != 0 || answer.number != 0 || shown.pressure != answer.pressure) failed = 1;
    return failed;
}
