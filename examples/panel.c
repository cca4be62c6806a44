/* A panel in small: loads a HEX text at level 2 and takes one reading, or says why there is none. */
#include "bjorkneve.h"
#include <inttypes.h>
#include <stdio.h>

static uint8_t text[BJORKNEVE_LONGEST_SHOWN_TEXT + 1]; /* one byte more than a text may have */
static uint8_t image[BJORKNEVE_LARGEST_IMAGE];

static int refused(uint32_t number, uint64_t detail) {
    printf("refused %" PRIu32 " %" PRIu64 "\n", number, detail);
    return 0;
}

int main(int count, char **words) {
    static const char *const units[] = {[BJORKNEVE_UNIT_PSI] = "psi", [BJORKNEVE_UNIT_BAR] = "bar", [BJORKNEVE_UNIT_KPA] = "kPa"};
    FILE *file = count == 2 ? fopen(words[1], "rb") : NULL;
    size_t length = file == NULL ? 0 : fread(text, 1, sizeof text, file);
    if (file == NULL || ferror(file)) {
        fprintf(stderr, "panel: cannot read a HEX text; usage: panel FILE\n");
        return 2;
    }
    fclose(file);
    if (length == sizeof text)
        return refused(BJORKNEVE_REFUSED_TOO_LARGE, 0);

    BjorkneveFilled loaded = bjorkneve_load(text, length, BJORKNEVE_LEVEL_2, image, sizeof image);
    if (loaded.number != 0)
        return refused(loaded.number, loaded.detail);

    /* 10,000 cycles of each sensor: 25,282 Hz and 53,220 Hz */
    const BjorkneveCounts counts = {
        .pressure = {.sensor = {10000}, .reference = {2847876}},
        .temperature = {.sensor = {10000}, .reference = {1352875}},
    };
    BjorkneveAnswer answer = bjorkneve_reading(image, loaded.length, BJORKNEVE_LEVEL_2, counts);
    if (answer.number != 0)
        return refused(answer.number, answer.detail);
    printf("pressure %.3f %s temperature %.3f C mark %d\n", (double)answer.pressure / 65536, units[answer.unit],
           (double)answer.temperature / 65536, answer.mark);
    return 0;
}
