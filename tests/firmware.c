/* What the panel of examples/firmware has to answer, by this machine's library and not by the panel's calls: of the text on standard input
 * the answer to its end, to the reading of the four counts on the command line, and to a question. */
#include "bjorkneve.h"
#include <inttypes.h>
#include <stdio.h>
#include <stdlib.h>

int main(int count, char **words) {
    static uint8_t text[BJORKNEVE_LONGEST_SHOWN_TEXT], image[BJORKNEVE_LARGEST_IMAGE];
    static const char *const units[] = {[BJORKNEVE_UNIT_PSI] = "psi", [BJORKNEVE_UNIT_BAR] = "bar", [BJORKNEVE_UNIT_KPA] = "kPa"};
    if (count != 5) return 2;
    const BjorkneveCounts counts = {
        .pressure = {.sensor = {strtoull(words[1], NULL, 10)}, .reference = {strtoull(words[2], NULL, 10)}},
        .temperature = {.sensor = {strtoull(words[3], NULL, 10)}, .reference = {strtoull(words[4], NULL, 10)}},
    };
    const size_t length = fread(text, 1, sizeof text, stdin);
    const BjorkneveFilled loaded = bjorkneve_load(text, length, BJORKNEVE_LEVEL_2, image, sizeof image);
    if (loaded.number == 0) printf("accepted %" PRIu64 "\n", loaded.length);
    else printf("refused %" PRIu32 " %" PRIu64 "\n", loaded.number, loaded.detail);
    const BjorkneveAnswer answer = bjorkneve_reading(image, loaded.length, BJORKNEVE_LEVEL_2, counts);
    if (answer.number == 0) {
        printf("pressure %" PRId64 " %s temperature %" PRId64 " mark %d\n", answer.pressure, units[answer.unit], answer.temperature, answer.mark);
    } else {
        printf("refused %" PRIu32 " %" PRIu64 "\n", answer.number, answer.detail);
    }
    const uint8_t *const identity = image + bjorkneve_find(image, loaded.length, 1).offset;
    if (loaded.number != 0) printf("level 2 refused %" PRIu32 " %" PRIu64 "\n", loaded.number, loaded.detail);
    else
        printf("level 2 serial %" PRIu32 " date %d-%02d-%02d\n", identity[0] | identity[1] << 8 | identity[2] << 16 | (uint32_t)identity[3] << 24,
               identity[4] | identity[5] << 8, identity[6], identity[7]);
    return 0;
}
