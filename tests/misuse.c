/* A right use of the header, and by name wrong ones that no compiler may pass over: tests/c compiles each, as C11 and as C++17. */
#include "bjorkneve.h"

BjorkneveAnswer used(const uint8_t *image, uint64_t length, BjorkneveSensorCycles sensor, BjorkneveReferenceCycles reference);

BjorkneveAnswer used(const uint8_t *image, uint64_t length, BjorkneveSensorCycles sensor, BjorkneveReferenceCycles reference) {
#if defined EXCHANGED_WHERE_LISTED
    BjorkneveChannel channel = {reference, sensor};
#else
    BjorkneveChannel channel = {sensor, reference};
#endif
    BjorkneveCounts counts;
#if defined EXCHANGED_WHERE_ASSIGNED
    channel.sensor = reference;
#else
    channel.sensor = sensor;
#endif
    counts.pressure = channel;
    counts.temperature = channel;
#if defined ONE_CHANNEL_GIVEN
    return bjorkneve_reading(image, length, BJORKNEVE_LEVEL_2, counts.pressure);
#elif defined NUMBERS_GIVEN
    return bjorkneve_reading(image, length, BJORKNEVE_LEVEL_2, sensor.cycles);
#else
    return bjorkneve_reading(image, length, BJORKNEVE_LEVEL_2, counts);
#endif
}

#if defined DROPPED
void dropped(uint8_t *bytes, size_t size, const uint32_t *kinds, const uint64_t *lengths, const size_t *sizes, BjorkneveCounts counts);
void dropped_of_panel(BjorknevePanel panel, uint8_t *bytes, size_t size, BjorkneveCounts counts);

void dropped(uint8_t *bytes, size_t size, const uint32_t *kinds, const uint64_t *lengths, const size_t *sizes, BjorkneveCounts counts) {
    bjorkneve_read(NULL, 0, bytes, size);
    bjorkneve_write(NULL, 0, bytes, size);
    bjorkneve_load(NULL, 0, BJORKNEVE_LEVEL_2, bytes, size);
    bjorkneve_layout(bytes, size);
    bjorkneve_verdict(bytes, size, BJORKNEVE_LEVEL_2);
    bjorkneve_find(bytes, size, 1);
    bjorkneve_build(kinds, 1, lengths, 1, NULL, 0, bytes, size);
    bjorkneve_build_of_sizes(kinds, sizes, 1, NULL, 0, bytes, size);
    bjorkneve_reading(bytes, size, BJORKNEVE_LEVEL_2, counts);
}

void dropped_of_panel(BjorknevePanel panel, uint8_t *bytes, size_t size, BjorkneveCounts counts) {
    bjorkneve_panel_power_on(BJORKNEVE_LEVEL_2, bytes, size, 0);
    bjorkneve_panel_load(panel, NULL, 0, bytes, size);
    bjorkneve_panel_begin(panel, bytes, size);
    bjorkneve_panel_line(panel, NULL, 0, bytes, size);
    bjorkneve_panel_end(panel, bytes, size);
    bjorkneve_panel_status(panel);
    bjorkneve_panel_reading(panel, bytes, size, counts);
    bjorkneve_panel_gauge(panel, bytes, size);
}
#endif
