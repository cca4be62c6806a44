/* Bjorkneve: from the calibration images of quartz gauges to pressure and temperature. Printed by tools/header: do not edit.
 *
 * docs/FORMAT.md says what a text and an image are, and how a reading is worked out.
 *
 * Every call answers, whatever the bytes and numbers are. An answer's number is 0 on success. Any other is a refusal, which
 * docs/NUMBERS.md explains with its detail: the answer's other values are then 0, and the buffer lent for the result holds nothing
 * but zeros. On success such a buffer holds the result, as many bytes as the answer's length says, and zeros after it. That length
 * goes with the image into later calls, and not the size of its buffer. The answer of bjorkneve_find has no number, nor has a panel:
 * bjorkneve_panel_status tells what the panel's load has come to.
 *
 * The caller owns and lends all memory. Nothing is allocated, and the library keeps nothing after a call, so that calls may run at the
 * same time, each with a buffer of its own for the result. In one call the buffer for the result must not overlap another.
 *
 * What there is to know of a panel is a struct that the caller keeps: each call takes it and gives back the next one, which takes its
 * place. With it goes a buffer for the image, the same one in each call and the whole of it, which nothing else writes: the panel
 * knows the image's length. The fields are the library's own. Any bytes are a panel, and get an answer. One of zeros has no image,
 * and says so by 5; its level is 0, which is none, so that a reading, the gauge and the load of a good text are refused 20. The lamp
 * of a made-up panel may be green, and its number any; but a reading and the gauge are taken from the image that is lent, judged anew
 * at each call, and never from one that the panel's level refuses.
 *
 * A length counts the elements of its array, and has 64 bits on every machine. A null pointer with length 0 is an empty array; a null
 * pointer with any other length is not allowed. The length of a result is never above that of the buffer lent for it, so that it fits
 * in a size_t. */
#ifndef BJORKNEVE_H
#define BJORKNEVE_H

#include <stdbool.h>
#include <stddef.h>
#include <stdint.h>

#ifdef __cplusplus
extern "C" {
#endif

/* Where the compiler knows how, it warns of an answer that is dropped. */
#if defined(__GNUC__)
#define BJORKNEVE_MUST_USE __attribute__((warn_unused_result))
#elif (defined(__cplusplus) && __cplusplus >= 201703L) || (defined(__STDC_VERSION__) && __STDC_VERSION__ > 201710L)
#define BJORKNEVE_MUST_USE [[nodiscard]]
#else
#define BJORKNEVE_MUST_USE
#endif

/* What must hold of a struct where the library is called. */
#if defined(__cplusplus)
#define BJORKNEVE_ASSERT(holds) static_assert(holds, "the library has another layout of this struct")
#else
#define BJORKNEVE_ASSERT(holds) _Static_assert(holds, "the library has another layout of this struct")
#endif

/* The version of the library that this header is for. */
#define BJORKNEVE_VERSION "0.1.0"

/* Limits, levels, units, and the bits of a mark. */
enum {
    BJORKNEVE_LARGEST_IMAGE = 4096, /* bytes of the largest image */
    BJORKNEVE_LONGEST_WRITTEN_TEXT = 11276, /* bytes of the longest text that is written of an image */
    BJORKNEVE_LONGEST_LINE = 523, /* bytes of the longest line of a text that can be good, with CR and LF */
    BJORKNEVE_LONGEST_SHOWN_TEXT = 65536, /* bytes of the longest text that the show program takes */
    BJORKNEVE_LEVEL_1 = 1, /* a panel that knows identity, pressure set and temperature set */
    BJORKNEVE_LEVEL_2 = 2, /* a panel that also knows trim and note */
    BJORKNEVE_UNIT_PSI = 1, /* pressure in psi */
    BJORKNEVE_UNIT_BAR = 2, /* pressure in bar */
    BJORKNEVE_UNIT_KPA = 3, /* pressure in kPa */
    BJORKNEVE_MARK_TEMPERATURE = 1, /* the mark's bit for a temperature outside the gauge's limits */
    BJORKNEVE_MARK_PRESSURE = 2 /* the mark's bit for a pressure outside them */
};

/* Why there is no result, the number of an answer: docs/NUMBERS.md says more of each, and what its detail is. */
enum {
    BJORKNEVE_REFUSED_NOT_A_RECORD = 1, /* A line isn't a HEX record */
    BJORKNEVE_REFUSED_CHECKSUM = 2, /* A line and its checksum don't agree */
    BJORKNEVE_REFUSED_RECORD_NOT_TAKEN = 3, /* A record of a type, an address or a size that this reader doesn't take */
    BJORKNEVE_REFUSED_TOO_LARGE = 4, /* The image in the text has more than 4,096 bytes, or more than the panel has lent for it */
    BJORKNEVE_REFUSED_NOT_AN_IMAGE = 5, /* Not a calibration image */
    BJORKNEVE_REFUSED_CONTENTS_COUNT = 6, /* The number of contents lines is 0 or above 16, or they don't fit in the image */
    BJORKNEVE_REFUSED_CONTENTS_LINE = 7, /* A contents line is wrong */
    BJORKNEVE_REFUSED_BODY_SUM = 8, /* A body's bytes don't add up to the sum in its contents line */
    BJORKNEVE_REFUSED_UNKNOWN_KIND = 9, /* The image has a section that could change the reading and that a panel of this level doesn't know */
    BJORKNEVE_REFUSED_MISSING_KIND = 10, /* A section that every image must have is missing */
    BJORKNEVE_REFUSED_IDENTITY = 11, /* The identity is wrong */
    BJORKNEVE_REFUSED_PRESSURE_SET = 12, /* The pressure set is wrong */
    BJORKNEVE_REFUSED_TEMPERATURE_SET = 13, /* The temperature set is wrong */
    BJORKNEVE_REFUSED_TRIM = 15, /* The trim is wrong */
    BJORKNEVE_REFUSED_NOTE = 16, /* The note is wrong */
    BJORKNEVE_REFUSED_NO_ROOM = 17, /* The buffer for the text or the image is too short */
    BJORKNEVE_REFUSED_BUILDER_LINES = 18, /* There is no contents line or more than 16, or the kinds don't rise strictly from 1 to 255 */
    BJORKNEVE_REFUSED_BUILDER_LENGTHS = 19, /* The lengths don't add up to the bodies given, or the image would have more than 4,096 bytes */
    BJORKNEVE_REFUSED_NO_SUCH_LEVEL = 20, /* A level was asked for that there isn't */
    BJORKNEVE_REFUSED_SENSOR_CYCLES = 21, /* The number of sensor cycles is 0 or above 1,048,576 */
    BJORKNEVE_REFUSED_REFERENCE_CYCLES = 22, /* The number of reference cycles is 0 */
    BJORKNEVE_REFUSED_FREQUENCY = 23, /* The frequency lies outside 10,000 to 100,000 Hz */
    BJORKNEVE_REFUSED_FAR_FROM_CALIBRATION = 24, /* A frequency lies too far from the one at which this gauge was calibrated */
    BJORKNEVE_REFUSED_SUM_TOO_LARGE = 25, /* A sum on the way is larger than the panel works with */
    BJORKNEVE_REFUSED_RESULT_TOO_LARGE = 26 /* The pressure or the temperature is larger than can be shown */
};

/* Number 0 for yes; else why not, by the refusal's number and detail. */
typedef struct {
    uint32_t number;
    uint64_t detail;
} BjorkneveVerdict;

/* Number 0, and how many bytes of the buffer are the result; else the refusal's number and detail, and length 0. */
typedef struct {
    uint32_t number;
    uint64_t detail;
    uint64_t length;
} BjorkneveFilled;

/* Whether the kind is there, and where its body stands: its offset in the image and its length, 0 and 0 where it is not there. */
typedef struct {
    bool there;
    uint64_t offset;
    uint64_t length;
} BjorknevePlace;

/* Cycles that a gauge's sensor ran. */
typedef struct {
    uint64_t cycles;
} BjorkneveSensorCycles;

/* Cycles of the 7.2 MHz reference that were counted while the sensor ran its own. */
typedef struct {
    uint64_t cycles;
} BjorkneveReferenceCycles;

/* The counts of one sensor. They have types of their own, since a frequency is quietly wrong where they trade places. */
typedef struct {
    BjorkneveSensorCycles sensor;
    BjorkneveReferenceCycles reference;
} BjorkneveChannel;

/* The counts of both sensors. */
typedef struct {
    BjorkneveChannel pressure;
    BjorkneveChannel temperature;
} BjorkneveCounts;

/* Number 0 and a reading: pressure in 1/65,536 of the unit, temperature in 1/65,536 degrees Celsius, and the mark, the sum of
 * BJORKNEVE_MARK_TEMPERATURE where the temperature lies outside the gauge's limits and BJORKNEVE_MARK_PRESSURE where the pressure
 * does, in psi and before trim. Else the refusal's number and detail, and 0 for each value. */
typedef struct {
    uint32_t number;
    uint64_t detail;
    int64_t pressure;
    int64_t temperature;
    uint8_t unit;
    uint8_t mark;
} BjorkneveAnswer;

/* A panel. Its caller keeps it, and hands it to the next call; any bytes are a panel, and its fields are the library's own. */
typedef struct {
    /* while a text is under way, how many of its lines were good; without an image, the detail of the refusal */
    uint64_t lines_or_detail;
    /* bytes of the image; without one, the number of the refusal */
    uint32_t size_or_number;
    uint8_t level;
    uint8_t stage;
    /* the image's first byte, while a text is under way */
    uint8_t first;
} BjorknevePanel;

/* How a panel's last load stands. The lamp is green, number and detail are 0 and length has the bytes of the image; or the refusal's number
 * and detail; or all three are 0 while a text is under way. A level above 255 is kept as 0; neither is a level. */
typedef struct {
    uint32_t number;
    uint64_t detail;
    uint64_t length;
    bool lamp;
    uint8_t level;
} BjorkneveStatus;

/* Number 0, and the serial number of the gauge and the date of its calibration; else the refusal's number and detail, and 0 for each value. */
typedef struct {
    uint32_t number;
    uint64_t detail;
    uint32_t serial;
    uint16_t year;
    uint8_t month;
    uint8_t day;
} BjorkneveGauge;

/* Reads a HEX text into the image. Refused 1 to 4, with the line in the text as the detail. */
BJORKNEVE_MUST_USE BjorkneveFilled bjorkneve_read(
    const uint8_t *text, uint64_t text_length,
    uint8_t *image, uint64_t image_length);

/* Writes an image as a HEX text, which takes BJORKNEVE_LONGEST_WRITTEN_TEXT bytes for the largest image. Refused 4 or 17. */
BJORKNEVE_MUST_USE BjorkneveFilled bjorkneve_write(
    const uint8_t *image, uint64_t image_length,
    uint8_t *text, uint64_t text_length);

/* Reads a HEX text into the image and judges it as a panel of this level does. Refused as by bjorkneve_read, then as by
 * bjorkneve_verdict. */
BJORKNEVE_MUST_USE BjorkneveFilled bjorkneve_load(
    const uint8_t *text, uint64_t text_length,
    uint32_t level,
    uint8_t *image, uint64_t image_length);

/* Judges an image's layout, and not what its sections hold. Refused 5 to 8. */
BJORKNEVE_MUST_USE BjorkneveVerdict bjorkneve_layout(const uint8_t *image, uint64_t image_length);

/* Judges an image as a panel of this level does. Refused 20, then 5 to 13, 15 or 16. */
BJORKNEVE_MUST_USE BjorkneveVerdict bjorkneve_verdict(const uint8_t *image, uint64_t image_length, uint32_t level);

/* Finds the section of a kind. No kind is there in an image whose layout is refused. The body of kind 1 begins with the gauge's
 * serial number, 4 bytes, the lowest first. */
BJORKNEVE_MUST_USE BjorknevePlace bjorkneve_find(const uint8_t *image, uint64_t image_length, uint32_t kind);

/* Builds an image of sections: section i has the kind kinds[i] and a body of lengths[i] bytes, and bodies are all of them joined.
 * Refused 18, 19 or 17; 18 too where kinds and lengths are not equally many. */
BJORKNEVE_MUST_USE BjorkneveFilled bjorkneve_build(
    const uint32_t *kinds, uint64_t kinds_length,
    const uint64_t *lengths, uint64_t lengths_length,
    const uint8_t *bodies, uint64_t bodies_length,
    uint8_t *image, uint64_t image_length);

/* Takes the reading of a panel of this level, by an image that is judged anew at each call. Refused as by bjorkneve_verdict, then 21
 * to 26. */
BJORKNEVE_MUST_USE BjorkneveAnswer bjorkneve_reading(
    const uint8_t *image, uint64_t image_length,
    uint32_t level,
    BjorkneveCounts counts);

/* A panel of this level at power-on. Of the bytes in the image the first size are what was kept of an accepted image, and they are judged
 * as a loaded image is; size is 0 where nothing was kept. Where they are refused, the image is all zeros and the panel has none. */
BJORKNEVE_MUST_USE BjorknevePanel bjorkneve_panel_power_on(uint32_t level, uint8_t *image, uint64_t image_length, uint64_t size);

/* Loads a whole text, as bjorkneve_load does. */
BJORKNEVE_MUST_USE BjorknevePanel bjorkneve_panel_load(
    BjorknevePanel panel,
    const uint8_t *text, uint64_t text_length,
    uint8_t *image, uint64_t image_length);

/* Begins a load by lines: the image is all zeros from here on, and the lamp is not green before bjorkneve_panel_end accepts. Until then the
 * image's first byte is kept in the panel, so that no call takes what stands in the image for an image. */
BJORKNEVE_MUST_USE BjorknevePanel bjorkneve_panel_begin(BjorknevePanel panel, uint8_t *image, uint64_t image_length);

/* Takes one line of the text with its line end, LF or CR LF; the last line may lack it, and is then refused. After a fault the image is all
 * zeros, and further lines change nothing. A line that can be good has at most BJORKNEVE_LONGEST_LINE bytes. */
BJORKNEVE_MUST_USE BjorknevePanel bjorkneve_panel_line(
    BjorknevePanel panel,
    const uint8_t *line, uint64_t line_length,
    uint8_t *image, uint64_t image_length);

/* Ends a load by lines: the image is judged, and the panel answers what bjorkneve_load answers of the whole text. */
BJORKNEVE_MUST_USE BjorknevePanel bjorkneve_panel_end(BjorknevePanel panel, uint8_t *image, uint64_t image_length);

/* How the panel's last load stands: the lamp, and what the load answered. */
BJORKNEVE_MUST_USE BjorkneveStatus bjorkneve_panel_status(BjorknevePanel panel);

/* Takes a reading by the panel's image, which is judged anew at each call. Refused as by bjorkneve_reading; 5 where the lamp is not green,
 * or 20. */
BJORKNEVE_MUST_USE BjorkneveAnswer bjorkneve_panel_reading(
    BjorknevePanel panel,
    const uint8_t *image, uint64_t image_length,
    BjorkneveCounts counts);

/* The gauge of the panel's image, which is judged anew. Refused as by bjorkneve_verdict; 5 where the lamp is not green, or 20. */
BJORKNEVE_MUST_USE BjorkneveGauge bjorkneve_panel_gauge(BjorknevePanel panel, const uint8_t *image, uint64_t image_length);

/* The library has the same layout on every machine. Where a compiler has another one, this is refused. */
BJORKNEVE_ASSERT(sizeof(BjorkneveVerdict) == 16U);
BJORKNEVE_ASSERT(offsetof(BjorkneveVerdict, number) == 0U);
BJORKNEVE_ASSERT(offsetof(BjorkneveVerdict, detail) == 8U);
BJORKNEVE_ASSERT(sizeof(BjorkneveFilled) == 24U);
BJORKNEVE_ASSERT(offsetof(BjorkneveFilled, number) == 0U);
BJORKNEVE_ASSERT(offsetof(BjorkneveFilled, detail) == 8U);
BJORKNEVE_ASSERT(offsetof(BjorkneveFilled, length) == 16U);
BJORKNEVE_ASSERT(sizeof(BjorknevePlace) == 24U);
BJORKNEVE_ASSERT(offsetof(BjorknevePlace, there) == 0U);
BJORKNEVE_ASSERT(offsetof(BjorknevePlace, offset) == 8U);
BJORKNEVE_ASSERT(offsetof(BjorknevePlace, length) == 16U);
BJORKNEVE_ASSERT(sizeof(BjorkneveSensorCycles) == 8U);
BJORKNEVE_ASSERT(offsetof(BjorkneveSensorCycles, cycles) == 0U);
BJORKNEVE_ASSERT(sizeof(BjorkneveReferenceCycles) == 8U);
BJORKNEVE_ASSERT(offsetof(BjorkneveReferenceCycles, cycles) == 0U);
BJORKNEVE_ASSERT(sizeof(BjorkneveChannel) == 16U);
BJORKNEVE_ASSERT(offsetof(BjorkneveChannel, sensor) == 0U);
BJORKNEVE_ASSERT(offsetof(BjorkneveChannel, reference) == 8U);
BJORKNEVE_ASSERT(sizeof(BjorkneveCounts) == 32U);
BJORKNEVE_ASSERT(offsetof(BjorkneveCounts, pressure) == 0U);
BJORKNEVE_ASSERT(offsetof(BjorkneveCounts, temperature) == 16U);
BJORKNEVE_ASSERT(sizeof(BjorkneveAnswer) == 40U);
BJORKNEVE_ASSERT(offsetof(BjorkneveAnswer, number) == 0U);
BJORKNEVE_ASSERT(offsetof(BjorkneveAnswer, detail) == 8U);
BJORKNEVE_ASSERT(offsetof(BjorkneveAnswer, pressure) == 16U);
BJORKNEVE_ASSERT(offsetof(BjorkneveAnswer, temperature) == 24U);
BJORKNEVE_ASSERT(offsetof(BjorkneveAnswer, unit) == 32U);
BJORKNEVE_ASSERT(offsetof(BjorkneveAnswer, mark) == 33U);
BJORKNEVE_ASSERT(sizeof(BjorknevePanel) == 16U);
BJORKNEVE_ASSERT(offsetof(BjorknevePanel, lines_or_detail) == 0U);
BJORKNEVE_ASSERT(offsetof(BjorknevePanel, size_or_number) == 8U);
BJORKNEVE_ASSERT(offsetof(BjorknevePanel, level) == 12U);
BJORKNEVE_ASSERT(offsetof(BjorknevePanel, stage) == 13U);
BJORKNEVE_ASSERT(offsetof(BjorknevePanel, first) == 14U);
BJORKNEVE_ASSERT(sizeof(BjorkneveStatus) == 32U);
BJORKNEVE_ASSERT(offsetof(BjorkneveStatus, number) == 0U);
BJORKNEVE_ASSERT(offsetof(BjorkneveStatus, detail) == 8U);
BJORKNEVE_ASSERT(offsetof(BjorkneveStatus, length) == 16U);
BJORKNEVE_ASSERT(offsetof(BjorkneveStatus, lamp) == 24U);
BJORKNEVE_ASSERT(offsetof(BjorkneveStatus, level) == 25U);
BJORKNEVE_ASSERT(sizeof(BjorkneveGauge) == 24U);
BJORKNEVE_ASSERT(offsetof(BjorkneveGauge, number) == 0U);
BJORKNEVE_ASSERT(offsetof(BjorkneveGauge, detail) == 8U);
BJORKNEVE_ASSERT(offsetof(BjorkneveGauge, serial) == 16U);
BJORKNEVE_ASSERT(offsetof(BjorkneveGauge, year) == 20U);
BJORKNEVE_ASSERT(offsetof(BjorkneveGauge, month) == 22U);
BJORKNEVE_ASSERT(offsetof(BjorkneveGauge, day) == 23U);

/* bjorkneve_build for lengths that are kept as size_t, which has 32 bits on many a machine: section i, of count sections, has the kind
 * kinds[i] and a body of sizes[i] bytes. With more than 16 sections the first 17 are looked at, and the answer is 18 as it is for
 * all of them. */
BJORKNEVE_MUST_USE static inline BjorkneveFilled bjorkneve_build_of_sizes(
    const uint32_t *kinds, const size_t *sizes, size_t count,
    const uint8_t *bodies, size_t bodies_length,
    uint8_t *image, size_t image_length) {
    uint64_t lengths[17] = {0};
    const size_t looked_at = (count < 17U) ? count : 17U;
    for (size_t i = 0U; i < looked_at; i++) {
        lengths[i] = sizes[i];
    }
    return bjorkneve_build(kinds, looked_at, lengths, looked_at, bodies, bodies_length, image, image_length);
}

#ifdef __cplusplus
}
#endif

#endif
