/* How much stack each call takes, on a painted stack of its own. None may take more than the 1.2 KiB that README names. */
#define _GNU_SOURCE
#include "bjorkneve.h"
#include <pthread.h>
#include <stdio.h>
#include <string.h>
#include <sys/mman.h>

enum { ROOM = 1 << 20, PAINT = 0xc3, MOST = 1228 };

static uint8_t image[BJORKNEVE_LARGEST_IMAGE], other[BJORKNEVE_LARGEST_IMAGE];
static uint8_t text[BJORKNEVE_LONGEST_SHOWN_TEXT], written[BJORKNEVE_LONGEST_WRITTEN_TEXT];
static uint64_t image_length, text_length;
static const uint32_t kinds[] = {1, 2};
static const uint64_t lengths[] = {100, 100};
static const BjorkneveCounts counts = {
    .pressure = {.sensor = {10000}, .reference = {1800000}},
    .temperature = {.sensor = {10000}, .reference = {1250000}},
};
/* A panel with the image, one at the first line of the text, and one at its end, with the image as a text under way has it. */
static BjorknevePanel lit, begun, read;
static uint8_t kept[BJORKNEVE_LARGEST_IMAGE], under_way[BJORKNEVE_LARGEST_IMAGE];
static uint64_t line_length;
static volatile uint32_t seen;
static unsigned char *stack;
static size_t deepest;

/* From the caller's frame down to the lowest byte that is no longer painted. */
static void look(void *frame) {
    size_t low = 0;
    while (stack[low] == PAINT) low++;
    deepest = (size_t)((unsigned char *)frame - (stack + low));
}

#define CALL(name, call) \
    static void *name(void *nothing) { \
        seen = call; \
        look(__builtin_frame_address(0)); \
        return nothing; \
    }
CALL(nothing, 0)
CALL(load, bjorkneve_load(text, text_length, 2, other, sizeof other).number)
CALL(read_text, bjorkneve_read(text, text_length, other, sizeof other).number)
CALL(write_text, bjorkneve_write(image, image_length, written, sizeof written).number)
CALL(layout, bjorkneve_layout(image, image_length).number)
CALL(verdict, bjorkneve_verdict(image, image_length, 2).number)
CALL(find, bjorkneve_find(image, image_length, 3).there)
CALL(reading, bjorkneve_reading(image, image_length, 2, counts).number)
CALL(build, bjorkneve_build(kinds, 2, lengths, 2, image, 200, other, sizeof other).number)
CALL(power_on, bjorkneve_panel_power_on(2, kept, sizeof kept, image_length).size_or_number)
CALL(panel_load, bjorkneve_panel_load(lit, text, text_length, other, sizeof other).size_or_number)
CALL(begin, bjorkneve_panel_begin(lit, other, sizeof other).size_or_number)
CALL(line, bjorkneve_panel_line(begun, text, line_length, other, sizeof other).size_or_number)
CALL(end, bjorkneve_panel_end(read, under_way, sizeof under_way).size_or_number)
CALL(status, bjorkneve_panel_status(lit).number)
CALL(panel_reading, bjorkneve_panel_reading(lit, image, sizeof image, counts).number)
CALL(gauge, bjorkneve_panel_gauge(lit, image, sizeof image).serial)

/* The panels that the calls take, of the text and its image. */
static int prepared(void) {
    memcpy(kept, image, sizeof image);
    lit = bjorkneve_panel_power_on(2, kept, sizeof kept, image_length);
    read = begun = bjorkneve_panel_begin(lit, under_way, sizeof under_way);
    for (uint64_t at = 0, length; at < text_length; at += length) {
        length = (uint64_t)((uint8_t *)memchr(text + at, '\n', text_length - at) - (text + at)) + 1;
        if (at == 0) line_length = length;
        read = bjorkneve_panel_line(read, text + at, length, under_way, sizeof under_way);
    }
    return bjorkneve_panel_status(lit).lamp && bjorkneve_panel_status(bjorkneve_panel_end(read, under_way, sizeof under_way)).lamp;
}

static size_t taken(void *(*call)(void *)) {
    pthread_attr_t attributes;
    pthread_t thread;
    stack = mmap(NULL, ROOM, PROT_READ | PROT_WRITE, MAP_PRIVATE | MAP_ANONYMOUS, -1, 0);
    memset(stack, PAINT, ROOM);
    pthread_attr_init(&attributes);
    pthread_attr_setstack(&attributes, stack, ROOM);
    pthread_create(&thread, &attributes, call, NULL);
    pthread_join(thread, NULL);
    munmap(stack, ROOM);
    return deepest;
}

int main(int count, char **words) {
    FILE *file = count == 2 ? fopen(words[1], "rb") : NULL;
    if (!file) return 2;
    text_length = fread(text, 1, sizeof text, file);
    fclose(file);
    image_length = bjorkneve_load(text, text_length, 2, image, sizeof image).length;
    if (image_length == 0 || !prepared()) return 2;
    static const struct { const char *name; void *(*call)(void *); } calls[] = {
        {"read", read_text}, {"write", write_text}, {"load", load}, {"layout", layout}, {"verdict", verdict},
        {"find", find}, {"build", build}, {"reading", reading},
        {"panel_power_on", power_on}, {"panel_load", panel_load}, {"panel_begin", begin}, {"panel_line", line}, {"panel_end", end},
        {"panel_status", status}, {"panel_reading", panel_reading}, {"panel_gauge", gauge},
    };
    const size_t base = taken(nothing);
    int failed = 0;
    for (size_t i = 0; i < sizeof calls / sizeof calls[0]; i++) {
        /* less than the look itself takes is not seen */
        const size_t all = taken(calls[i].call), bytes = all < base ? 0 : all - base;
        printf("%-14s %6zu bytes of stack\n", calls[i].name, bytes);
        if (MOST < bytes) failed = 1;
    }
    return failed;
}
