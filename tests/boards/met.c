/* What was met in the cases. Each call has to give every number that it can, 25 excepted, and no other. */
#include "met.h"
#include "say.h"

enum { NUMBERS = 27, DIRT = 0xa5 };
/* Bits from the lowest number to the highest. */
#define FROM_TO(low, high) ((((uint32_t)1 << (high)) - ((uint32_t)1 << (low))) | (uint32_t)1 << (high))
#define OF_TEXT FROM_TO(1, 4)
#define OF_IMAGE (FROM_TO(5, 13) | FROM_TO(15, 16) | FROM_TO(20, 20))
#define OF_READING (OF_IMAGE | FROM_TO(21, 24) | FROM_TO(26, 26))
static struct { const char *name; uint32_t can_give, met[NUMBERS]; } calls[CALLS] = {
    [READ] = {"read", OF_TEXT | 1, {0}},
    [WRITE] = {"write", FROM_TO(4, 4) | FROM_TO(17, 17) | 1, {0}},
    [LOAD] = {"load", OF_TEXT | OF_IMAGE | 1, {0}},
    [LAYOUT] = {"layout", FROM_TO(5, 8) | 1, {0}},
    [VERDICT] = {"verdict", OF_IMAGE | 1, {0}},
    /* not there and there */
    [FIND] = {"find", FROM_TO(0, 1), {0}},
    [BUILD] = {"build", FROM_TO(17, 19) | 1, {0}},
    [READING] = {"reading", OF_READING | 1, {0}},
    /* of a panel the number in its status, which is 0 too while a text is under way */
    [PANEL_POWER_ON] = {"panel_power_on", OF_IMAGE | 1, {0}},
    [PANEL_LOAD] = {"panel_load", OF_TEXT | OF_IMAGE | 1, {0}},
    [PANEL_BEGIN] = {"panel_begin", 1, {0}},
    [PANEL_LINE] = {"panel_line", OF_TEXT | 1, {0}},
    [PANEL_END] = {"panel_end", FROM_TO(1, 1) | OF_IMAGE | 1, {0}},
    [PANEL_STATUS] = {"panel_status", OF_TEXT | OF_IMAGE | 1, {0}},
    [PANEL_READING] = {"panel_reading", OF_READING | 1, {0}},
    [PANEL_GAUGE] = {"panel_gauge", OF_IMAGE | 1, {0}},
};
static int failed;

/* FNV-1a of 32 bits, twice, by different factors. */
static uint32_t digest[2] = {0x811c9dc5, 0x9dc5811c};

static void fold_byte(uint8_t byte) {
    digest[0] = (digest[0] ^ byte) * 16777619;
    digest[1] = (digest[1] ^ byte) * 0x01000197;
}

void fold(uint64_t number) {
    for (uint32_t i = 0; i < 8; i++) fold_byte((uint8_t)(number >> 8 * i));
}

void fold_lent(const uint8_t *buffer, uint32_t lent) {
    for (uint32_t i = 0; i < lent + GUARD; i++) fold_byte(buffer[i]);
}

void fold_answer(BjorkneveAnswer answer) {
    fold((uint64_t)answer.pressure);
    fold((uint64_t)answer.temperature);
    fold(answer.unit);
    fold(answer.mark);
}

uint8_t *lend(uint8_t *buffer, uint32_t length) {
    for (uint32_t i = 0; i < length + GUARD; i++) buffer[i] = DIRT;
    return buffer;
}

void count(enum call call, uint32_t number, uint64_t detail) {
    must(number < NUMBERS, "a number that there is not");
    if (number < NUMBERS) calls[call].met[number]++;
    fold(number);
    fold(detail);
}

void must(int holds, const char *what) {
    if (holds) return;
    failed = 1;
    put_text("WRONG ");
    put_text(what);
    put_text("\n");
}

const char *call_name(enum call call) { return calls[call].name; }

static void say_numbers(const char *name, const uint32_t *met, uint32_t can_give) {
    put_text(name);
    put_text(":");
    for (uint32_t number = 0; number < NUMBERS; number++) {
        const int can = can_give >> number & 1, was = met[number] != 0;
        if (was) {
            put_text(" ");
            say_number(number);
            put_text("x");
            say_number(met[number]);
        }
        if (can == was) continue;
        failed = 1;
        put_text(can ? " MISSING " : " WRONG ");
        say_number(number);
    }
    put_text("\n");
}

int say_met(void) {
    for (enum call call = READ; call < CALLS; call++) say_numbers(calls[call].name, calls[call].met, calls[call].can_give);
    put_text("digest ");
    say_hexadecimal(digest[0]);
    say_hexadecimal(digest[1]);
    put_text("\n");
    return failed;
}
