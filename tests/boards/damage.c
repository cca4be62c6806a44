/* Damage to images and texts, so that each refusal of the layout and of the reader is met. */
#include "damage.h"
#include "random.h"

/* A full record of the writer has 44 characters. */
enum { RECORD_LENGTH = 44 };

/* Another byte at one of the first places. */
static void change_byte(uint8_t *image, uint32_t places) {
    const uint32_t place = random_below(places);
    image[place] ^= (uint8_t)(1 + random_below(255));
}

uint32_t damage_image(uint8_t *image, uint32_t length) {
    const uint32_t contents = length < 2 ? length : 2 + 8 * (uint32_t)image[1];
    switch (random_below(8)) {
    case 0: return random_below(length + 1);
    case 1: return length == 0 ? 0 : length - 1;
    case 2: image[length] = 0; return length + 1;
    case 3: if (length > 0) change_byte(image, 1); return length;
    case 4: if (length > 1) image[1] = (uint8_t)random_below(one_in(2) ? 18 : 256); return length;
    case 5: if (contents > 0 && contents <= length) change_byte(image, contents); return length;
    default: if (length > 0) change_byte(image, length); return length;
    }
}

static uint32_t digit(uint8_t character) { return character <= '9' ? character - '0' : character - 'A' + 10; }

static void add_to_pair(uint8_t *pair, uint32_t number) {
    const uint32_t sum = 16 * digit(pair[0]) + digit(pair[1]) + number;
    pair[0] = (uint8_t) "0123456789ABCDEF"[sum >> 4 & 15];
    pair[1] = (uint8_t) "0123456789ABCDEF"[sum & 15];
}

/* Another byte in a record, with the checksum mended. */
static void change_record(uint8_t *text, uint32_t length) {
    const uint32_t start = RECORD_LENGTH * random_below(length / RECORD_LENGTH + 1);
    if (length < start + 12) return;
    uint8_t *const pairs = text + start + 1;
    const uint32_t count = 16 * digit(pairs[0]) + digit(pairs[1]), number = 1 + random_below(255);
    add_to_pair(pairs + 2 * (1 + random_below(count + 3)), number);
    add_to_pair(pairs + 2 * (4 + count), 256 - number);
}

/* CR LF at each line's end, where there is room. */
static uint32_t add_carriage_returns(uint8_t *text, uint32_t length, uint32_t room) {
    uint32_t lines = 0;
    for (uint32_t i = 0; i < length; i++) lines += text[i] == '\n';
    if (room < length + lines) return length;
    uint32_t to = length + lines;
    for (uint32_t from = length; from-- != 0;) {
        text[--to] = text[from];
        if (text[from] == '\n') text[--to] = '\r';
    }
    return length + lines;
}

static uint32_t insert(uint8_t *text, uint32_t length, uint32_t room, uint8_t character) {
    const uint32_t at = random_below(length + 1);
    if (length == room) return length;
    for (uint32_t i = length; i > at; i--) text[i] = text[i - 1];
    text[at] = character;
    return length + 1;
}

static uint32_t take_out(uint8_t *text, uint32_t length) {
    if (length == 0) return 0;
    for (uint32_t i = random_below(length); i + 1 < length; i++) text[i] = text[i + 1];
    return length - 1;
}

/* The record that starts at a place where a full one may, with its line end. */
static uint32_t lose_line(uint8_t *text, uint32_t length) {
    const uint32_t start = RECORD_LENGTH * random_below(length / RECORD_LENGTH + 1);
    uint32_t next = start;
    while (next < length && text[next] != '\n') next++;
    if (next == length) return length;
    for (uint32_t i = next + 1; i < length; i++) text[start + i - next - 1] = text[i];
    return length - (next + 1 - start);
}

uint32_t damage_text(uint8_t *text, uint32_t length, uint32_t room) {
    static const uint8_t characters[] = ":0123456789ABCDEFabcdef\r\n G/@`g";
    const uint8_t character = characters[random_below(sizeof characters - 1)];
    switch (random_below(9)) {
    case 0: return random_below(length + 1);
    case 1: return take_out(text, length);
    case 2: return insert(text, length, room, character);
    case 3: return add_carriage_returns(text, length, room);
    case 4:
        for (uint32_t i = 0; i < length; i++)
            if ('A' <= text[i] && text[i] <= 'F') text[i] += 'a' - 'A';
        return length;
    case 5: if (length > 0) text[random_below(length)] = character; return length;
    case 6: return lose_line(text, length);
    default: change_record(text, length); return length;
    }
}
