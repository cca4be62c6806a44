/* What a compiler takes for granted of a C library, for machines that have none. */
#include <stddef.h>
#include <stdint.h>

void *memcpy(void *to, const void *from, size_t size);
void *memmove(void *to, const void *from, size_t size);
void *memset(void *to, int value, size_t size);

/* By words where it can be, as C libraries do: the instructions of a call depend on it. */
void *memcpy(void *to, const void *from, size_t size) {
    size_t i = 0;
    if ((((uintptr_t)to | (uintptr_t)from) & 3) == 0)
        for (; i + 4 <= size; i += 4) *(uint32_t *)((uint8_t *)to + i) = *(const uint32_t *)((const uint8_t *)from + i);
    for (; i < size; i++) ((uint8_t *)to)[i] = ((const uint8_t *)from)[i];
    return to;
}

void *memmove(void *to, const void *from, size_t size) {
    if ((uintptr_t)to <= (uintptr_t)from) return memcpy(to, from, size);
    for (size_t i = size; i-- != 0;) ((uint8_t *)to)[i] = ((const uint8_t *)from)[i];
    return to;
}

void *memset(void *to, int value, size_t size) {
    size_t i = 0;
    if (((uintptr_t)to & 3) == 0)
        for (; i + 4 <= size; i += 4) *(uint32_t *)((uint8_t *)to + i) = (uint8_t)value * UINT32_C(0x01010101);
    for (; i < size; i++) ((uint8_t *)to)[i] = (uint8_t)value;
    return to;
}
