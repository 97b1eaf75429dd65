// Little-endian numbers in bytes, numbers as text, and random numbers that are the same in each run.
#ifndef BYTES_H
#define BYTES_H
#include <inttypes.h>
#include <stddef.h>

static inline void put(unsigned char *at, uint64_t value, int count) {
    for (int i = 0; i < count; i++) at[i] = (unsigned char)(value >> (8 * i));
}

static inline uint64_t get(const unsigned char *at, int count) {
    uint64_t value = 0;
    for (int i = count; i-- > 0;) value = value << 8 | at[i];
    return value;
}

// Writes a number and a byte after it.
static inline char *put_number(char *at, uint64_t number, char behind) {
    char digits[20];
    int count = 0;
    do {
        digits[count++] = (char)('0' + number % 10);
        number /= 10;
    } while (number);
    while (count > 0) *at++ = digits[--count];
    *at++ = behind;
    return at;
}

static inline uint64_t next(uint64_t *state) {
    *state = *state * 6364136223846793005u + 1442695040888963407u;
    return *state >> 33;
}

#endif
