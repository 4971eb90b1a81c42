/* The word codec in C, by the same tables as crates/mil_word/src/code.rt. */
#include "twin.h"
#include "tables.h"

static inline uint64_t wave_of(int is_command, uint16_t value) {
    uint64_t sync = is_command ? 0x38 : 0x07;
    uint64_t high = PAIRS[value >> 8];
    uint64_t low = PAIRS[value & 0xff];
    uint64_t last = (uint64_t)((__builtin_popcount(value) + 1) % 2) + 1;
    return sync << 34 | high << 18 | low << 2 | last;
}

static inline uint16_t first_halves(uint64_t wave) {
    return (uint16_t)(FIRSTS[wave >> 26 & 0xff] << 12 | FIRSTS[wave >> 18 & 0xff] << 8
                      | FIRSTS[wave >> 10 & 0xff] << 4 | FIRSTS[wave >> 2 & 0xff]);
}

uint64_t c_encode(uint16_t value) {
    return wave_of(1, value);
}

uint32_t c_decode(uint64_t half_bits) {
    uint64_t wave = half_bits & 0xffffffffff;
    int is_command = wave >> 34 == 0x38;
    uint16_t value = first_halves(wave);
    if (wave_of(is_command, value) != wave) {
        return 0x20000;
    }
    return is_command ? value : value + 0x10000u;
}

uint16_t c_raw_bits(uint64_t half_bits) {
    return first_halves(half_bits & 0xffffffffff);
}
