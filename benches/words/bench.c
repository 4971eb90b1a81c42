/* Measures the three codecs in one run: the best of many short rounds, taken in turn.
 * With a row (0 to 3), a codec (0 to 2) and a number, only so many rounds of these are run, for whoever counts
 * instructions. */
#include <stdio.h>
#include <stdlib.h>
#include <time.h>
#include "twin.h"

enum { CALLS = 65536, ROUNDS = 1000 };

static uint64_t sound[65536], damaged[65536];

static double now(void) {
    struct timespec t;
    clock_gettime(CLOCK_MONOTONIC, &t);
    return t.tv_sec * 1e9 + t.tv_nsec;
}

static uint64_t check_sum;

#define ROUND(best, call)                                  \
    do {                                                   \
        double start = now();                              \
        uint64_t sum = 0;                                  \
        for (uint32_t i = 0; i < CALLS; i++) {             \
            uint32_t k = i * 40503u & 65535;               \
            sum += (call);                                 \
        }                                                  \
        double took = (now() - start) / CALLS;             \
        check_sum += sum;                                  \
        if (took < (best)) (best) = took;                  \
    } while (0)

#define ROW(what, function, argument)                                                             \
    do {                                                                                          \
        double proved = 1e9, in_c = 1e9, in_rust = 1e9;                                           \
        for (int round = 0; round < ROUNDS; round++) {                                            \
            ROUND(proved, rattle_##function(argument));                                           \
            ROUND(in_c, c_##function(argument));                                                  \
            ROUND(in_rust, rust_##function(argument));                                            \
        }                                                                                         \
        printf("%-16s %7.2f %7.2f %7.2f   %6.2f %6.2f\n", what, proved, in_c, in_rust,            \
               proved / in_c, proved / in_rust);                                                  \
    } while (0)

#define ROUNDS_OF(number, function, argument)                                                     \
    do {                                                                                          \
        double best = 1e9;                                                                        \
        for (int round = 0; round < (number); round++) ROUND(best, function(argument));           \
    } while (0)

#define ROUNDS_OF_ALL(codec, number, function, argument)                                          \
    do {                                                                                          \
        if ((codec) == 0) ROUNDS_OF(number, rattle_##function, argument);                         \
        else if ((codec) == 1) ROUNDS_OF(number, c_##function, argument);                         \
        else ROUNDS_OF(number, rust_##function, argument);                                        \
    } while (0)

/* So many rounds of a row by a codec. */
static void run_rounds(int row, int codec, int number) {
    switch (row) {
    case 0: ROUNDS_OF_ALL(codec, number, encode, (uint16_t)k); break;
    case 1: ROUNDS_OF_ALL(codec, number, decode, sound[k]); break;
    case 2: ROUNDS_OF_ALL(codec, number, decode, damaged[k]); break;
    default: ROUNDS_OF_ALL(codec, number, raw_bits, damaged[k]);
    }
}

int main(int count, char **words) {
    uint64_t x = 88172645463325252ull;
    for (uint32_t k = 0; k < 65536; k++) {
        sound[k] = rattle_encode((uint16_t)k);
        x ^= x << 13;
        x ^= x >> 7;
        x ^= x << 17;
        damaged[k] = (x & 1) ? sound[k] ^ 1ull << (x >> 32) % 40 : x >> 24;
    }
    for (uint32_t k = 0; k < 65536; k++) {
        if (c_encode((uint16_t)k) != sound[k] || rust_encode((uint16_t)k) != sound[k]
            || rattle_decode(sound[k]) != k || rattle_decode(damaged[k]) != c_decode(damaged[k])
            || rattle_decode(damaged[k]) != rust_decode(damaged[k])
            || rattle_raw_bits(damaged[k]) != c_raw_bits(damaged[k])
            || rattle_raw_bits(damaged[k]) != rust_raw_bits(damaged[k])) {
            printf("the codecs differ at %u\n", k);
            return 1;
        }
    }
    if (count == 4) {
        run_rounds(atoi(words[1]), atoi(words[2]), atoi(words[3]));
        return check_sum == 0;
    }
    printf("ns a call, the best of %d rounds in turn      Rattle to\n", ROUNDS);
    printf("%-16s %7s %7s %7s   %6s %6s\n", "", "Rattle", "C", "Rust", "C", "Rust");
    ROW("encode", encode, (uint16_t)k);
    ROW("decode, sound", decode, sound[k]);
    ROW("decode, damaged", decode, damaged[k]);
    ROW("raw_bits", raw_bits, damaged[k]);
    double empty = 1e9;
    for (int round = 0; round < ROUNDS; round++) {
        ROUND(empty, empty_call(damaged[k]));
    }
    printf("%-16s %7.2f\n", "an empty call", empty);
    return check_sum == 0;
}
