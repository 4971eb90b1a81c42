/* The same codec under three names: the proved one, and its twins in C and in Rust. */
#include <stdint.h>

#define CODEC(name)                        \
    uint64_t name##_encode(uint16_t);      \
    uint32_t name##_decode(uint64_t);      \
    uint16_t name##_raw_bits(uint64_t);

CODEC(rattle)
CODEC(c)
CODEC(rust)

/* a call that does nothing, to take off what a call costs */
uint32_t empty_call(uint64_t);
