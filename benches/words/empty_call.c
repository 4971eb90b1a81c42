#include "twin.h"

uint32_t empty_call(uint64_t half_bits) {
    return (uint32_t)half_bits;
}
