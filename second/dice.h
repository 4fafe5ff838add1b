/* Steele and others' splitmix64: small, and good from any start. */
#ifndef SECOND_DICE_H
#define SECOND_DICE_H

#include <stdint.h>

static inline uint64_t dice_roll(uint64_t *dice)
{
    uint64_t z = *dice += 0x9E3779B97F4A7C15u;

    z = (z ^ (z >> 30)) * 0xBF58476D1CE4E5B9u;
    z = (z ^ (z >> 27)) * 0x94D049BB133111EBu;
    return z ^ (z >> 31);
}

#endif
