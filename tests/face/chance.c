/* The seeded generator: Steele, Lea and Flood's SplitMix (2014), which steps by a fixed odd number and mixes the bits. */

#include "chance.h"

struct chance chance_from(uint64_t seed)
{
    struct chance chance = {seed};
    return chance;
}

static uint64_t next_word(struct chance *chance)
{
    uint64_t mixed = chance->state += UINT64_C(0x9E3779B97F4A7C15);
    mixed = (mixed ^ mixed >> 30) * UINT64_C(0xBF58476D1CE4E5B9);
    mixed = (mixed ^ mixed >> 27) * UINT64_C(0x94D049BB133111EB);
    return mixed ^ mixed >> 31;
}

size_t chance_below(struct chance *chance, size_t limit)
{
    return (size_t)(next_word(chance) % limit);
}

uint8_t chance_change(struct chance *chance)
{
    return (uint8_t)(1 + chance_below(chance, 255));
}

void chance_bytes(struct chance *chance, uint8_t *bytes, size_t count)
{
    uint64_t word = 0;
    for (size_t k = 0; k < count; k++) {
        if (k % 8 == 0)
            word = next_word(chance);
        bytes[k] = (uint8_t)(word >> k % 8 * 8);
    }
}
