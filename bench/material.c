/* Memory, pseudo-random bytes, texts and tiles. */

#define _POSIX_C_SOURCE 200112L

#include "material.h"

#include <stdio.h>
#include <stdlib.h>
#include <string.h>

#include "counterfrost.h"
#include "peer.h"

enum { LINE = 64, TEXT_SEED = 1, WASTE_SEED = 2 };

size_t rounded_up(size_t length) { return (length + LINE - 1) / LINE * LINE; }

void *new_memory(size_t length)
{
    void *memory;

    if (posix_memalign(&memory, LINE, rounded_up(length)) != 0) {
        fputs("bench: no memory\n", stderr);
        exit(1);
    }
    memset(memory, 0, rounded_up(length));
    return memory;
}

/* A step of xorshift64, which never reaches zero from a state that is not zero. */
static uint64_t step(uint64_t state)
{
    state ^= state << 13;
    state ^= state >> 7;
    return state ^ state << 17;
}

void put_random(uint8_t *bytes, size_t length, uint64_t seed)
{
    uint64_t state = seed * 0x9e3779b97f4a7c15u + 1;

    for (size_t i = 0; i < length; i++) {
        state = step(state);
        bytes[i] = (uint8_t)(1 + (state >> 32) % 255);
    }
}

uint8_t *new_waste(size_t length)
{
    uint8_t *bytes = new_memory(length);

    put_random(bytes, length, WASTE_SEED);
    return bytes;
}

uint8_t *new_text(size_t p)
{
    uint8_t *text = new_memory(cf_text_len(p));

    put_random(text, cf_text_len(p), TEXT_SEED);
    return text;
}

uint8_t *new_tile(size_t p, const uint8_t *text)
{
    uint8_t *tile = new_memory(cf_tile_len(p));

    if (peer_write(CF_NEW, p, SLOPE, text, cf_text_len(p), tile, cf_tile_len(p)) != 0) {
        fputs("bench: the independent implementation wrote no tile\n", stderr);
        exit(1);
    }
    return tile;
}

uint8_t *new_copy(const uint8_t *bytes, size_t length)
{
    return memcpy(new_memory(length), bytes, length);
}
