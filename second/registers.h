/* Bytes, words and vectors on the page. */
#ifndef REGISTERS_H
#define REGISTERS_H

#include <stdbool.h>
#include <stdint.h>

static inline uint64_t load(const uint8_t *from, unsigned size)
{
    uint64_t value = 0;
    while (size-- > 0)
        value = value << 8 | from[size];
    return value;
}

static inline void store(uint8_t *to, unsigned size, uint64_t value)
{
    for (unsigned byte = 0; byte < size; byte++)
        to[byte] = (uint8_t)(value >> 8 * byte);
}

static inline uint16_t load_half(const uint8_t *from)
{
    return (uint16_t)(from[0] | from[1] << 8);
}

static inline void store_half(uint8_t *to, uint16_t value)
{
    to[0] = (uint8_t)value;
    to[1] = (uint8_t)(value >> 8);
}

static inline uint32_t load_word(const uint8_t *from)
{
    return (uint32_t)from[0] | (uint32_t)from[1] << 8 | (uint32_t)from[2] << 16 | (uint32_t)from[3] << 24;
}

static inline void store_word(uint8_t *to, uint32_t value)
{
    to[0] = (uint8_t)value;
    to[1] = (uint8_t)(value >> 8);
    to[2] = (uint8_t)(value >> 16);
    to[3] = (uint8_t)(value >> 24);
}

/* The byte that holds a vector's bit in the register at base. */
static inline unsigned cell(unsigned base, unsigned vector)
{
    return base + 16 * (vector / 32) + vector % 32 / 8;
}

static inline void put_vector(uint8_t *page, unsigned base, unsigned vector, bool value)
{
    uint8_t bit = (uint8_t)(1u << vector % 8);
    uint8_t *byte = page + cell(base, vector);
    *byte = (uint8_t)(value ? *byte | bit : *byte & ~bit);
}

/* What the search answers for an empty register, which is no vector. */
enum { NO_VECTOR = -1 };

#ifdef SCAN_WORDS
/* The highest set vector or NO_VECTOR; this and the next function word by word, for timing only. */
static inline int highest(const uint8_t *page, unsigned base)
{
    for (unsigned row = 8; row-- > 0;) {
        uint32_t word = load_word(page + base + 16 * row);
        if (word)
            return (int)(32 * row + 31 - (unsigned)__builtin_clz(word));
    }
    return NO_VECTOR;
}

/* Moves a descriptor's posted bits into the register at base; the highest or NO_VECTOR. */
static inline int take_posted(uint8_t *page, unsigned base, uint8_t *descriptor)
{
    uint32_t top = 0;
    unsigned top_row = 0;
    for (unsigned row = 0; row < 8; row++) {
        uint32_t posted = load_word(descriptor + 4 * row);
        if (!posted)
            continue;
        uint8_t *requests = page + base + 16 * row;
        store_word(requests, load_word(requests) | posted);
        store_word(descriptor + 4 * row, 0);
        top = posted;
        top_row = row;
    }
    return top ? (int)(32 * top_row + 31 - (unsigned)__builtin_clz(top)) : NO_VECTOR;
}
#else
/* The highest set vector or NO_VECTOR; bit by bit from the top. */
static inline int highest(const uint8_t *page, unsigned base)
{
    for (unsigned row = 8; row-- > 0;) {
        uint32_t word = load_word(page + base + 16 * row);
        for (unsigned bit = 32; bit-- > 0;)
            if (word >> bit & 1)
                return (int)(32 * row + bit);
    }
    return NO_VECTOR;
}

/* Moves a descriptor's posted bits into the register at base one by one; the highest or NO_VECTOR. */
static inline int take_posted(uint8_t *page, unsigned base, uint8_t *descriptor)
{
    int found = NO_VECTOR;
    for (unsigned vector = 0; vector < 256; vector++) {
        uint8_t bit = (uint8_t)(1u << vector % 8), *byte = descriptor + vector / 8;
        if (!(*byte & bit))
            continue;
        *byte = (uint8_t)(*byte & ~bit);
        put_vector(page, base, vector, true);
        found = (int)vector;
    }
    return found;
}
#endif

#endif
