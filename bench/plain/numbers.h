/* The numbers in use of one kind of thing, as three levels of bits: a bit of an upper level says that the word below it isn't zero.
 * So the greatest number and the next one above a number take a few steps, wherever the numbers lie. */
#ifndef NUMBERS_H
#define NUMBERS_H

#include <stdint.h>

#define NUMBER_LIMIT 1000000u

struct numbers {
    uint64_t low[(NUMBER_LIMIT >> 6) + 1];
    uint64_t middle[(NUMBER_LIMIT >> 12) + 1];
    uint64_t high[(NUMBER_LIMIT >> 18) + 1];
};

static inline uint64_t bit_of(uint32_t n)
{
    return (uint64_t)1 << (n & 63);
}

static inline void put_number(struct numbers *set, uint32_t n)
{
    uint64_t before = set->low[n >> 6];
    set->low[n >> 6] = before | bit_of(n);
    if (before == 0) {
        set->middle[n >> 12] |= bit_of(n >> 6);
        set->high[n >> 18] |= bit_of(n >> 12);
    }
}

static inline void take_number(struct numbers *set, uint32_t n)
{
    if ((set->low[n >> 6] &= ~bit_of(n)) == 0 && (set->middle[n >> 12] &= ~bit_of(n >> 6)) == 0)
        set->high[n >> 18] &= ~bit_of(n >> 12);
}

static inline uint32_t highest_bit(uint64_t word)
{
    return 63 - __builtin_clzll(word);
}

/* The greatest number in use, 0 where there is none. */
static inline uint32_t greatest_number(const struct numbers *set)
{
    for (uint32_t i = (NUMBER_LIMIT >> 18) + 1; i-- > 0;) {
        if (set->high[i]) {
            uint32_t j = i << 6 | highest_bit(set->high[i]);
            uint32_t k = j << 6 | highest_bit(set->middle[j]);
            return k << 6 | highest_bit(set->low[k]);
        }
    }
    return 0;
}

/* The bits of `word` that lie above those of index n. */
static inline uint64_t bits_above(uint64_t word, uint32_t n)
{
    return (n & 63) == 63 ? 0 : word & (~(uint64_t)0 << ((n & 63) + 1));
}

/* The least number in use above n, 0 where there is none. */
static inline uint32_t next_number(const struct numbers *set, uint32_t n)
{
    uint64_t word = bits_above(set->low[n >> 6], n);
    if (word)
        return (n & ~63u) | __builtin_ctzll(word);
    uint32_t k = n >> 6;
    word = bits_above(set->middle[k >> 6], k);
    if (!word) {
        uint32_t j = k >> 6, i = j >> 6;
        word = bits_above(set->high[i], j);
        while (!word && ++i <= NUMBER_LIMIT >> 18)
            word = set->high[i];
        if (!word)
            return 0;
        k = (i << 6 | __builtin_ctzll(word)) << 6;
        word = set->middle[k >> 6];
    }
    k = (k & ~63u) | __builtin_ctzll(word);
    return k << 6 | __builtin_ctzll(set->low[k]);
}

#endif
