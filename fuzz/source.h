/* Where the choices of a call come from: given bytes first, then numbers that a seed fixes. */
#ifndef HCA_FUZZ_SOURCE_H
#define HCA_FUZZ_SOURCE_H

#include <stddef.h>
#include <stdint.h>

struct source {
    const uint8_t *bytes;
    size_t left;
    uint64_t state;
};

/* splitmix64 */
static inline uint64_t next_number(struct source *s)
{
    uint64_t z = (s->state += 0x9E3779B97F4A7C15u);
    z = (z ^ (z >> 30)) * 0xBF58476D1CE4E5B9u;
    z = (z ^ (z >> 27)) * 0x94D049BB133111EBu;
    return z ^ (z >> 31);
}

static inline struct source of_seed(uint64_t seed)
{
    struct source s = {0, 0, seed};
    return s;
}

static inline struct source of_bytes(const uint8_t *bytes, size_t count)
{
    struct source s = {bytes, count, count};
    for (size_t i = 0; i < count; i++)
        s.state = (s.state ^ bytes[i]) * 0x100000001B3u;
    return s;
}

static inline uint8_t take_byte(struct source *s)
{
    if (s->left == 0)
        return (uint8_t)(next_number(s) >> 32);
    s->left--;
    return *s->bytes++;
}

static inline uint32_t take_word(struct source *s)
{
    uint32_t w = 0;
    if (s->left == 0)
        return (uint32_t)(next_number(s) >> 32);
    for (int i = 0; i < 4; i++)
        w = w << 8 | take_byte(s);
    return w;
}

/* 0 to n - 1 */
static inline uint32_t pick(struct source *s, uint32_t n)
{
    return n <= 256 ? take_byte(s) % n : take_word(s) % n;
}

static inline int one_in(struct source *s, uint32_t n) { return pick(s, n) == 0; }

/* A source for the bulk of a buffer: one word of choice, then by seed. */
static inline struct source bulk(struct source *s)
{
    return of_seed((uint64_t)take_word(s) << 16);
}

#endif
