/* Buffers that are lent to a call, set up so that a touch outside of them shows. */
#ifndef HCA_FUZZ_LEND_H
#define HCA_FUZZ_LEND_H

#include "source.h"

enum placement {
    PAGE_AFTER,  /* the buffer ends where a page begins that nobody may touch; guard bytes stand before it */
    PAGE_BEFORE, /* the buffer begins where such a page ends; guard bytes stand after it */
    EXACT        /* a block of the heap of just that size, for valgrind and the address sanitizer */
};

struct lent {
    const char *name;
    uint8_t *data;
    size_t element, count, bytes;
    enum placement placement;
    uint8_t *arena;  /* between two pages that nobody may touch */
    uint8_t *before; /* what the buffer held when it was lent */
};

enum { GUARD = 64, ARENA = 24 * 4096 };

extern int only_exact; /* all placements EXACT */

/* Makes a buffer of count elements, filled with a pattern; of no elements also a null pointer, by choice. */
void lend(struct lent *b, const char *name, size_t element, size_t count, struct source *s);
/* Remembers what the buffer holds now: the call comes next. */
void seal(struct lent *b);
/* After the call; each tells a fault where it does not hold. */
void guards_hold(const struct lent *b);
void is_untouched(const struct lent *b);
void rest_is_untouched(const struct lent *b, size_t from);
void is_zero(const struct lent *b, size_t count);
void give_back(struct lent *b);

/* A fault of the library: tells it and, by the program, ends or goes on. */
void fault(const char *format, ...);

#endif
