#define _DEFAULT_SOURCE
#include "lend.h"

#include <stdio.h>
#include <stdlib.h>
#include <string.h>
#include <sys/mman.h>

int only_exact;

enum { PAGE = 4096 };

static void *or_end(void *p)
{
    if (p == NULL || p == MAP_FAILED) {
        fprintf(stderr, "out of memory\n");
        exit(3);
    }
    return p;
}

static void make_arena(struct lent *b)
{
    uint8_t *all = or_end(mmap(NULL, ARENA + 2 * PAGE, PROT_READ | PROT_WRITE, MAP_PRIVATE | MAP_ANONYMOUS, -1, 0));
    mprotect(all, PAGE, PROT_NONE);
    mprotect(all + PAGE + ARENA, PAGE, PROT_NONE);
    b->arena = all + PAGE;
    b->before = or_end(malloc(ARENA));
}

static uint8_t guard_byte(size_t i) { return (uint8_t)(0xC3 ^ (i * 29)); }

static uint8_t *guard_of(const struct lent *b)
{
    return b->placement == PAGE_AFTER ? b->data - GUARD : b->data + b->bytes;
}

void lend(struct lent *b, const char *name, size_t element, size_t count, struct source *s)
{
    struct source filler = bulk(s);
    if (b->arena == NULL)
        make_arena(b);
    b->name = name;
    b->element = element;
    b->count = count;
    b->bytes = element * count;
    b->placement = only_exact ? EXACT : (enum placement)pick(s, 3);
    if (b->bytes + GUARD > ARENA) {
        fprintf(stderr, "%s: %zu bytes are more than the fuzzer lends\n", name, b->bytes);
        exit(3);
    }
    if (b->placement == EXACT)
        b->data = b->bytes > 0 ? or_end(malloc(b->bytes)) : pick(s, 2) == 0 ? malloc(0) : NULL;
    else
        b->data = b->placement == PAGE_AFTER ? b->arena + ARENA - b->bytes : b->arena;
    for (size_t i = 0; i < b->bytes; i += 8) {
        uint64_t pattern = next_number(&filler) | 0x0101010101010101u; /* no zero byte */
        memcpy(b->data + i, &pattern, b->bytes - i < 8 ? b->bytes - i : 8);
    }
    if (b->placement != EXACT)
        for (size_t i = 0; i < GUARD; i++)
            guard_of(b)[i] = guard_byte(i);
}

void seal(struct lent *b)
{
    if (b->bytes > 0)
        memcpy(b->before, b->data, b->bytes);
}

void guards_hold(const struct lent *b)
{
    if (b->placement == EXACT)
        return;
    for (size_t i = 0; i < GUARD; i++)
        if (guard_of(b)[i] != guard_byte(i)) {
            fault("%s (%zu elements): byte %zu of the guard %s it was written", b->name, b->count, i,
                  b->placement == PAGE_AFTER ? "before" : "after");
            return;
        }
}

void rest_is_untouched(const struct lent *b, size_t from)
{
    size_t first = from * b->element;
    if (first >= b->bytes || memcmp(b->data + first, b->before + first, b->bytes - first) == 0)
        return;
    while (b->data[first] == b->before[first])
        first++;
    fault("%s (%zu elements): element %zu was changed, which the call must leave", b->name, b->count, first / b->element);
}

void is_untouched(const struct lent *b) { rest_is_untouched(b, 0); }

void is_zero(const struct lent *b, size_t count)
{
    for (size_t i = 0; i < count * b->element; i++)
        if (b->data[i] != 0) {
            fault("%s: element %zu is not zero after the refusal", b->name, i / b->element);
            return;
        }
}

void give_back(struct lent *b)
{
    if (b->placement == EXACT)
        free(b->data);
    b->data = NULL;
}
