#include "files.h"

void seal_parts(const struct file_part *parts, int count)
{
    for (int i = 0; i < count; i++)
        seal(parts[i].b);
}

void give_back_parts(const struct file_part *parts, int count)
{
    for (int i = 0; i < count; i++)
        give_back(parts[i].b);
}

void check_parts(enum function f, const char *name, const struct file_part *parts, int count, uint32_t number, uint32_t expected,
                 int first)
{
    saw(f, number, 0, first);
    if (number != expected)
        fault("%s: answered %u, not %u", name, number, expected);
    for (int i = 0; i < count; i++) {
        guards_hold(parts[i].b);
        rest_is_untouched(parts[i].b, number == 0 ? parts[i].written : 0);
    }
}

void check_file_answer(const struct lent *answer, size_t least, size_t filled, uint32_t number)
{
    guards_hold(answer);
    if (answer->count < least)
        is_untouched(answer);
    else
        rest_is_untouched(answer, number == 0 ? filled : 1);
    if (answer->count >= least && number != 0)
        is_zero(answer, 1);
}

void put_number(uint8_t *to, uint64_t value, unsigned width)
{
    for (unsigned i = 0; i < width; i++)
        to[i] = (uint8_t)(value >> 8 * (width - 1 - i));
}

uint64_t number_near(struct source *s, uint64_t limit, uint32_t past)
{
    static const uint64_t far[4] = {UINT64_MAX, (uint64_t)1 << 32, (uint64_t)1 << 63, UINT64_MAX - 127};
    uint64_t any = (uint64_t)take_word(s) << 32 | take_word(s);
    if (one_in(s, past))
        return one_in(s, 2) ? limit + 1 : far[pick(s, 4)];
    switch (pick(s, 6)) {
    case 0: return 0;
    case 1: return limit;
    case 2: return limit - any % (limit < 4 ? limit + 1 : 4);
    case 3: return any % (limit < 300 ? limit + 1 : 300);
    default: return any % (limit + 1);
    }
}
