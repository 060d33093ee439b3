/* The header reader. */
#include "files.h"

#include "../include/hca_frame.h"
#include "checked.h"
#include "choices.h"

#include <string.h>

enum { SIZE = 96 };

static struct lent header, layout, answer;
static uint8_t made[SIZE];

static uint64_t number_at(uint32_t offset, unsigned width)
{
    uint64_t v = 0;
    for (unsigned i = 0; i < width; i++)
        v = v << 8 | made[offset + i];
    return v;
}

static int has_loop(void) { return memcmp(made + 40, "loop", 4) == 0; }

/* ---- the rules, written down once more */

static int names_are_right(void)
{
    const uint8_t *tail = made + (has_loop() ? 56 : 40);
    return memcmp(made, "HCA\0\2\0", 6) == 0 && memcmp(made + 8, "fmt", 4) == 0 && memcmp(made + 24, "comp", 4) == 0 &&
           memcmp(tail, "ciph", 4) == 0 && memcmp(tail + 6, "pad", 4) == 0;
}

static int loop_is_right(void)
{
    uint64_t start = 1024 * number_at(44, 4) + number_at(52, 2), end = 1024 * (number_at(48, 4) + 1) - number_at(54, 2);
    return number_at(52, 2) < 1024 && number_at(54, 2) < 1024 && start >= 128 && start >> 32 == 0 && end >= 128 && end >> 32 == 0;
}

static int fields_are_right(void)
{
    static const uint8_t configurations[8] = {1, 0, 4, 0, 1, 3, 7, 3};
    unsigned channels = made[12], total = made[34], start = (unsigned)made[35] + made[36];
    if (number_at(6, 2) != SIZE || channels < 1 || channels > 8 || number_at(13, 3) < 1 || number_at(13, 3) > 0x7FFFFF)
        return 0;
    if (number_at(20, 2) != 128 || number_at(28, 2) < 8 || made[30] < 1 || made[31] < made[30] || made[31] > 15 || made[32] != 1)
        return 0;
    if (made[33] != configurations[channels - 1] || total < 1 || total > 128 || start > total || made[37] != (total - start + 7) / 8)
        return 0;
    return number_at(has_loop() ? 60 : 44, 2) == 0 && (!has_loop() || loop_is_right());
}

static int rest_is_zero(void)
{
    int good = made[38] == 0 && made[39] == 0;
    for (int i = has_loop() ? 66 : 50; i < 94; i++)
        good = good && made[i] == 0;
    return good;
}

static uint32_t expected_number(void)
{
    if (header.count < SIZE || layout.count < 7 || answer.count < 8)
        return SHORT_SLICE;
    if (divided(made, 94) != number_at(94, 2))
        return WRONG_FILE_CHECK;
    if (!names_are_right())
        return WRONG_FILE_NAME;
    if (!fields_are_right())
        return BAD_FILE_FIELD;
    return rest_is_zero() ? 0 : FILE_NOT_ZERO;
}

/* ---- what is lent */

static void put_loop(struct source *s)
{
    static const uint64_t frames[6] = {0, 1, 4194302, 4194303, 4194304, 0xFFFFFFFF}, rests[8] = {0, 1, 127, 128, 896, 897, 1023, 1024};
    memcpy(made + 40, "loop", 4);
    put_number(made + 44, one_in(s, 3) ? frames[pick(s, 6)] : take_word(s) % 4194304, 4);
    put_number(made + 48, one_in(s, 3) ? frames[pick(s, 6)] : take_word(s) % 4194304, 4);
    put_number(made + 52, one_in(s, 3) ? rests[pick(s, 8)] : pick(s, 1024), 2);
    put_number(made + 54, one_in(s, 3) ? rests[pick(s, 8)] : pick(s, 1024), 2);
}

/* A header that is right, but for a loop's numbers now and then; its check is not there yet. */
static void make(struct source *s)
{
    static const uint8_t configurations[8] = {1, 0, 4, 0, 1, 3, 7, 3};
    unsigned total = 1 + pick(s, 128), base = pick(s, total + 1), stereo = pick(s, total - base + 1);
    uint64_t rate = number_near(s, 0x7FFFFF, 40), frame = 8 + number_near(s, 65527, 40);
    memset(made, 0, SIZE);
    memcpy(made, "HCA\0\2\0\0\x60" "fmt", 11);
    made[12] = (uint8_t)(1 + pick(s, 8));
    put_number(made + 13, rate == 0 && !one_in(s, 8) ? 1 : rate, 3);
    put_number(made + 16, take_word(s), 4);
    made[21] = 128;
    put_number(made + 22, take_word(s), 2);
    memcpy(made + 24, "comp", 4);
    put_number(made + 28, frame, 2);
    made[30] = (uint8_t)(1 + pick(s, 15));
    made[31] = (uint8_t)(made[30] + pick(s, 16u - made[30]));
    made[32] = 1;
    made[33] = configurations[made[12] - 1];
    made[34] = (uint8_t)total, made[35] = (uint8_t)base, made[36] = (uint8_t)stereo;
    made[37] = (uint8_t)((total - base - stereo + 7) / 8);
    if (one_in(s, 2))
        put_loop(s);
    memcpy(made + (has_loop() ? 56 : 40), "ciph\0\0pad", 9);
}

/* A byte changed, mostly where something stands. */
static void spoil(struct source *s)
{
    uint32_t at = one_in(s, 4) ? pick(s, 94) : one_in(s, 2) ? pick(s, 66) : 30 + pick(s, 8);
    made[at] = (uint8_t)(one_in(s, 3) ? made[at] ^ 1u << pick(s, 8) : one_in(s, 2) ? made[at] + 1 - 2 * pick(s, 2) : take_byte(s));
}

static size_t length_of(struct source *s, size_t right)
{
    if (one_in(s, 40))
        return pick(s, (uint32_t)right);
    return one_in(s, 4) ? right + pick(s, 40) : right;
}

/* ---- what is delivered */

static const uint32_t *numbers_of(const struct lent *b) { return (const uint32_t *)(const void *)b->data; }

static void check_numbers(void)
{
    static const uint8_t at[15] = {12, 35, 36, 34, 28, 30, 31, 13, 16, 22, 0, 44, 52, 48, 54}, width[15] = {1, 1, 1, 1, 2, 1, 1, 3, 4, 2, 0, 4, 2, 4, 2};
    for (int i = 0; i < 15; i++) {
        uint32_t got = i < 7 ? numbers_of(&layout)[i] : numbers_of(&answer)[i - 7];
        uint64_t right = i == 10 ? (uint64_t)has_loop() : i > 10 && !has_loop() ? 0 : number_at(at[i], width[i]);
        if (got != right)
            fault("number %d of the header is %u, not %u", i, got, (unsigned)right);
    }
}

/* Written again from what was handed out, it is the same header. */
static void check_written_back(void)
{
    static const uint8_t kinds[8] = {0};
    const uint32_t *a = numbers_of(&answer);
    uint64_t stream[3] = {a[0], a[1], a[2]}, points[2];
    uint8_t again[SIZE];
    points[0] = 1024 * (uint64_t)a[4] + a[5] - 128;
    points[1] = 1024 * ((uint64_t)a[6] + 1) - a[7] - 128;
    uint32_t number = hca_write_header(numbers_of(&layout), 7, kinds, 8, stream, 3, points, a[3] == 0 ? 0 : 2, again, SIZE);
    if (number != 0 || memcmp(again, made, SIZE) != 0)
        fault("a header that was accepted is written back as another one, or answered %u", number);
}

void hostile_header_back(struct source *s)
{
    make(s);
    for (uint32_t n = one_in(s, 2) ? 0 : 1 + pick(s, 2); n > 0; n--)
        spoil(s);
    mend_check(made, SIZE);
    if (one_in(s, 16))
        flip(made, pick(s, 8 * SIZE));
    lend(&header, "header", 1, length_of(s, SIZE), s);
    if (header.count > 0)
        memcpy(header.data, made, header.count < SIZE ? header.count : SIZE);
    lend(&layout, "layout", 4, length_of(s, 7), s);
    lend(&answer, "answer", 4, length_of(s, 8), s);
    struct file_part parts[2] = {{&header, 0}, {&layout, 7}};
    uint32_t expected = expected_number();
    seal_parts(parts, 2);
    seal(&answer);
    uint32_t number = hca_read_header(header.data, header.count, (uint32_t *)(void *)layout.data, layout.count,
                                      (uint32_t *)(void *)answer.data, answer.count);
    check_parts(HEADER_BACK, "hca_read_header", parts, 2, number, expected, 1);
    check_file_answer(&answer, 8, 8, number);
    if (number == 0 && expected == 0) {
        check_numbers();
        check_written_back();
    }
    give_back_parts(parts, 2);
    give_back(&answer);
}
