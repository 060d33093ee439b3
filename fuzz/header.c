/* The header writer. */
#include "files.h"

#include "../include/hca_frame.h"
#include "checked.h"
#include "choices.h"

#include <string.h>

enum { SIZE = 96 };
static const uint64_t last_point = 4294967167u; /* its shift by 128 is 2^32 - 1 */

static struct lent stream, points, header;

static const uint64_t *longs(const struct lent *b) { return (const uint64_t *)(const void *)b->data; }

/* The number that must come: 1, 2, 16, or 0. */
static uint32_t expected_number(int legal, const struct shape *l)
{
    if (!legal)
        return HCA_BAD_LAYOUT;
    if (stream.count < 3 || points.count == 1 || header.count < SIZE)
        return SHORT_SLICE;
    const uint64_t *n = longs(&stream);
    int good = l->channels <= 8 && n[0] >= 1 && n[0] <= 0x7FFFFF && n[1] <= 0xFFFFFFFF && n[2] <= 0xFFFF;
    for (size_t i = 0; i < 2 && i < points.count; i++)
        good = good && longs(&points)[i] <= last_point;
    return good ? 0 : BAD_FILE_HEADER;
}

static void put_loop(uint8_t *out, uint64_t start, uint64_t end)
{
    int edge = (end + 128) % 1024 == 0;
    memcpy(out, "loop", 4);
    put_number(out + 4, (start + 128) / 1024, 4);
    put_number(out + 8, (end + 128) / 1024 - (edge ? 1 : 0), 4);
    put_number(out + 12, (start + 128) % 1024, 2);
    put_number(out + 14, edge ? 0 : 1024 - (end + 128) % 1024, 2);
}

/* The 96 bytes, in the order of the table. */
static void expected_header(uint8_t *out, const struct shape *l)
{
    static const uint8_t configurations[8] = {1, 0, 4, 0, 1, 3, 7, 3};
    const uint64_t *n = longs(&stream);
    uint8_t *at = out + 40;
    memset(out, 0, SIZE);
    memcpy(out, "HCA\0\2\0\0\x60" "fmt", 11);
    out[12] = (uint8_t)l->channels;
    put_number(out + 13, n[0], 3);
    put_number(out + 16, n[1], 4);
    out[21] = 128;
    put_number(out + 22, n[2], 2);
    memcpy(out + 24, "comp", 4);
    put_number(out + 28, l->frame, 2);
    out[30] = (uint8_t)l->minimum;
    out[31] = (uint8_t)l->maximum;
    out[32] = 1;
    out[33] = configurations[l->channels - 1];
    out[34] = (uint8_t)l->total;
    out[35] = (uint8_t)l->base;
    out[36] = (uint8_t)l->stereo;
    out[37] = (uint8_t)((l->total - l->start + 7) / 8);
    if (points.count >= 2) {
        put_loop(at, longs(&points)[0], longs(&points)[1]);
        at += 16;
    }
    memcpy(at, "ciph\0\0pad", 9);
    mend_check(out, SIZE);
}

static void check_bytes(const struct shape *l)
{
    uint8_t right[SIZE];
    expected_header(right, l);
    for (int i = 0; i < SIZE; i++)
        if (header.data[i] != right[i]) {
            fault("byte %d of the header is %02x, not %02x", i, header.data[i], right[i]);
            return;
        }
}

static void lend_numbers(struct lent *b, const char *name, size_t count, const uint64_t *from, struct source *s)
{
    lend(b, name, 8, count, s);
    if (count > 0)
        memcpy(b->data, from, 8 * (count < 3 ? count : 3)); /* past them a pattern */
}

void hostile_header(struct source *s)
{
    struct set *b = &sets[0];
    struct wish w;
    struct shape l = {0};
    wish_for(s, &w);
    if (w.kinds_len == w.layout[0] && one_in(s, 2)) /* all that a header can have, and now and then more */
        w.kinds_len = w.layout[0] = 1 + pick(s, one_in(s, 6) ? 16 : 8);
    uint64_t numbers[3] = {number_near(s, 0x7FFFFF, 24), number_near(s, 0xFFFFFFFF, 24), number_near(s, 0xFFFF, 24)};
    uint64_t loop[3] = {number_near(s, last_point, 24), number_near(s, last_point, 24), take_word(s)};
    if (one_in(s, 3))
        loop[1] = 1024 * (uint64_t)(take_word(s) % 4194304) + 896 + pick(s, 3) - 1; /* an edge, or next to it */
    if (loop[1] > last_point && !one_in(s, 12))
        loop[1] = last_point;
    numbers[0] += numbers[0] == 0 && !one_in(s, 4);
    lend_named(b, w.layout, w.layout_len, w.kinds, w.kinds_len, s);
    lend_numbers(&stream, "stream", length_for(s, &w, 3), numbers, s);
    lend_numbers(&points, "points", one_in(s, 3) ? 0 : length_for(s, &w, 2), loop, s);
    lend(&header, "header", 1, length_for(s, &w, SIZE), s);
    struct file_part parts[5] = {{&b->layout, 0}, {&b->kinds, 0}, {&stream, 0}, {&points, 0}, {&header, SIZE}};
    int legal = shape_of(&l, words(&b->layout), b->layout.count, b->kinds.data, b->kinds.count);
    uint32_t expected = expected_number(legal, &l);
    seal_parts(parts, 5);
    uint32_t number = hca_write_header(words(&b->layout), b->layout.count, b->kinds.data, b->kinds.count, longs(&stream), stream.count,
                                       longs(&points), points.count, header.data, header.count);
    check_parts(HEADER, "hca_write_header", parts, 5, number, expected, 1);
    if (number == 0 && expected == 0)
        check_bytes(&l);
    give_back_parts(parts, 5);
}
