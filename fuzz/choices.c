#include "choices.h"

#include <string.h>

/* ---- layouts and lengths */

/* Numbers just outside the limits, huge ones, and sums that would wrap. */
static void spoil_layout(struct source *s, uint32_t *w)
{
    static const uint32_t huge[8] = {0xFFFFFFFF, 0x80000000, 0x7FFFFFFF, 0x10000, 0x10001, 0xFFFFFF80, 256, 0x40000000};
    uint32_t sort = pick(s, 10), at = pick(s, 5);
    switch (sort) {
    case 0: w[0] = 0; break;
    case 1: w[0] = 17 + pick(s, 4); break;
    case 2: w[3] = 0; break;
    case 3: w[3] = 129 + pick(s, 3); break;
    case 4: w[1] = w[3] + 1 - (w[2] <= w[3] ? w[2] : 0); break;
    case 5: w[4] = pick(s, 8); break;
    case 6: w[4] = 65536 + pick(s, 40); break;
    case 7: w[1] = 0xFFFFFFFF - at, w[2] = 1 + pick(s, 8); break;
    case 8: w[at] = huge[pick(s, 8)]; break;
    default: w[at] = take_word(s); break;
    }
}

static void corner_layout(struct source *s, uint32_t *w)
{
    static const uint32_t totals[6] = {1, 2, 9, 117, 127, 128};
    uint32_t total = totals[pick(s, 6)];
    uint32_t start = pick(s, 3) == 0 ? 0 : pick(s, 2) == 0 ? total : pick(s, total + 1);
    w[1] = pick(s, 2) == 0 ? start : pick(s, 2) == 0 ? 0 : pick(s, start + 1);
    w[2] = start - w[1];
    w[3] = total;
}

/* The lowest and the highest resolution and the mode, now and then a wrong one; behind them anything. Where they are missing they are 1, 15 and 0. */
static void wish_limits(struct source *s, struct wish *w)
{
    static const uint32_t wrong[8] = {0, 16, 17, 256, 257, 271, 0x80000000, 0xFFFFFFFF};
    w->layout[5] = 1 + pick(s, 15);
    w->layout[6] = w->layout[5] + pick(s, 16 - w->layout[5]);
    if (one_in(s, 12))
        w->layout[5 + pick(s, 2)] = one_in(s, 3) ? 1 + pick(s, 15) : wrong[pick(s, 8)];
    w->layout[7] = pick(s, 2);
    if (one_in(s, 12))
        w->layout[7] = one_in(s, 3) ? 2 : wrong[1 + pick(s, 7)];
    for (int i = 8; i < 10; i++)
        w->layout[i] = take_word(s);
    w->layout_len = one_in(s, 40) ? pick(s, 11) : one_in(s, 2) ? 5 + pick(s, 6) : 5;
}

static void wish_layout(struct source *s, struct wish *w)
{
    uint32_t sort = pick(s, 16);
    uint32_t total = 1 + pick(s, one_in(s, 3) ? 128 : 24), start = pick(s, total + 1);
    w->layout[0] = 1 + (one_in(s, 24) ? pick(s, 16) : pick(s, 3));
    w->layout[1] = pick(s, start + 1);
    w->layout[2] = start - w->layout[1];
    w->layout[3] = total;
    w->layout[4] = 8 + (one_in(s, 4) ? pick(s, 33) : one_in(s, 128) ? take_word(s) % 65528 : take_word(s) % 500);
    if (sort == 0)
        spoil_layout(s, w->layout);
    if (sort >= 13)
        corner_layout(s, w->layout);
    wish_limits(s, w);
}

static void wish_kinds(struct source *s, struct wish *w)
{
    uint32_t channels = w->layout[0] < 16 ? w->layout[0] : 16;
    for (int i = 0; i < 20; i++)
        w->kinds[i] = (uint8_t)pick(s, 3);
    w->kinds_len = channels;
    if (one_in(s, 8)) { /* longer: the rest may hold anything */
        w->kinds_len = channels + pick(s, 4);
        for (uint32_t i = channels; i < 20; i++)
            w->kinds[i] = take_byte(s);
    }
    if (one_in(s, 60))
        w->kinds_len = pick(s, channels + 1);
    if (channels > 0 && one_in(s, 60)) {
        uint32_t c = pick(s, channels);
        w->kinds[c] = one_in(s, 2) ? 3 : take_byte(s);
    }
}

void wish_for(struct source *s, struct wish *w)
{
    wish_layout(s, w);
    wish_kinds(s, w);
    w->any_lengths = one_in(s, 8);
}

size_t length_for(struct source *s, const struct wish *w, size_t need)
{
    uint32_t sort = pick(s, 32);
    if (sort < 4)
        return need + 1 + pick(s, 40);
    if (!w->any_lengths || sort < 28)
        return need;
    if (sort < 30)
        return need == 0 ? 0 : need - 1;
    return sort == 30 || need == 0 ? 0 : take_word(s) % need;
}

void tame(const struct wish *w, struct shape *l)
{
    uint32_t layout[8] = {0, 0, 0, 0, 0, 1, 15, 0};
    uint8_t kinds[20];
    memcpy(layout, w->layout, 4 * (w->layout_len < 5 ? 5 : w->layout_len < 8 ? w->layout_len : 8));
    for (int i = 0; i < 20; i++)
        kinds[i] = w->kinds[i] % 3;
    layout[0] = layout[0] < 1 ? 1 : layout[0] > 16 ? 16 : layout[0];
    layout[3] = layout[3] < 1 ? 1 : layout[3] > 128 ? 128 : layout[3];
    layout[1] = layout[1] > layout[3] ? layout[3] : layout[1];
    layout[2] = layout[2] > layout[3] - layout[1] ? layout[3] - layout[1] : layout[2];
    layout[4] = layout[4] < 8 ? 8 : layout[4] > 65535 ? 65535 : layout[4];
    layout[5] = layout[5] < 1 ? 1 : layout[5] > 15 ? 15 : layout[5];
    layout[6] = layout[6] < layout[5] ? layout[5] : layout[6] > 15 ? 15 : layout[6];
    layout[7] %= 2;
    shape_of(l, layout, 8, kinds, 20);
}

/* ---- spectra */

static float float_of(uint32_t bits)
{
    float v;
    memcpy(&v, &bits, 4);
    return v;
}

/* A decaying spectrum of some loudness, 2^-24 to 2^17. */
static void decaying(struct source *r, float *v, size_t count)
{
    float loudness = float_of((uint32_t)(103 + next_number(r) % 42) << 23);
    float decay = 0.80f + 0.0078125f * (float)(next_number(r) % 26);
    for (size_t i = 0; i < count; i += 128) {
        float now = loudness;
        for (size_t b = 0; b < 128 && i + b < count; b++, now *= decay)
            v[i + b] = now * ((float)(next_number(r) % 2049) / 1024.0f - 1.0f);
    }
}

/* A band of factor 1 whose other values lie next to a dead zone: a level is found and the frame is a bit too long. */
static void dead_zone(struct source *r, float *v, size_t count)
{
    memset(v, 0, 4 * count);
    for (size_t i = 0; i < count; i += 1024)
        for (size_t k = 0; k < 8 && i + 128 * k < count; k++)
            v[i + 128 * k] = float_of(k == 0 ? 0x342A8D26 : 0x2E634C94 + (next_number(r) % 8 == 0 ? (uint32_t)next_number(r) % 4 : 0));
}

void fill_spectra(struct source *s, float *v, size_t count)
{
    struct source r = bulk(s);
    uint32_t sort = pick(s, 16);
    uint32_t keep = sort == 9 ? 0xBFFFFFFF : 0xFFFFFFFF; /* 9: any bits of a magnitude below 2 */
    if (count == 0)
        return;
    if (sort < 7)
        decaying(&r, v, count);
    else if (sort == 7)
        memset(v, 0, 4 * count);
    else if (sort == 8 || sort == 12)
        dead_zone(&r, v, count);
    else if (sort <= 10)
        for (size_t i = 0; i < count; i++)
            v[i] = float_of((uint32_t)next_number(&r) & keep);
    else /* loud: all at the upper clip, codes one past the range among them */
        for (size_t i = 0; i < count; i++)
            v[i] = next_number(&r) % 4 == 0 ? -30.0f : 100000.0f;
    if (one_in(s, 10)) {
        static const uint32_t bad[6] = {0x7F800000, 0xFF800000, 0x7F800001, 0x7FC00000, 0xFFFFFFFF, 0x7F7FFFFF};
        size_t at = take_word(s) % count;
        v[at] = float_of(bad[pick(s, 6)]); /* the last is finite */
    }
}

/* ---- records */

static void make_factors(struct source *r, uint8_t *factors, uint32_t count)
{
    uint32_t sort = (uint32_t)next_number(r) % 5;
    int now = (int)(next_number(r) % 64), step = 1 << next_number(r) % 5;
    for (uint32_t b = 0; b < count; b++) {
        now += (int)(next_number(r) % (2 * (unsigned)step + 1)) - step;
        now = now < 0 ? 0 : now > 63 ? 63 : now;
        uint32_t f = (uint32_t)now;
        if (sort == 0 || (sort == 1 && next_number(r) % 8 != 0))
            f = 0;
        if (sort == 2)
            f = (uint32_t)(next_number(r) % 64);
        factors[b] = (uint8_t)f;
    }
}

void make_record(struct source *s, const struct shape *l, struct record *out)
{
    struct source r = bulk(s);
    memset(out, 0, sizeof *out);
    out->head[0] = one_in(s, 12) ? 0 : one_in(s, 12) ? 511 : (uint32_t)(next_number(&r) % (one_in(s, 4) ? 512 : 255));
    out->head[1] = one_in(s, 4) ? 0 : (uint32_t)(next_number(&r) % 128);
    for (uint32_t c = 0; c < l->channels; c++) {
        make_factors(&r, out->factors + 128 * c, coded_count(l, c));
        for (uint32_t i = 0; i < 8; i++)
            out->side[8 * c + i] = (uint8_t)(l->kinds[c] == 2 ? next_number(&r) % 16 : i < l->groups ? next_number(&r) % 64 : 0);
        for (uint32_t b = 0; b < coded_count(l, c); b++) {
            int32_t most = code_range(resolution(l, out->factors[128 * c + b], out->head[0], out->head[1], b));
            for (uint32_t k = 0; k < 8; k++)
                if (most > 0 && next_number(&r) % 3 != 0)
                    out->codes[1024 * c + 128 * k + b] = (int32_t)(next_number(&r) % (2 * (uint32_t)most + 1)) - most;
        }
    }
}

void spoil_record(struct source *s, const struct shape *l, struct record *x)
{
    static const int32_t odd[6] = {INT32_MIN, INT32_MAX, -8, 8, 3, 1};
    uint32_t c = pick(s, l->channels), b = pick(s, 128), i = 1024 * c + 128 * pick(s, 8) + b;
    int32_t most = code_range(resolution(l, x->factors[128 * c + b], x->head[0], x->head[1], b));
    uint32_t sort = pick(s, 8), at = pick(s, 8);
    switch (sort) {
    case 0: x->head[0] = one_in(s, 2) ? 512 : take_word(s); break;
    case 1: x->head[1] = one_in(s, 2) ? 128 : take_word(s); break;
    case 2: x->head[0] = 0; break;
    case 3: x->factors[128 * c + b] = take_byte(s); break;
    case 4: x->side[8 * c + at] = take_byte(s); break;
    case 5: x->codes[i] = most + 1; break;
    case 6: x->codes[i] = -most - 1; break;
    default: x->codes[i] = odd[at % 6]; break;
    }
}

/* ---- bits of a frame */

void flip(uint8_t *frame, uint32_t bit) { frame[bit / 8] ^= (uint8_t)(0x80 >> bit % 8); }

void put_bits(uint8_t *frame, uint32_t at, uint32_t value, uint32_t count)
{
    for (uint32_t i = 0; i < count; i++)
        if (bits_at(frame, at + i, 1) != (value >> (count - 1 - i) & 1))
            flip(frame, at + i);
}

void any_bits_from(struct source *s, uint8_t *frame, uint32_t bit, uint32_t limit)
{
    struct source r = bulk(s);
    for (; bit < limit && bit % 8 != 0; bit++)
        if (next_number(&r) % 2 == 0)
            flip(frame, bit);
    for (; bit < limit; bit += 8)
        frame[bit / 8] = (uint8_t)(next_number(&r) >> 20);
}
