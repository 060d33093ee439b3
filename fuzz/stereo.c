/* Hostile calls of the stereo stage, each checked against A2's rules. */
#include "../include/hca_frame.h"
#include "calls.h"
#include "checked.h"
#include "choices.h"

#include <string.h>

static uint32_t bits_of(float v)
{
    uint32_t bits;
    memcpy(&bits, &v, 4);
    return bits;
}

static float float_of(uint32_t bits)
{
    float v;
    memcpy(&v, &bits, 4);
    return v;
}

static float magnitude(float v) { return float_of(bits_of(v) & 0x7FFFFFFF); }

/* ---- the mixing, each operation rounded once */

static uint8_t intensity_of(float left, float combined)
{
    static const uint32_t bounds[13] = {0,          0x3FE49249, 0x3FD24925, 0x3FC00000, 0x3FADB6DB, 0x3F9B6DB7, 0x3F892492,
                                        0x3F6DB6DB, 0x3F492492, 0x3F249249, 0x3F000000, 0x3EB6DB6E, 0x3E5B6DB7};
    float stored = 2.0f * left / combined;
    uint8_t value = 1;
    while (value < 13 && float_of(bounds[value]) >= stored)
        value++;
    return value;
}

static float ratio_of(float combined, float total)
{
    float ratio = combined / total;
    return ratio < 0.5f ? 0.5f : ratio > float_of(0x3F3504F3) ? float_of(0x3F3504F3) : ratio;
}

static uint8_t mix_subframe(float *left, float *right, uint32_t count)
{
    float l = 0.0f, r = 0.0f, both = 0.0f, ratio = 1.0f;
    for (uint32_t b = 0; b < count; b++) {
        l += magnitude(left[b]);
        r += magnitude(right[b]);
        both += magnitude(left[b] + right[b]);
    }
    if (l + r > 0.0f && both * 2.0f > 0.0f)
        ratio = ratio_of(l + r, both * 2.0f);
    for (uint32_t b = 0; b < count; b++) {
        left[b] = (left[b] + right[b]) * ratio;
        right[b] = 0.0f;
    }
    return l + r > 0.0f ? intensity_of(l, l + r) : 0;
}

void mix_pairs(const struct shape *l, float *spectra, uint8_t *intensities)
{
    for (uint32_t c = 0; c + 1 < l->channels; c++)
        for (uint32_t s = 0; s < 8 && l->kinds[c] == 1 && l->stereo > 0; s++) {
            float *left = spectra + 1024 * c + 128 * s + l->base;
            intensities[8 * (c + 1) + s] = mix_subframe(left, left + 1024, l->total - l->base);
        }
}

int is_too_loud(const struct shape *l, const float *spectra)
{
    for (uint32_t i = 0; i < l->channels * 1024; i++)
        if ((bits_of(spectra[i]) & 0x7FFFFFFF) > 0x47800000)
            return 1;
    return 0;
}

/* ---- the call */

static struct expected before_the_mixing(const struct shape *l, const struct set *b)
{
    struct expected e = before_the_stage(l, b);
    return !e.known && is_too_loud(l, floats(&b->spectra)) ? just(HCA_TOO_LOUD, 0) : e;
}

static float mixed[16 * 1024];
static uint8_t mixed_intensities[16 * 8];

/* Delivered or refused by the stage: spectra and intensities are mixed, and the rest is the stage's on these. */
static void check_mixed(const struct shape *l, const struct set *b, uint32_t number, struct source *s)
{
    if (memcmp(b->spectra.data, mixed, l->channels * 4096) != 0)
        fault("after %u the spectra are not mixed", number);
    if (memcmp(b->intensities.data, mixed_intensities, l->channels * 8) != 0)
        fault("after %u the intensities are not those of the mixing", number);
    check_stage_outcome(l, b, number, s);
    uint32_t again = stage_again(&sets[1], l, mixed, mixed_intensities, s);
    const uint32_t *a = words(&b->answer), *r = words(&sets[1].answer);
    if (again != number || memcmp(a, r, number == 0 ? 16 : 4) != 0)
        fault("the stereo stage answers %u, %u and the stage on what is mixed %u, %u", number, a[0], again, r[0]);
    else if (!same_stage(l, b, &sets[1]))
        fault("the stereo stage leaves other buffers than the stage on what is mixed");
    take_back_stage(&sets[1]);
}

static void call_stereo(struct set *b, struct source *s)
{
    struct shape l = {0};
    struct part parts[STAGE_PARTS];
    int legal = shape_in(&l, b);
    stage_parts(parts, b, legal ? l.channels : 0, legal ? l.frame : 0, MIXED);
    struct expected e = before_the_work(parts, STAGE_PARTS, legal, b->answer.count);
    if (!e.known)
        e = before_the_mixing(&l, b);
    int works = !e.known;
    if (works) {
        memcpy(mixed, b->spectra.data, l.channels * 4096);
        memcpy(mixed_intensities, b->intensities.data, l.channels * 8);
        mix_pairs(&l, mixed, mixed_intensities);
    }
    seal_all(parts, STAGE_PARTS, &b->answer);
    uint32_t number = hca_encode_stereo_frame(
        words(&b->layout), b->layout.count, b->kinds.data, b->kinds.count, floats(&b->spectra), b->spectra.count,
        b->intensities.data, b->intensities.count, floats(&b->scaled), b->scaled.count, codes_of(&b->codes), b->codes.count,
        b->factors.data, b->factors.count, b->side.data, b->side.count, b->frame.data, b->frame.count, words(&b->answer),
        b->answer.count);
    check_call(STEREO, parts, STAGE_PARTS, &b->answer, number, e, 1);
    if (works && (number == 0 || number == HCA_NO_LEVEL || number == HCA_TOO_LONG))
        check_mixed(&l, b, number, s);
    give_back_all(parts, STAGE_PARTS, &b->answer);
}

/* ---- what is lent */

/* A pair whose left is twice what the stage's corner asks for and whose right is silent: mixed, it is the corner. */
static void double_left(struct set *b)
{
    if (b->spectra.count < 2048)
        return;
    for (uint32_t i = 0; i < 1024; i++)
        floats(&b->spectra)[i] *= 2.0f;
    memset(b->spectra.data + 4096, 0, 4096);
}

/* Spectra within the limit, most of them; some opposite, some with one value just past it. */
static void tame_spectra(struct set *b, size_t count, struct source *s)
{
    uint32_t *v = words(&b->spectra), sort = pick(s, 8);
    if (count == 0 || b->spectra.count < count)
        return;
    for (size_t i = 0; i < count && sort != 0; i++)
        if ((v[i] & 0x7FFFFFFF) > 0x47800000 && (v[i] & 0x7FFFFFFF) < 0x7F800000)
            v[i] = (v[i] & 0x80000000) | 0x47800000;
    for (size_t i = 1024; i < count && sort == 1; i++)
        v[i] = v[i - 1024] ^ 0x80000000;
    if (sort == 2)
        v[take_word(s) % count] = 0x47800001;
}

void hostile_stereo(struct source *s)
{
    struct set *b = &sets[0];
    struct wish w;
    wish_for(s, &w);
    if (w.layout[0] > 1 && one_in(s, 2))
        w.kinds[0] = 1;
    int corner = one_in(s, 16);
    if (corner) { /* small frames, where refusal 7 can come */
        w.layout[0] = 2, w.layout[1] = 0, w.layout[2] = 1, w.layout[3] = 1, w.layout[4] = 17 + pick(s, 5);
        w.kinds[0] = 1, w.kinds[1] = 0;
        w.kinds_len = w.kinds_len < 2 ? 2 : w.kinds_len;
    }
    lend_stage(b, &w, s);
    tame_spectra(b, need_channels(&w) * 1024, s);
    if (corner)
        double_left(b);
    call_stereo(b, s);
}
