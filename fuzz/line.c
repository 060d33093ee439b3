/* Hostile calls of the line, each checked against A5's rules: what it leaves is held against single calls of the stage. The same of
   the line from unmixed spectra: a single call of the stereo stage is the stage on what is mixed here. */
#include "../include/hca_frame.h"
#include "calls.h"
#include "checked.h"
#include "choices.h"

#include <string.h>

static const uint64_t full = (uint64_t)1 << 63;

static inline uint64_t *longs(const struct lent *b) { return (uint64_t *)(void *)b->data; }

enum { LINE_PARTS = 11 };

static void line_parts(struct part *parts, struct set *b, size_t n, size_t f, size_t count, enum use use)
{
    const struct part all[LINE_PARTS] = {
        {&b->layout, 0, READ_ONLY},
        {&b->kinds, 0, READ_ONLY},
        {&b->spectra, count * n * 1024, use},
        {&b->intensities, count * n * 8, use},
        {&b->scaled, n * 1024, IN_ORDER},
        {&b->codes, n * 1024, IN_ORDER},
        {&b->factors, n * 128, IN_ORDER},
        {&b->side, n * 8, IN_ORDER},
        {&b->frame, count * f, IN_ORDER},
        {&b->answers, count * 4, IN_ORDER},
        {&b->tally, 3, IN_ORDER},
    };
    memcpy(parts, all, sizeof all);
}

/* ---- what it leaves */

/* The work buffers as single calls leave them. */
static struct {
    float scaled[16 * 1024];
    int32_t codes[16 * 1024];
    uint8_t factors[16 * 128], side[16 * 8];
} work;

static void keep_work(const struct shape *l, const uint8_t *scaled, const uint8_t *codes, const uint8_t *factors, const uint8_t *side)
{
    memcpy(work.scaled, scaled, l->channels * 4096);
    memcpy(work.codes, codes, l->channels * 4096);
    memcpy(work.factors, factors, l->channels * 128);
    memcpy(work.side, side, l->channels * 8);
}

static void check_work(const struct shape *l, const struct set *b)
{
    if (memcmp(b->scaled.data, work.scaled, l->channels * 4096) != 0 || memcmp(b->codes.data, work.codes, l->channels * 4096) != 0 ||
        memcmp(b->factors.data, work.factors, l->channels * 128) != 0 || memcmp(b->side.data, work.side, l->channels * 8) != 0)
        fault("the work buffers are not those of the last frame tried");
}

/* Whether a refusal keeps the frame's parts and the work buffers. */
static int keeps(uint32_t number) { return number == HCA_BAD_INTENSITY || number == HCA_BAD_SPECTRUM || number == HCA_TOO_LOUD; }

/* Frame k as a single call made it in set `one`: its bytes, and its answers where it was delivered. */
static void check_frame(const struct shape *l, const struct set *b, const struct set *one, size_t k, uint32_t number)
{
    const uint8_t *was = keeps(number) ? b->frame.before + k * l->frame : one->frame.data;
    if (memcmp(b->frame.data + k * l->frame, was, l->frame) != 0)
        fault("frame %zu of the line is not as after the single call, which answers %u", k, number);
    if (number == 0 && memcmp(b->answers.data + 16 * k, one->answer.data, 16) != 0)
        fault("frame %zu of the line has other answers than the single call", k);
    if (!keeps(number))
        keep_work(l, one->scaled.data, one->codes.data, one->factors.data, one->side.data);
}

/* Frame k's spectra and intensities as lent, and then as its single call leaves them. */
static float own_spectra[16 * 1024];
static uint8_t own_intensities[16 * 8];

/* The single call on them, in set `one` but for 17, which it never has. */
static uint32_t single_again(enum function f, struct set *one, const struct shape *l, struct source *s)
{
    uint32_t number = stage_again(one, l, own_spectra, own_intensities, s);
    if (f == LINE || number == HCA_BAD_INTENSITY || number == HCA_BAD_SPECTRUM)
        return number;
    if (is_too_loud(l, own_spectra))
        return HCA_TOO_LOUD;
    take_back_stage(one);
    mix_pairs(l, own_spectra, own_intensities);
    return stage_again(one, l, own_spectra, own_intensities, s);
}

static void check_signal(const struct shape *l, const struct set *b, size_t k, uint32_t number)
{
    if (memcmp(b->spectra.data + k * l->channels * 4096, own_spectra, l->channels * 4096) != 0)
        fault("the spectra of frame %zu are not as after the single call, which answers %u", k, number);
    if (memcmp(b->intensities.data + k * l->channels * 8, own_intensities, l->channels * 8) != 0)
        fault("the intensities of frame %zu are not as after the single call, which answers %u", k, number);
}

/* The tally has gained this. */
static void check_tally(const struct set *b, const uint64_t gain[3])
{
    const uint64_t *before = (const uint64_t *)(const void *)b->tally.before;
    for (int i = 0; i < 3; i++)
        if (longs(&b->tally)[i] != before[i] + gain[i])
            fault("count %d of the tally grew by %llu, not by %llu", i, (unsigned long long)(longs(&b->tally)[i] - before[i]),
                  (unsigned long long)gain[i]);
}

/* Single calls, frame after frame, up to the first that is refused; the line has to leave what they leave. */
static void check_line(enum function f, const struct shape *l, const struct set *b, size_t count, uint32_t number, struct source *s)
{
    uint64_t gain[3] = {0, 0, 0};
    uint32_t refused = 0;
    size_t k = 0, n = l->channels;
    keep_work(l, b->scaled.before, b->codes.before, b->factors.before, b->side.before);
    for (; k < count && refused == 0; k++) {
        struct set *one = &sets[1];
        memcpy(own_spectra, b->spectra.before + k * n * 4096, n * 4096);
        memcpy(own_intensities, b->intensities.before + k * n * 8, n * 8);
        refused = single_again(f, one, l, s);
        const uint32_t *a = words(&one->answer);
        uint32_t beside = refused == HCA_TOO_LOUD ? 0 : a[0];
        check_frame(l, b, one, k, refused);
        check_signal(l, b, k, refused);
        if (refused == 0)
            gain[0] += 1, gain[1] += a[3], gain[2] += a[2];
        else if (words(&b->answer)[0] != beside || words(&b->answer)[1] != k)
            fault("refusal %u beside %u at frame %zu, told as %u at frame %u", refused, beside, k, words(&b->answer)[0],
                  words(&b->answer)[1]);
        take_back_stage(one);
    }
    if (refused != number)
        fault("the line answers %u and single calls %u", number, refused);
    size_t delivered = refused == 0 ? k : k - 1;
    rest_is_untouched(&b->spectra, k * n * 1024);
    rest_is_untouched(&b->intensities, k * n * 8);
    rest_is_untouched(&b->frame, k * l->frame);
    rest_is_untouched(&b->answers, 4 * delivered);
    check_work(l, b);
    check_tally(b, gain);
}

/* ---- the call */

static int is_large(const struct set *b, size_t count)
{
    for (size_t i = 0; i < 3 && i < b->tally.count; i++)
        if (longs(&b->tally)[i] > full)
            return 1;
    return count > 65535;
}

static uint32_t line_in(enum function f, struct set *b, size_t count)
{
    if (f == LINE)
        return hca_encode_line(
            words(&b->layout), b->layout.count, b->kinds.data, b->kinds.count, count, floats(&b->spectra), b->spectra.count,
            b->intensities.data, b->intensities.count, floats(&b->scaled), b->scaled.count, codes_of(&b->codes), b->codes.count,
            b->factors.data, b->factors.count, b->side.data, b->side.count, b->frame.data, b->frame.count, words(&b->answers),
            b->answers.count, longs(&b->tally), b->tally.count, words(&b->answer), b->answer.count);
    return hca_encode_stereo_line(
        words(&b->layout), b->layout.count, b->kinds.data, b->kinds.count, count, floats(&b->spectra), b->spectra.count,
        b->intensities.data, b->intensities.count, floats(&b->scaled), b->scaled.count, codes_of(&b->codes), b->codes.count,
        b->factors.data, b->factors.count, b->side.data, b->side.count, b->frame.data, b->frame.count, words(&b->answers),
        b->answers.count, longs(&b->tally), b->tally.count, words(&b->answer), b->answer.count);
}

static void call_line(enum function f, struct set *b, size_t count, struct source *s)
{
    struct shape l = {0};
    struct part parts[LINE_PARTS];
    int legal = shape_in(&l, b), large = is_large(b, count);
    enum use use = f == LINE ? READ_ONLY : IN_ORDER;
    line_parts(parts, b, legal ? l.channels : 0, legal ? l.frame : 0, legal && !large ? count : 0, use);
    struct expected e = legal && large ? just(HCA_BAD_BATCH, 0) : before_the_work(parts, LINE_PARTS, legal, b->answer.count);
    seal_all(parts, LINE_PARTS, &b->answer);
    uint32_t number = line_in(f, b, count);
    check_call(f, parts, LINE_PARTS, &b->answer, number, e, 1);
    if (!e.known)
        check_line(f, &l, b, count, number, s);
    give_back_all(parts, LINE_PARTS, &b->answer);
}

/* ---- what is lent */

static void fill_tally(struct source *s, struct lent *tally)
{
    for (size_t i = 0; i < tally->count; i++) {
        uint32_t sort = pick(s, 40);
        longs(tally)[i] = sort == 0 ? full + 1 : sort == 1 ? longs(tally)[i] : sort < 4 ? full : sort == 4 ? full - 1 : pick(s, 100);
    }
}

/* How many frames are told where buffers of some are lent. */
static size_t told_count(struct source *s, size_t count)
{
    switch (pick(s, 32)) {
    case 0: return 65536;
    case 1: return 65535;
    case 2: return SIZE_MAX - pick(s, 3);
    case 3: return ((size_t)1 << 32) + count;
    case 4: return count + 1;
    default: return count;
    }
}

static void lend_line(struct set *b, const struct wish *w, size_t count, struct source *s)
{
    size_t n = need_channels(w), all = count * n * 1024;
    lend_named(b, w->layout, w->layout_len, w->kinds, w->kinds_len, s);
    lend(&b->spectra, "spectra", 4, length_for(s, w, all), s);
    for (size_t k = 0; k < count && b->spectra.count >= all; k++)
        fill_spectra(s, floats(&b->spectra) + k * n * 1024, n * 1024);
    lend(&b->intensities, "intensities", 1, length_for(s, w, count * n * 8), s);
    for (size_t i = 0; i < b->intensities.count; i++)
        if (n > 0 && w->kinds[i / 8 % n] == 2 && pick(s, 200) != 0)
            b->intensities.data[i] &= 15;
    lend(&b->scaled, "scaled", 4, length_for(s, w, n * 1024), s);
    lend(&b->codes, "codes", 4, length_for(s, w, n * 1024), s);
    lend(&b->factors, "factors", 1, length_for(s, w, n * 128), s);
    lend(&b->side, "side", 1, length_for(s, w, n * 8), s);
    lend(&b->frame, "frames", 1, length_for(s, w, count * need_frame(w)), s);
    lend(&b->answers, "answers", 4, length_for(s, w, count * 4), s);
    lend(&b->tally, "tally", 8, length_for(s, w, 3), s);
    fill_tally(s, &b->tally);
    lend(&b->answer, "answer", 4, length_for(s, w, 4), s);
}

/* Spectra within what is mixed, most of them; some with a value just past it. */
static void tame_frames(struct set *b, struct source *s)
{
    uint32_t *v = words(&b->spectra), sort = pick(s, 6);
    for (size_t i = 0; i < b->spectra.count && sort != 0; i++)
        if ((v[i] & 0x7FFFFFFF) > 0x47800000 && (v[i] & 0x7FFFFFFF) < 0x7F800000)
            v[i] = (v[i] & 0x80000000) | 0x47800000;
    if (sort == 1 && b->spectra.count > 0)
        v[take_word(s) % b->spectra.count] = 0x47800001;
}

static void hostile_frames(enum function f, struct source *s)
{
    struct set *b = &sets[0];
    struct wish w;
    wish_for(s, &w);
    if (one_in(s, f == LINE ? 8 : 3)) { /* small frames, where refusal 7 can come */
        w.layout[0] = 1, w.layout[1] = 1, w.layout[2] = 0, w.layout[3] = 1, w.layout[4] = 17 + pick(s, 5);
    } else if (f == STEREO_LINE && w.layout[0] > 1 && one_in(s, 2))
        w.kinds[0] = 1;
    size_t n = need_channels(&w), frame = need_frame(&w), most = 6;
    if (n * most > 22)
        most = 22 / n;
    if (frame * most > 90000)
        most = 90000 / frame;
    size_t count = one_in(s, 12) ? 0 : 1 + pick(s, (uint32_t)most);
    lend_line(b, &w, count, s);
    if (f == STEREO_LINE)
        tame_frames(b, s);
    call_line(f, b, told_count(s, count), s);
}

void hostile_line(struct source *s) { hostile_frames(LINE, s); }

void hostile_stereo_line(struct source *s) { hostile_frames(STEREO_LINE, s); }
