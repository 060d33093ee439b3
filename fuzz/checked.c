#include "checked.h"

#include "../include/hca_frame.h"
#include "calls.h"

#include <string.h>

struct set sets[3];

static const char *const names[FUNCTIONS] = {
    [ENCODE] = "hca_encode_frame",
    [WRITE] = "hca_write_record",
    [READ] = "hca_read_frame",
    [CHECKSUM] = "hca_checksum",
    [STEREO] = "hca_encode_stereo_frame",
    [LINE] = "hca_encode_line",
    [STEREO_LINE] = "hca_encode_stereo_line",
};
/* which numbers a call can give, a bit each; there is no 6 and no 10 */
const uint32_t can_give[FUNCTIONS] = {
    [ENCODE] = 0x00BF,
    [WRITE] = 0x8087,
    [READ] = 0x7B07,
    [CHECKSUM] = 1,
    [HEADER] = 0x10007,
    [LIST_WRITE] = 0x200005,
    [LIST_READ] = 0x380005,
    [LIST_LOOKUP] = 0x80380005,
    [LIST_SUMMARY] = 0x380005,
    [WAV] = 0x43C00005,
    [STEREO] = 0x200BF,
    [LINE] = 0x400BF,
    [STEREO_LINE] = 0x600BF,
    [HEADER_BACK] = 0x3C000005,
};
static const size_t delivered_places[FUNCTIONS] = {
    [ENCODE] = 4,
    [WRITE] = 3,
    [READ] = 3,
    [STEREO] = 4,
    [LINE] = 0,
    [STEREO_LINE] = 0,
};

struct expected before_the_work(const struct part *parts, int count, int legal, size_t answer_len)
{
    if (!legal)
        return just(HCA_BAD_LAYOUT, 0);
    for (int i = 0; i < count; i++)
        if (parts[i].b->count < parts[i].need)
            return just(HCA_SHORT_BUFFER, 0);
    return answer_len < 4 ? just(HCA_SHORT_BUFFER, 0) : nothing_known();
}

static void check_written(const struct part *p, uint32_t number)
{
    int of_a_frame = p->use == IN_ORDER && (number == HCA_BAD_INTENSITY || number == HCA_BAD_SPECTRUM || number == HCA_TOO_LOUD);
    if (((number >= 1 && number <= 4) || number >= 15) && !of_a_frame) {
        is_untouched(p->b);
        return;
    }
    if (number != 0 && p->use == WRITTEN)
        is_zero(p->b, p->need);
    rest_is_untouched(p->b, p->need);
}

static void check_answer(enum function f, const struct lent *answer, uint32_t number)
{
    if (answer->count < 4)
        is_untouched(answer);
    else if ((f == LINE || f == STEREO_LINE) && ((number >= 3 && number <= 7) || number == HCA_TOO_LOUD))
        rest_is_untouched(answer, 2); /* with the frame's index */
    else
        rest_is_untouched(answer, number == 0 ? delivered_places[f] : 1);
}

void check_call(enum function f, const struct part *parts, int count, const struct lent *answer, uint32_t number,
                       struct expected e, int first)
{
    uint32_t beside = answer->count < 4 ? 0 : words(answer)[0];
    saw(f, number, number == 0 ? 0 : beside, first);
    if (number >= NUMBERS || (can_give[f] >> number & 1) == 0) {
        fault("%s: answered %u", names[f], number);
        return;
    }
    if (e.known && (number != e.number || (number != 0 && answer->count >= 4 && beside != e.beside)))
        fault("%s: answered %u beside %u, not %u beside %u", names[f], number, beside, e.number, e.beside);
    guards_hold(answer);
    check_answer(f, answer, number);
    for (int i = 0; i < count; i++) {
        guards_hold(parts[i].b);
        if (parts[i].use != READ_ONLY)
            check_written(&parts[i], number);
        else
            is_untouched(parts[i].b);
    }
}

void seal_all(const struct part *parts, int count, struct lent *answer)
{
    for (int i = 0; i < count; i++)
        seal(parts[i].b);
    seal(answer);
}

void give_back_all(const struct part *parts, int count, struct lent *answer)
{
    for (int i = 0; i < count; i++)
        give_back(parts[i].b);
    give_back(answer);
}

int shape_in(struct shape *l, const struct set *b)
{
    return shape_of(l, words(&b->layout), b->layout.count, b->kinds.data, b->kinds.count);
}

/* ---- what holds after a delivery */

static void check_head(const struct shape *l, const uint8_t *frame, uint32_t level, uint32_t boundary, uint32_t bits)
{
    uint32_t limit = 8 * (l->frame - 2);
    if (bits_at(frame, 0, 16) != 0xFFFF || bits_at(frame, 16, 9) != level || bits_at(frame, 25, 7) != boundary)
        fault("the frame's head is not sync, level %u, boundary %u", level, boundary);
    if (bits < 32 || bits > limit) {
        fault("%u bits in a frame of %u bytes", bits, l->frame);
        return;
    }
    for (uint32_t i = bits; i < limit; i += 8 - i % 8)
        if (bits_at(frame, i, 8 - i % 8) != 0) {
            fault("the fill after bit %u holds a 1", i);
            return;
        }
    if (bits_at(frame, limit, 16) != divided(frame, l->frame - 2))
        fault("the check of a delivered frame is wrong");
}

static enum verdict verdict_in(const struct shape *l, uint32_t level, uint32_t boundary, const struct set *b)
{
    return record_verdict(l, level, boundary, b->factors.data, b->side.data, codes_of(&b->codes));
}

int same_record(const struct shape *l, const struct set *a, const struct set *b)
{
    return memcmp(a->factors.data, b->factors.data, l->channels * 128) == 0 &&
           memcmp(a->side.data, b->side.data, l->channels * 8) == 0 &&
           memcmp(a->codes.data, b->codes.data, l->channels * 4096) == 0;
}

/* ---- the calls */

void lend_named(struct set *b, const uint32_t *layout, size_t layout_len, const uint8_t *kinds, size_t kinds_len, struct source *s)
{
    lend(&b->layout, "layout", 4, layout_len, s);
    if (layout_len > 0)
        memcpy(b->layout.data, layout, 4 * layout_len);
    lend(&b->kinds, "kinds", 1, kinds_len, s);
    if (kinds_len > 0)
        memcpy(b->kinds.data, kinds, kinds_len);
}

static void lend_shape(struct set *b, const struct shape *l, struct source *s)
{
    uint32_t layout[10] = {l->channels, l->base, l->stereo, l->total, l->frame, l->minimum, l->maximum};
    layout[7] = l->mode;
    layout[8] = take_word(s);
    layout[9] = take_word(s);
    /* a default may be left out, and from the ninth number on nothing is looked at */
    uint32_t least = l->mode > 0 ? 8 : l->maximum < 15 ? 7 : l->minimum > 1 ? 6 : 5;
    lend_named(b, layout, least + pick(s, 11 - least), l->kinds, l->channels, s);
}

/* The same with either mode: reader and writer do not look at it. */
static void lend_in_any_mode(struct set *b, const struct shape *l, struct source *s)
{
    struct shape other = *l;
    other.mode = pick(s, 2);
    lend_shape(b, &other, s);
}

/* Reads a frame of this shape into set b, exact lengths. */
uint32_t read_again(struct set *b, const struct shape *l, const uint8_t *frame, struct expected e, struct source *s)
{
    lend_in_any_mode(b, l, s);
    lend(&b->frame, "frame", 1, l->frame, s);
    memcpy(b->frame.data, frame, l->frame);
    lend(&b->factors, "factors", 1, l->channels * 128, s);
    lend(&b->side, "side", 1, l->channels * 8, s);
    lend(&b->codes, "codes", 4, l->channels * 1024, s);
    lend(&b->answer, "answer", 4, 4, s);
    return call_read(b, 0, e);
}

/* Writes the record in set `from` into set b, exact lengths. */
uint32_t write_again(struct set *b, const struct shape *l, const struct set *from, const uint32_t *record, struct source *s)
{
    lend_in_any_mode(b, l, s);
    lend(&b->record, "record", 4, 2, s);
    memcpy(b->record.data, record, 8);
    lend(&b->factors, "factors", 1, l->channels * 128, s);
    memcpy(b->factors.data, from->factors.data, l->channels * 128);
    lend(&b->side, "side", 1, l->channels * 8, s);
    memcpy(b->side.data, from->side.data, l->channels * 8);
    lend(&b->codes, "codes", 4, l->channels * 1024, s);
    memcpy(b->codes.data, from->codes.data, l->channels * 4096);
    lend(&b->frame, "frame", 1, l->frame, s);
    lend(&b->answer, "answer", 4, 4, s);
    return call_write(b, 0);
}

/* The writer has to write this record to just this frame. */
static void must_write_to(const struct shape *l, const struct set *from, const uint32_t *record, const uint8_t *frame,
                          uint32_t bits, struct set *b, struct source *s)
{
    uint32_t number = write_again(b, l, from, record, s);
    if (number != 0)
        fault("the writer refuses the record of a good frame with %u", number);
    else if (memcmp(b->frame.data, frame, l->frame) != 0)
        fault("the writer writes the record of a good frame to other bytes");
    else if (words(&b->answer)[0] != record[0] || words(&b->answer)[1] != record[1] || words(&b->answer)[2] != bits)
        fault("the writer tells other numbers than the call that made the frame");
    take_back_write(b);
}

static int finite(float value)
{
    uint32_t bits;
    memcpy(&bits, &value, 4);
    return (bits & 0x7F800000) != 0x7F800000;
}

struct expected before_the_stage(const struct shape *l, const struct set *b)
{
    for (uint32_t i = 0; i < l->channels * 8; i++)
        if (l->kinds[i / 8] == 2 && b->intensities.data[i] > 15)
            return just(HCA_BAD_INTENSITY, i);
    for (uint32_t i = 0; i < l->channels * 1024; i++)
        if (!finite(floats(&b->spectra)[i]))
            return just(HCA_BAD_SPECTRUM, i);
    return nothing_known();
}

static void check_scaled_and_side(const struct shape *l, const struct set *b)
{
    for (uint32_t i = 0; i < l->channels * 1024; i++) {
        uint32_t bits = words(&b->scaled)[i];
        uint32_t band = i % 1024 / 8;
        if ((bits & 0x7FFFFFFF) > 0x3F7FFFFE || (band >= coded_count(l, i / 1024) && bits != 0)) {
            fault("scaled value %u is %08x", i, bits);
            return;
        }
    }
    for (uint32_t c = 0; c < l->channels; c++)
        if (l->kinds[c] == 2 && memcmp(b->side.data + 8 * c, b->intensities.data + 8 * c, 8) != 0)
            fault("side of secondary %u is not its intensities", c);
}

/* The frame against its own record: reader and writer have to agree with the stage. */
static void check_stage_frame(const struct shape *l, const struct set *b, struct source *s)
{
    const uint32_t *a = words(&b->answer);
    enum verdict v = verdict_in(l, a[0], a[1], b);
    check_head(l, b->frame.data, a[0], a[1], a[3]);
    check_scaled_and_side(l, b);
    if (a[0] > 254 || (a[0] == 0 && a[1] != 0)) /* narrower than what a record may have */
        fault("the stage answers level %u, boundary %u", a[0], a[1]);
    if (l->minimum == l->maximum && a[0] != 0) /* all levels have one estimate */
        fault("the stage answers level %u where every resolution is %u", a[0], l->minimum);
    if (a[2] > (l->start == 0 ? 0 : (l->start - 1) / 2))
        fault("%u pairs removed of %u bands", a[2], l->start);
    if (v == ILLEGAL)
        fault("the stage delivered a record that is not legal");
    if (v == CORNER && l->mode == 1)
        fault("in held mode the stage delivered a code past its range");
    if (v == CORNER) {
        if (write_again(&sets[1], l, b, a, s) != HCA_NOT_LEGAL)
            fault("the writer takes a code past its range");
        take_back_write(&sets[1]);
    }
    if (v != LEGAL)
        return;
    uint32_t number = read_again(&sets[1], l, b->frame.data, nothing_known(), s);
    const uint32_t *r = words(&sets[1].answer);
    if (number != 0)
        fault("the reader refuses the stage's frame with %u at %u", number, r[0]);
    else if (r[0] != a[0] || r[1] != a[1] || r[2] != a[3] || !same_record(l, b, &sets[1]))
        fault("the reader hands back another record than the stage's");
    take_back_read(&sets[1]);
}

/* Beside refusal 7: more bits than the frame has before its check, and no more than any record has. */
static void check_need(const struct shape *l, uint32_t bits)
{
    if (bits <= 8 * (l->frame - 2) || bits > longest_fields(l))
        fault("refusal 7 beside %u in %u bytes", bits, l->frame);
}

void check_stage_outcome(const struct shape *l, const struct set *b, uint32_t number, struct source *s)
{
    if (number == HCA_NO_LEVEL && words(&b->answer)[0] != (l->start == 0 ? 0 : (l->start - 1) / 2))
        fault("refusal 5 after %u pairs of %u bands", words(&b->answer)[0], l->start);
    if (number == HCA_TOO_LONG)
        check_need(l, words(&b->answer)[0]);
    if (number == HCA_TOO_LONG && l->maximum < 8) /* there every code is written in the bits that were counted for it */
        fault("refusal 7 behind a found level, with no resolution above %u", l->maximum);
    if (number == 0)
        check_stage_frame(l, b, s);
}

static uint32_t encode_in(struct set *b)
{
    return hca_encode_frame(words(&b->layout), b->layout.count, b->kinds.data, b->kinds.count, floats(&b->spectra),
                            b->spectra.count, b->intensities.data, b->intensities.count, floats(&b->scaled), b->scaled.count,
                            codes_of(&b->codes), b->codes.count, b->factors.data, b->factors.count, b->side.data, b->side.count,
                            b->frame.data, b->frame.count, words(&b->answer), b->answer.count);
}

void stage_parts(struct part *parts, struct set *b, size_t n, size_t f, enum use use)
{
    const struct part all[STAGE_PARTS] = {
        {&b->layout, 0, READ_ONLY},       {&b->kinds, 0, READ_ONLY},      {&b->spectra, n * 1024, use},
        {&b->intensities, n * 8, use},    {&b->scaled, n * 1024, WRITTEN}, {&b->codes, n * 1024, WRITTEN},
        {&b->factors, n * 128, WRITTEN},  {&b->side, n * 8, WRITTEN},     {&b->frame, f, WRITTEN},
    };
    memcpy(parts, all, sizeof all);
}

uint32_t call_encode(struct set *b, struct source *s)
{
    struct shape l = {0};
    struct part parts[STAGE_PARTS];
    int legal = shape_in(&l, b);
    stage_parts(parts, b, legal ? l.channels : 0, legal ? l.frame : 0, READ_ONLY);
    struct expected e = before_the_work(parts, STAGE_PARTS, legal, b->answer.count);
    if (!e.known)
        e = before_the_stage(&l, b);
    int works = !e.known;
    seal_all(parts, STAGE_PARTS, &b->answer);
    uint32_t number = encode_in(b);
    check_call(ENCODE, parts, STAGE_PARTS, &b->answer, number, e, 1);
    if (works)
        check_stage_outcome(&l, b, number, s);
    give_back_all(parts, STAGE_PARTS, &b->answer);
    return number;
}

uint32_t stage_again(struct set *b, const struct shape *l, const float *spectra, const uint8_t *intensities, struct source *s)
{
    struct part parts[STAGE_PARTS];
    lend_shape(b, l, s);
    lend(&b->spectra, "spectra", 4, l->channels * 1024, s);
    memcpy(b->spectra.data, spectra, l->channels * 4096);
    lend(&b->intensities, "intensities", 1, l->channels * 8, s);
    memcpy(b->intensities.data, intensities, l->channels * 8);
    lend(&b->scaled, "scaled", 4, l->channels * 1024, s);
    lend(&b->codes, "codes", 4, l->channels * 1024, s);
    lend(&b->factors, "factors", 1, l->channels * 128, s);
    lend(&b->side, "side", 1, l->channels * 8, s);
    lend(&b->frame, "frame", 1, l->frame, s);
    lend(&b->answer, "answer", 4, 4, s);
    stage_parts(parts, b, l->channels, l->frame, READ_ONLY);
    seal_all(parts, STAGE_PARTS, &b->answer);
    uint32_t number = encode_in(b);
    check_call(ENCODE, parts, STAGE_PARTS, &b->answer, number, before_the_stage(l, b), 0);
    return number;
}

void take_back_stage(struct set *b)
{
    struct part parts[STAGE_PARTS];
    stage_parts(parts, b, 0, 0, READ_ONLY);
    give_back_all(parts, STAGE_PARTS, &b->answer);
}

int same_stage(const struct shape *l, const struct set *a, const struct set *b)
{
    return same_record(l, a, b) && memcmp(a->scaled.data, b->scaled.data, l->channels * 4096) == 0 &&
           memcmp(a->frame.data, b->frame.data, l->frame) == 0;
}

static void check_wrote(const struct shape *l, const struct set *b)
{
    const uint32_t *a = words(&b->answer);
    if (a[0] != words(&b->record)[0] || a[1] != words(&b->record)[1])
        fault("the writer tells level %u, boundary %u", a[0], a[1]);
    check_head(l, b->frame.data, a[0], a[1], a[2]);
}

uint32_t call_write(struct set *b, int first)
{
    struct shape l = {0};
    int legal = shape_in(&l, b);
    size_t n = legal ? l.channels : 0, f = legal ? l.frame : 0;
    struct part parts[7] = {{&b->layout, 0, READ_ONLY},       {&b->kinds, 0, READ_ONLY},    {&b->record, 2, READ_ONLY},
                            {&b->factors, n * 128, READ_ONLY}, {&b->side, n * 8, READ_ONLY}, {&b->codes, n * 1024, READ_ONLY},
                            {&b->frame, f, WRITTEN}};
    struct expected e = before_the_work(parts, 7, legal, b->answer.count);
    if (!e.known && verdict_in(&l, words(&b->record)[0], words(&b->record)[1], b) != LEGAL)
        e = just(HCA_NOT_LEGAL, 0);
    int works = !e.known;
    seal_all(parts, 7, &b->answer);
    uint32_t number =
        hca_write_record(words(&b->layout), b->layout.count, b->kinds.data, b->kinds.count, words(&b->record), b->record.count,
                         b->factors.data, b->factors.count, b->side.data, b->side.count, codes_of(&b->codes), b->codes.count,
                         b->frame.data, b->frame.count, words(&b->answer), b->answer.count);
    check_call(WRITE, parts, 7, &b->answer, number, e, first);
    if (works && number != 0 && number != HCA_TOO_LONG)
        fault("the writer refuses a legal record with %u beside %u", number, words(&b->answer)[0]);
    if (works && number == HCA_TOO_LONG)
        check_need(&l, words(&b->answer)[0]);
    if (works && number == 0)
        check_wrote(&l, b);
    return number;
}

void take_back_write(struct set *b)
{
    struct part parts[7] = {{&b->layout, 0, READ_ONLY}, {&b->kinds, 0, READ_ONLY}, {&b->record, 0, READ_ONLY},
                            {&b->factors, 0, READ_ONLY}, {&b->side, 0, READ_ONLY},  {&b->codes, 0, READ_ONLY},
                            {&b->frame, 0, READ_ONLY}};
    give_back_all(parts, 7, &b->answer);
}

static struct expected before_the_reader(const struct shape *l, const uint8_t *frame)
{
    if (bits_at(frame, 8 * (l->frame - 2), 16) != divided(frame, l->frame - 2))
        return just(HCA_WRONG_CHECK, 0);
    if (bits_at(frame, 0, 16) != 0xFFFF)
        return just(HCA_WRONG_SYNC, 0);
    return nothing_known();
}

/* Where a fault can lie: a width of 3 bits after the head of 32, a factor after a width, the longest field has 12 bits. */
static void check_place(const struct shape *l, const uint8_t *frame, uint32_t number, uint32_t bit)
{
    uint32_t limit = 8 * (l->frame - 2);
    int good = 1;
    if (number == HCA_BAD_WIDTH)
        good = bit >= 32 && bit + 3 <= limit;
    if (number == HCA_BAD_FACTOR)
        good = bit >= 41 && bit < limit;
    if (number == HCA_PAST_END)
        good = bit >= 32 && bit <= limit && bit + 12 > limit;
    if (number == HCA_FILL_NOT_ZERO)
        good = bit >= 35 && bit < limit && bits_at(frame, bit, 1) == 1;
    if (!good)
        fault("refusal %u at bit %u of a frame of %u bytes", number, bit, l->frame);
}

uint32_t call_read(struct set *b, int first, struct expected more)
{
    struct shape l = {0};
    int legal = shape_in(&l, b);
    size_t n = legal ? l.channels : 0, f = legal ? l.frame : 0;
    struct part parts[6] = {{&b->layout, 0, READ_ONLY},      {&b->kinds, 0, READ_ONLY},  {&b->frame, f, READ_ONLY},
                            {&b->factors, n * 128, WRITTEN}, {&b->side, n * 8, WRITTEN}, {&b->codes, n * 1024, WRITTEN}};
    struct expected e = before_the_work(parts, 6, legal, b->answer.count);
    if (!e.known)
        e = before_the_reader(&l, b->frame.data);
    int works = !e.known;
    if (works)
        e = more;
    seal_all(parts, 6, &b->answer);
    uint32_t number = hca_read_frame(words(&b->layout), b->layout.count, b->kinds.data, b->kinds.count, b->frame.data,
                                     b->frame.count, b->factors.data, b->factors.count, b->side.data, b->side.count,
                                     codes_of(&b->codes), b->codes.count, words(&b->answer), b->answer.count);
    check_call(READ, parts, 6, &b->answer, number, e, first);
    if (works && number >= 8)
        check_place(&l, b->frame.data, number, words(&b->answer)[0]);
    if (works && number == 0) {
        const uint32_t *a = words(&b->answer);
        check_head(&l, b->frame.data, a[0], a[1], a[2]);
        if (verdict_in(&l, a[0], a[1], b) != LEGAL)
            fault("the reader hands back a record that is not legal");
        must_write_to(&l, b, a, b->frame.data, a[2], &sets[2], &(struct source){0, 0, a[2]});
    }
    return number;
}

void take_back_read(struct set *b)
{
    struct part parts[6] = {{&b->layout, 0, READ_ONLY},  {&b->kinds, 0, READ_ONLY}, {&b->frame, 0, READ_ONLY},
                            {&b->factors, 0, READ_ONLY}, {&b->side, 0, READ_ONLY},  {&b->codes, 0, READ_ONLY}};
    give_back_all(parts, 6, &b->answer);
}
