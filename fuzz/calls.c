#include "calls.h"

#include "../include/hca_frame.h"
#include "checked.h"
#include "choices.h"
#include "files.h"

#include <string.h>

static void lend_wished(struct set *b, const struct wish *w, struct source *s)
{
    lend_named(b, w->layout, w->layout_len, w->kinds, w->kinds_len, s);
}

/* ---- the stage */

void lend_stage(struct set *b, const struct wish *w, struct source *s)
{
    size_t n = need_channels(w);
    lend_wished(b, w, s);
    lend(&b->spectra, "spectra", 4, length_for(s, w, n * 1024), s);
    if (b->spectra.count >= n * 1024)
        fill_spectra(s, floats(&b->spectra), n * 1024); /* past them a pattern: NaN among it */
    lend(&b->intensities, "intensities", 1, length_for(s, w, n * 8), s);
    for (size_t i = 0; i < b->intensities.count; i++)
        if (i / 8 < 16 && w->kinds[i / 8] == 2)
            b->intensities.data[i] &= 15;
    if (b->intensities.count > 0 && one_in(s, 12)) {
        uint32_t i = pick(s, (uint32_t)b->intensities.count);
        b->intensities.data[i] = take_byte(s);
    }
    lend(&b->scaled, "scaled", 4, length_for(s, w, n * 1024), s);
    lend(&b->codes, "codes", 4, length_for(s, w, n * 1024), s);
    lend(&b->factors, "factors", 1, length_for(s, w, n * 128), s);
    lend(&b->side, "side", 1, length_for(s, w, n * 8), s);
    lend(&b->frame, "frame", 1, length_for(s, w, need_frame(w)), s);
    lend(&b->answer, "answer", 4, length_for(s, w, 4), s);
}

static void hostile_encode(struct source *s)
{
    struct set *b = &sets[0];
    struct wish w;
    wish_for(s, &w);
    if (one_in(s, 16)) { /* small frames, where refusal 7 can come */
        w.layout[0] = 1, w.layout[1] = 1, w.layout[2] = 0, w.layout[3] = 1, w.layout[4] = 17 + pick(s, 5);
    }
    lend_stage(b, &w, s);
    call_encode(b, s);
}

/* ---- the record writer */

static struct record made;

static void put(struct lent *b, const void *from, size_t bytes)
{
    size_t n = bytes < b->bytes ? bytes : b->bytes;
    if (n > 0)
        memcpy(b->data, from, n);
}

/* A frame of the size that refusal 7 tells takes the record with so many bits, and one of a byte less refuses it alike. */
static void has_room_at(const struct set *b, const struct shape *l, uint32_t bits, struct source *s)
{
    struct shape larger = *l;
    larger.frame = (bits + 7) / 8 + 2;
    if (larger.frame < 9 || larger.frame > 65535)
        return; /* told already */
    uint32_t number = write_again(&sets[1], &larger, b, words(&b->record), s);
    if (number != 0 || words(&sets[1].answer)[2] != bits)
        fault("refusal 7 beside %u, and %u bytes answer %u, %u bits", bits, larger.frame, number, words(&sets[1].answer)[2]);
    take_back_write(&sets[1]);
    larger.frame -= 1;
    number = write_again(&sets[1], &larger, b, words(&b->record), s);
    if (number != HCA_TOO_LONG || words(&sets[1].answer)[0] != bits)
        fault("refusal 7 beside %u, and %u bytes answer %u, %u", bits, larger.frame, number, words(&sets[1].answer)[0]);
    take_back_write(&sets[1]);
}

static void hostile_write(struct source *s)
{
    struct set *b = &sets[0];
    struct wish w;
    struct shape l;
    wish_for(s, &w);
    tame(&w, &l);
    make_record(s, &l, &made);
    if (one_in(s, 3))
        spoil_record(s, &l, &made);
    size_t n = need_channels(&w);
    lend_wished(b, &w, s);
    lend(&b->record, "record", 4, length_for(s, &w, 2), s);
    put(&b->record, made.head, 8);
    lend(&b->factors, "factors", 1, length_for(s, &w, n * 128), s);
    lend(&b->side, "side", 1, length_for(s, &w, n * 8), s);
    lend(&b->codes, "codes", 4, length_for(s, &w, n * 1024), s);
    if (!one_in(s, 50)) { /* else the pattern: any bytes at all */
        put(&b->factors, made.factors, n * 128);
        put(&b->side, made.side, n * 8);
        put(&b->codes, made.codes, n * 4096);
    }
    lend(&b->frame, "frame", 1, length_for(s, &w, need_frame(&w)), s);
    lend(&b->answer, "answer", 4, length_for(s, &w, 4), s);
    uint32_t number = call_write(b, 1);
    if (number == 0) { /* the reader takes it, and hands the record back */
        uint32_t again = read_again(&sets[1], &l, b->frame.data, just(0, 0), s);
        if (again == 0 && !same_record(&l, b, &sets[1]))
            fault("the reader hands back another record than the writer was given");
        take_back_read(&sets[1]);
    }
    if (number == HCA_TOO_LONG)
        has_room_at(b, &l, words(&b->answer)[0], s);
    take_back_write(b);
}

/* ---- the strict reader */

static uint8_t frame_bytes[65535];

/* The frame of some record, or of the stage, of this shape; of silence where that has no room; else any bytes. */
static void good_frame(struct source *s, const struct shape *l)
{
    static float spectra[16 * 1024], scaled[16 * 1024];
    static const uint8_t intensities[128] = {7, 0, 15, 1, 8, 14, 2, 7};
    uint32_t layout[8] = {l->channels, l->base, l->stereo, l->total, l->frame, l->minimum, l->maximum, l->mode};
    uint32_t answer[4], number;
    size_t n = l->channels;
    if (one_in(s, 4)) {
        fill_spectra(s, spectra, n * 1024);
        number = hca_encode_frame(layout, 8, l->kinds, n, spectra, n * 1024, intensities, n * 8, scaled, n * 1024, made.codes,
                                  n * 1024, made.factors, n * 128, made.side, n * 8, frame_bytes, l->frame, answer, 4);
        if (number == 0)
            return;
    }
    make_record(s, l, &made);
    for (int attempt = 0; attempt < 2; attempt++) {
        number = hca_write_record(layout, 8, l->kinds, n, made.head, 2, made.factors, n * 128, made.side, n * 8, made.codes,
                                  n * 1024, frame_bytes, l->frame, answer, 4);
        if (number == 0)
            return;
        memset(&made, 0, sizeof made);
    }
    any_bits_from(s, frame_bytes, 0, 8 * l->frame);
}

/* Damages frame_bytes in one of many ways; most mend the check, so that the reader looks further. */
static void spoil_frame(struct source *s, const struct shape *l)
{
    uint32_t limit = 8 * (l->frame - 2), bit = take_word(s) % limit, sort = pick(s, 16);
    if (sort == 1 || sort == 2 || sort == 14)
        flip(frame_bytes, bit);
    if (sort == 2)
        for (int i = 0; i < 4; i++)
            flip(frame_bytes, take_word(s) % limit);
    if (sort == 3)
        flip(frame_bytes, take_word(s) % (8 * l->frame));
    if (sort == 4 || sort == 5)
        any_bits_from(s, frame_bytes, 32 + bit % (limit - 31), limit);
    if (sort == 6)
        flip(frame_bytes, bit % 16);
    if (sort == 7)
        put_bits(frame_bytes, 16, take_word(s), 16);
    if (sort == 8)
        put_bits(frame_bytes, 16, one_in(s, 2) ? 0 : 255 + pick(s, 3), 9);
    if (sort == 9)
        flip(frame_bytes, limit - 1 - pick(s, 8));
    if (sort == 10 && limit >= 35)
        put_bits(frame_bytes, 32, pick(s, 8), 3);
    if (sort == 11)
        any_bits_from(s, frame_bytes, 0, 8 * l->frame);
    if (sort == 12 || sort == 13) { /* the sync, any level, and then any bits */
        any_bits_from(s, frame_bytes, 32, limit);
        put_bits(frame_bytes, 0, 0xFFFF, 16);
        put_bits(frame_bytes, 16, pick(s, 512), 9);
    }
    if (sort != 3 && sort != 11)
        mend_check(frame_bytes, l->frame);
}

/* What must follow from an answer of the reader: frames that differ a little from the one it answered for. */
static void check_neighbours(struct source *s, const struct shape *l, uint32_t number, uint32_t place)
{
    struct shape smaller = *l;
    uint32_t limit = 8 * (l->frame - 2), bit;
    struct expected e = nothing_known();
    if (number == HCA_BAD_FACTOR) { /* what comes after the fault changes nothing */
        if (place + 12 >= limit)
            return;
        any_bits_from(s, frame_bytes, place + 12, limit);
        e = just(number, place);
    } else if (number == 0 && place < limit && pick(s, 2) == 0) { /* a 1 in the fill is named */
        bit = place + take_word(s) % (limit - place);
        flip(frame_bytes, bit);
        e = just(HCA_FILL_NOT_ZERO, bit);
    } else if (number == 0) { /* a frame that ends before its fields */
        smaller.frame = 8 + take_word(s) % (l->frame - 7);
        if (8 * (smaller.frame - 2) >= place)
            return;
        e.known = 0;
    } else
        return;
    mend_check(frame_bytes, smaller.frame);
    uint32_t again = read_again(&sets[1], &smaller, frame_bytes, e, s);
    if (!e.known && again != HCA_PAST_END)
        fault("a frame cut to %u bytes: %u, not refusal 13", smaller.frame, again);
    take_back_read(&sets[1]);
}

static void hostile_read(struct source *s)
{
    struct set *b = &sets[0];
    struct wish w;
    struct shape l;
    wish_for(s, &w);
    tame(&w, &l);
    good_frame(s, &l);
    if (one_in(s, 12)) { /* the fields of a larger frame */
        l.frame = 8 + take_word(s) % (l.frame - 7);
        w.layout[4] = l.frame;
        mend_check(frame_bytes, l.frame);
    }
    spoil_frame(s, &l);
    size_t n = need_channels(&w);
    lend_wished(b, &w, s);
    lend(&b->frame, "frame", 1, length_for(s, &w, need_frame(&w)), s);
    put(&b->frame, frame_bytes, l.frame);
    lend(&b->factors, "factors", 1, length_for(s, &w, n * 128), s);
    lend(&b->side, "side", 1, length_for(s, &w, n * 8), s);
    lend(&b->codes, "codes", 4, length_for(s, &w, n * 1024), s);
    lend(&b->answer, "answer", 4, length_for(s, &w, 4), s);
    uint32_t number = call_read(b, 1, nothing_known());
    uint32_t place = b->answer.count < 4 ? 0 : words(&b->answer)[number == 0 ? 2 : 0];
    if ((number == 0 || number >= 10) && memcmp(b->frame.data, frame_bytes, l.frame) == 0)
        check_neighbours(s, &l, number, place);
    take_back_read(b);
}

/* ---- the check */

static void hostile_checksum(struct source *s)
{
    struct lent *b = &sets[0].frame;
    lend(b, "bytes", 1, one_in(s, 64) ? take_word(s) % 70000 : take_word(s) % 300, s);
    seal(b);
    uint16_t check = hca_checksum(b->data, b->count);
    saw(CHECKSUM, 0, 0, 1);
    if (check != (b->count == 0 ? 0 : divided(b->data, b->count)))
        fault("hca_checksum of %zu bytes: %04x", b->count, check);
    guards_hold(b);
    is_untouched(b);
    give_back(b);
}

void one_call(struct source *s)
{
    if (one_in(s, 12)) {
        hostile_header(s);
        return;
    }
    if (one_in(s, 12)) {
        hostile_header_back(s);
        return;
    }
    if (one_in(s, 8)) {
        hostile_list(s);
        return;
    }
    if (one_in(s, 8)) {
        hostile_wav(s);
        return;
    }
    if (one_in(s, 8)) {
        hostile_stereo(s);
        return;
    }
    if (one_in(s, 8)) {
        hostile_line(s);
        return;
    }
    switch (pick(s, 16)) {
    case 0: hostile_checksum(s); break;
    case 1: case 2: case 3: case 4: case 5: hostile_encode(s); break;
    case 6: case 7: case 8: case 9: hostile_write(s); break;
    case 10: hostile_stereo_line(s); break;
    default: hostile_read(s); break;
    }
}
