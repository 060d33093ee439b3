#include "rules.h"

int shape_of(struct shape *out, const uint32_t *layout, size_t layout_len, const uint8_t *kinds, size_t kinds_len)
{
    if (layout_len < 5)
        return 0;
    out->channels = layout[0];
    out->base = layout[1];
    out->stereo = layout[2];
    out->total = layout[3];
    out->frame = layout[4];
    if (out->channels < 1 || out->channels > 16 || kinds_len < out->channels)
        return 0;
    if (out->total < 1 || out->total > 128 || (uint64_t)out->base + out->stereo > out->total)
        return 0;
    if (out->frame < 8 || out->frame > 65535)
        return 0;
    out->minimum = layout_len > 5 ? layout[5] : 1;
    out->maximum = layout_len > 6 ? layout[6] : 15;
    if (out->minimum < 1 || out->maximum < out->minimum || out->maximum > 15)
        return 0;
    out->mode = layout_len > 7 ? layout[7] : 0;
    if (out->mode > 1)
        return 0;
    for (uint32_t c = 0; c < out->channels; c++) {
        if (kinds[c] > 2)
            return 0;
        out->kinds[c] = kinds[c];
    }
    out->start = out->base + out->stereo;
    uint32_t hfr = out->total - out->start, per_group = (hfr + 7) / 8;
    out->groups = per_group == 0 ? 0 : (hfr + per_group - 1) / per_group;
    return 1;
}

uint32_t coded_count(const struct shape *l, uint32_t channel) { return l->kinds[channel] == 2 ? l->base : l->start; }

uint32_t longest_fields(const struct shape *l) { return 32 + l->channels * (1459 + 8 * 128 * 12); }

uint32_t resolution(const struct shape *l, uint32_t factor, uint32_t level, uint32_t boundary, uint32_t band)
{
    static const uint8_t curve[59] = {
        15, 14, 14, 14, 14, 14, 14, 13, 13, 13, 13, 13, 13, 12, 12, 12, 12, 12, 12, 11, 11, 11, 11, 11, 11, 10, 10, 10, 10, 10,
        10, 10, 9,  9,  9,  9,  9,  9,  8,  8,  8,  8,  8,  8,  7,  6,  6,  5,  4,  4,  4,  3,  3,  3,  2,  2,  2,  2,  1};
    if (factor == 0)
        return 0;
    int noise = band < boundary ? (level == 0 ? 0 : (int)level - 1) : (int)level;
    int position = noise - (int)(5 * factor / 2) + 2;
    uint32_t r = curve[position < 0 ? 0 : position > 58 ? 58 : position];
    return r < l->minimum ? l->minimum : r > l->maximum ? l->maximum : r;
}

int32_t code_range(uint32_t r)
{
    static const int32_t wide[8] = {15, 31, 63, 127, 255, 511, 1023, 2047}; /* resolutions 8 to 15 */
    return r < 8 ? (int32_t)r : wide[r - 8];
}

static enum verdict codes_of_band(const int32_t *codes, uint32_t r)
{
    enum verdict v = LEGAL;
    for (int s = 0; s < 8; s++) {
        int64_t code = codes[128 * s];
        int64_t magnitude = code < 0 ? -code : code;
        if (magnitude <= code_range(r))
            continue;
        if ((r == 2 || r == 4 || r == 5) && code == (int64_t)r + 1)
            v = CORNER;
        else
            return ILLEGAL;
    }
    return v;
}

static int side_is_legal(const struct shape *l, uint32_t c, const uint8_t *side)
{
    for (uint32_t i = 0; i < 8; i++) {
        uint32_t most = l->kinds[c] == 2 ? 15 : i < l->groups ? 63 : 0;
        if (side[8 * c + i] > most)
            return 0;
    }
    return 1;
}

enum verdict record_verdict(const struct shape *l, uint32_t level, uint32_t boundary, const uint8_t *factors,
                            const uint8_t *side, const int32_t *codes)
{
    enum verdict all = LEGAL;
    if (level > 511 || boundary > 127)
        return ILLEGAL;
    for (uint32_t c = 0; c < l->channels; c++) {
        if (!side_is_legal(l, c, side))
            return ILLEGAL;
        for (uint32_t b = 0; b < 128; b++) {
            uint32_t factor = factors[128 * c + b];
            if (factor > 63 || (b >= coded_count(l, c) && factor != 0))
                return ILLEGAL;
            enum verdict v = codes_of_band(codes + 1024 * c + b, resolution(l, factor, level, boundary, b));
            if (v == ILLEGAL)
                return ILLEGAL;
            if (v == CORNER)
                all = CORNER;
        }
    }
    return all;
}

/* The rest of a byte, 8 steps of the bitwise rule. */
static uint16_t rest_of(uint32_t byte)
{
    uint32_t rest = byte << 8;
    for (int k = 0; k < 8; k++)
        rest = (rest & 0x8000) != 0 ? (rest << 1 ^ 0x8005) & 0xFFFF : rest << 1;
    return (uint16_t)rest;
}

uint16_t divided(const uint8_t *bytes, size_t count)
{
    static uint16_t rests[256];
    uint32_t rest = 0;
    if (rests[1] == 0)
        for (uint32_t i = 0; i < 256; i++)
            rests[i] = rest_of(i);
    for (size_t i = 0; i < count; i++)
        rest = (rest << 8 & 0xFFFF) ^ rests[rest >> 8 ^ bytes[i]];
    return (uint16_t)rest;
}

uint32_t bits_at(const uint8_t *frame, size_t bit, unsigned count)
{
    uint32_t v = 0;
    for (size_t i = bit; i < bit + count; i++)
        v = v << 1 | (frame[i / 8] >> (7 - i % 8) & 1);
    return v;
}

void mend_check(uint8_t *frame, size_t size)
{
    uint16_t check = divided(frame, size - 2);
    frame[size - 2] = (uint8_t)(check >> 8);
    frame[size - 1] = (uint8_t)check;
}
