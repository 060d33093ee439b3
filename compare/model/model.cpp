// Model of the frame stage, the strict reader and the record writer, after the rules of document 01.
//
// The numbers of its tables are those of the published tables.rs and encoder.rs. It shares no code
// with the Rust, with the crates or with the library, and takes the plain way everywhere: bits one
// at a time, the check by division, prefix codes by trying lengths. Its author had read the Rust
// too, so for the stage the Rust itself stays the better witness.
#include <cstddef>
#include <cstdint>
#include <cstring>

namespace {

typedef std::uint8_t u8;
typedef std::uint16_t u16;
typedef std::uint32_t u32;
typedef std::uint64_t u64;
typedef std::int32_t i32;

// ------------------------------------------------------------------ tables
const u32 SCALING[64] = { // DEQUANTIZER_SCALING_TABLE, as bits
    0x342A8D26, 0x34633F89, 0x3497657D, 0x34C9B9BE, 0x35066491, 0x353311C4, 0x356E9910, 0x359EF532,
    0x35D3CCF1, 0x360D1ADF, 0x363C034A, 0x367A83B3, 0x36A6E595, 0x36DE60F5, 0x371426FF, 0x3745672A,
    0x37838359, 0x37AF3B79, 0x37E97C38, 0x381B8D3A, 0x384F4319, 0x388A14D5, 0x38B7FBF0, 0x38F5257D,
    0x3923520F, 0x39599D16, 0x3990FA4D, 0x39C12C4D, 0x3A00B1ED, 0x3A2B7A3A, 0x3A647B6D, 0x3A9837F0,
    0x3ACAD226, 0x3B071F62, 0x3B340AAF, 0x3B6FE4BA, 0x3B9FD228, 0x3BD4F35B, 0x3C0DDF04, 0x3C3D08A4,
    0x3C7BDFED, 0x3CA7CD94, 0x3CDF9613, 0x3D14F4F0, 0x3D467991, 0x3D843A29, 0x3DB02F0E, 0x3DEAC0C7,
    0x3E1C6573, 0x3E506334, 0x3E8AD4C6, 0x3EB8FBAF, 0x3EF67A41, 0x3F243516, 0x3F5ACB94, 0x3F91C3D3,
    0x3FC238D2, 0x400164D2, 0x402C6897, 0x4065B907, 0x40990B88, 0x40CBEC15, 0x4107DB35, 0x413504F3,
};
const u8 CURVE[59] = { // SCALE_TO_RESOLUTION_CURVE
    15, 14, 14, 14, 14, 14, 14, 13, 13, 13, 13, 13, 13, 12, 12, 12, 12, 12, 12, 11, 11, 11, 11, 11, 11, 10, 10, 10, 10, 10,
    10, 10, 9,  9,  9,  9,  9,  9,  8,  8,  8,  8,  8,  8,  7,  6,  6,  5,  4,  4,  4,  3,  3,  3,  2,  2,  2,  2,  1,
};
const float STEP[16] = { // QUANTIZER_INVERSE_STEP_SIZE
    0.5f, 1.5f, 2.5f, 3.5f, 4.5f, 5.5f, 6.5f, 7.5f, 15.5f, 31.5f, 63.5f, 127.5f, 255.5f, 511.5f, 1023.5f, 2047.5f,
};
const u32 DEAD[16] = { // QUANTIZER_DEAD_ZONE, as bits
    0x00000000, 0x3EAAAAAB, 0x3E4CCCCD, 0x3E124925, 0x3DE38E39, 0x3DBA2E8C, 0x3D9D89D9, 0x3D888889,
    0x3D042108, 0x3C820821, 0x3C010204, 0x3B808081, 0x3B004020, 0x3A802008, 0x3A001002, 0x39800801,
};
const u8 MAX_BITS[16] = {0, 2, 3, 3, 4, 4, 4, 4, 5, 6, 7, 8, 9, 10, 11, 12}; // MAX_BIT_TABLE
const u8 CODE_BITS[8][16] = { // QUANTIZE_SPECTRUM_BITS
    {0, 0, 0, 0, 0, 0, 0, 0, 0, 0, 0, 0, 0, 0, 0, 0}, {0, 0, 0, 0, 0, 0, 0, 2, 1, 2, 0, 0, 0, 0, 0, 0},
    {0, 0, 0, 0, 0, 0, 3, 2, 2, 2, 3, 0, 0, 0, 0, 0}, {0, 0, 0, 0, 0, 3, 3, 3, 2, 3, 3, 3, 0, 0, 0, 0},
    {0, 0, 0, 0, 4, 3, 3, 3, 3, 3, 3, 3, 4, 0, 0, 0}, {0, 0, 0, 4, 4, 4, 3, 3, 3, 3, 3, 4, 4, 4, 0, 0},
    {0, 0, 4, 4, 4, 4, 4, 3, 3, 3, 4, 4, 4, 4, 4, 0}, {0, 4, 4, 4, 4, 4, 4, 4, 3, 4, 4, 4, 4, 4, 4, 4},
};
const u8 CODE_VALUE[8][16] = { // QUANTIZE_SPECTRUM_VALUE
    {0, 0, 0, 0, 0, 0, 0, 0, 0, 0, 0, 0, 0, 0, 0, 0},    {0, 0, 0, 0, 0, 0, 0, 3, 0, 2, 0, 0, 0, 0, 0, 0},
    {0, 0, 0, 0, 0, 0, 7, 2, 0, 1, 6, 0, 0, 0, 0, 0},    {0, 0, 0, 0, 0, 7, 5, 3, 0, 2, 4, 6, 0, 0, 0, 0},
    {0, 0, 0, 0, 15, 6, 4, 2, 0, 1, 3, 5, 14, 0, 0, 0},  {0, 0, 0, 15, 13, 11, 4, 2, 0, 1, 3, 10, 12, 14, 0, 0},
    {0, 0, 15, 13, 11, 9, 7, 2, 0, 1, 6, 8, 10, 12, 14, 0}, {0, 15, 13, 11, 9, 7, 5, 3, 0, 2, 4, 6, 8, 10, 12, 14},
};
const u32 UPPER_CLIP = 0x3F7FFFFE;
const u32 ROOT_TWO = 0x3FB504F3;

float of_bits(u32 b) {
    float f;
    std::memcpy(&f, &b, 4);
    return f;
}
u32 bits_of(float f) {
    u32 b;
    std::memcpy(&b, &f, 4);
    return b;
}
float magnitude(float f) { return of_bits(bits_of(f) & 0x7FFFFFFF); }

// ------------------------------------------------------------------ layout
struct Layout {
    u32 channels, base, stereo, total, frame, minimum, maximum, mode;
    u8 kind[16];
    u32 start() const { return base + stereo; }
    bool secondary(u32 c) const { return kind[c] == 2; }
    u32 coded(u32 c) const { return secondary(c) ? base : start(); }
    u32 hfr() const { return total - start(); }
    u32 per_group() const { return (hfr() + 7) / 8; }
    u32 groups() const { return hfr() == 0 ? 0 : (hfr() + per_group() - 1) / per_group(); }
    u32 sides(u32 c) const { return secondary(c) ? 8 : groups(); }
    u32 side_bits(u32 c) const { return secondary(c) ? 4 : 6; }
    u32 limit() const { return 8 * (frame - 2); } // no field passes this bit
};

bool layout_of(Layout &l, const u32 *n, std::size_t n_len, const u8 *kinds, std::size_t kinds_len) {
    if (n_len < 5) return false;
    l.channels = n[0], l.base = n[1], l.stereo = n[2], l.total = n[3], l.frame = n[4];
    if (l.channels < 1 || l.channels > 16) return false;
    if (l.total < 1 || l.total > 128) return false;
    if (u64(l.base) + u64(l.stereo) > u64(l.total)) return false;
    if (l.frame < 8 || l.frame > 65535) return false;
    l.minimum = n_len > 5 ? n[5] : 1, l.maximum = n_len > 6 ? n[6] : 15;
    if (l.minimum == 0 || l.minimum > l.maximum || l.maximum > 15) return false;
    l.mode = n_len > 7 ? n[7] : 0;
    if (l.mode > 1) return false;
    if (kinds_len < l.channels) return false;
    for (u32 c = 0; c < l.channels; c++) {
        if (kinds[c] > 2) return false;
        l.kind[c] = kinds[c];
    }
    return true;
}

// ------------------------------------------------------------------ rules
u16 checksum(const u8 *p, std::size_t n) {
    u32 rest = 0;
    for (std::size_t i = 0; i < n; i++)
        for (int k = 7; k >= 0; k--) {
            u32 out = ((rest >> 15) & 1) ^ ((p[i] >> k) & 1);
            rest = (rest << 1) & 0xFFFF;
            if (out) rest ^= 0x8005;
        }
    return u16(rest);
}

u32 factor_of(float v) {
    u32 n = 0;
    while (n < 63 && of_bits(SCALING[n]) <= v) n++;
    return n;
}

u32 resolution(const Layout &l, u32 factor, u32 level, u32 boundary, u32 band) {
    if (factor == 0) return 0;
    int noise = int(level);
    if (band < boundary && noise > 0) noise -= 1;
    int at = noise - int(5 * factor / 2) + 2;
    if (at < 0) at = 0;
    if (at > 58) at = 58;
    u32 res = CURVE[at];
    if (res > l.maximum) return l.maximum;
    return res < l.minimum ? l.minimum : res;
}

int distance(u8 a, u8 b) { return a < b ? b - a : a - b; }

// Width and its cost in bits.
u32 width_of(const u8 *factors, u32 coded, u32 &cost) {
    bool silent = true;
    for (u32 b = 0; b < coded; b++) silent = silent && factors[b] == 0;
    if (silent) {
        cost = 3;
        return 0;
    }
    u32 width = 6;
    cost = 3 + 6 * coded;
    for (u32 d = 1; d <= 5; d++) {
        int m = (1 << (d - 1)) - 1;
        u32 here = 9;
        for (u32 b = 1; b < coded; b++) here += distance(factors[b], factors[b - 1]) <= m ? d : d + 6;
        if (here < cost) cost = here, width = d;
    }
    return width;
}

i32 largest_code(u32 res) { return res < 8 ? i32(res) : (1 << (MAX_BITS[res] - 1)) - 1; }

i32 raw_code(float scaled, u32 res) {
    float step = STEP[res];
    float up = step + 1.0f;
    float product = scaled * step;
    float sum = product + up;
    return i32(sum) - i32(step + 0.5f);
}

// Below resolution 8 held mode takes the nearest code that has bits.
i32 small_code(const Layout &l, float scaled, u32 res) {
    i32 code = raw_code(scaled, res), most = i32(res);
    if (l.mode == 1 && code > most) return most;
    if (l.mode == 1 && code < -most) return -most;
    return code < -8 ? -8 : code > 7 ? 7 : code;
}

u32 estimated_bits(const Layout &l, float scaled, u32 res) {
    if (res >= 8) return MAX_BITS[res] - 1 + (magnitude(scaled) >= of_bits(DEAD[res]) ? 1 : 0);
    return CODE_BITS[res][8 + small_code(l, scaled, res)];
}

// ------------------------------------------------------------------ fields out
// Counts every bit, stores those below the limit.
struct Sink {
    u8 *frame;
    u32 limit, place;
    void put(u32 value, u32 n) {
        for (u32 i = 0; i < n; i++, place++)
            if (place < limit && ((value >> (n - 1 - i)) & 1)) frame[place / 8] |= u8(0x80 >> (place % 8));
    }
};

void put_factors(Sink &s, const u8 *factors, u32 coded) {
    u32 cost;
    u32 d = width_of(factors, coded, cost);
    s.put(d, 3);
    if (d == 0) return;
    int m = (1 << (d - 1)) - 1;
    for (u32 b = 0; b < coded; b++) {
        if (d == 6 || b == 0)
            s.put(factors[b], 6);
        else if (distance(factors[b], factors[b - 1]) <= m)
            s.put(u32(m + int(factors[b]) - int(factors[b - 1])), d);
        else {
            s.put((1u << d) - 1, d);
            s.put(factors[b], 6);
        }
    }
}

void put_code(Sink &s, i32 code, u32 res) {
    if (res == 0) return;
    if (res < 8) {
        s.put(CODE_VALUE[res][8 + code], CODE_BITS[res][8 + code]);
        return;
    }
    s.put(u32(code < 0 ? -code : code), MAX_BITS[res] - 1);
    if (code != 0) s.put(code < 0 ? 1 : 0, 1);
}

// The frame of a record: false where the fields pass the limit. `bits` is what all fields take.
bool put_frame(const Layout &l, u32 level, u32 boundary, const u8 *factors, const u8 *side, const i32 *codes, u8 *frame, u32 &bits) {
    std::memset(frame, 0, l.frame);
    Sink s = {frame, l.limit(), 0};
    s.put(0xFFFF, 16);
    s.put(level, 9);
    s.put(boundary, 7);
    for (u32 c = 0; c < l.channels; c++) {
        put_factors(s, factors + c * 128, l.coded(c));
        for (u32 i = 0; i < l.sides(c); i++) s.put(side[c * 8 + i], l.side_bits(c));
    }
    for (u32 f = 0; f < 8; f++)
        for (u32 c = 0; c < l.channels; c++)
            for (u32 b = 0; b < l.coded(c); b++)
                put_code(s, codes[c * 1024 + f * 128 + b], resolution(l, factors[c * 128 + b], level, boundary, b));
    bits = s.place;
    if (bits > l.limit()) {
        std::memset(frame, 0, l.frame);
        return false;
    }
    u16 check = checksum(frame, l.frame - 2);
    frame[l.frame - 2] = u8(check >> 8);
    frame[l.frame - 1] = u8(check & 255);
    return true;
}

// ------------------------------------------------------------------ answers
u32 refuse(u32 number, u32 beside, u32 *answer, std::size_t answer_len) {
    if (answer_len > 0) answer[0] = beside;
    return number;
}

// ------------------------------------------------------------------ reader
struct Source {
    const u8 *frame;
    u32 limit, place;
    u32 number, beside; // the first fault, 0 while there is none
    bool fault(u32 no, u32 at) {
        number = no, beside = at;
        return false;
    }
    // The next n bits, or refusal 13 at `first`.
    bool take(u32 n, u32 first, u32 &v) {
        if (place + n > limit) return fault(13, first);
        v = 0;
        for (u32 i = 0; i < n; i++, place++) v = 2 * v + ((frame[place / 8] >> (7 - place % 8)) & 1);
        return true;
    }
    bool take(u32 n, u32 &v) { return take(n, place, v); }
};

bool take_factors(Source &s, u8 *factors, u32 coded) {
    u32 at_width = s.place, d, v, cost;
    if (!s.take(3, d)) return false;
    if (d == 7 || (coded == 0 && d != 0)) return s.fault(11, at_width);
    if (d == 0) return true;
    int m = (1 << (d - 1)) - 1;
    for (u32 b = 0; b < coded; b++) {
        u32 first = s.place;
        if (d == 6 || b == 0) {
            if (!s.take(6, v)) return false;
            factors[b] = u8(v);
            continue;
        }
        if (!s.take(d, v)) return false;
        if (v == (1u << d) - 1) {
            if (!s.take(6, v)) return false;
            factors[b] = u8(v);
            if (distance(factors[b], factors[b - 1]) <= m) return s.fault(12, first);
        } else {
            int f = int(factors[b - 1]) + int(v) - m;
            if (f < 0 || f > 63) return s.fault(12, first);
            factors[b] = u8(f);
        }
    }
    return width_of(factors, coded, cost) == d || s.fault(11, at_width);
}

bool take_code(Source &s, u32 res, i32 &code) {
    u32 first = s.place, v = 0, bit = 0;
    if (res >= 8) {
        if (!s.take(MAX_BITS[res] - 1, first, v)) return false;
        if (v != 0 && !s.take(1, first, bit)) return false;
        code = bit ? -i32(v) : i32(v);
        return true;
    }
    for (u32 n = 1; n <= 4; n++) {
        if (!s.take(1, first, bit)) return false;
        v = 2 * v + bit;
        for (int i = 0; i < 16; i++)
            if (CODE_BITS[res][i] == n && CODE_VALUE[res][i] == v) {
                code = i - 8;
                return true;
            }
    }
    return s.fault(99, first); // never: the prefix tables are complete
}

bool take_sides(const Layout &l, u32 c, Source &s, u8 *side) {
    for (u32 i = 0; i < l.sides(c); i++) {
        u32 v;
        if (!s.take(l.side_bits(c), v)) return false;
        side[i] = u8(v);
    }
    return true;
}

bool take_frame(const Layout &l, Source &s, u8 *factors, u8 *side, i32 *codes, u32 *answer) {
    u32 v, level, boundary;
    u32 stored = u32(s.frame[l.frame - 2]) << 8 | s.frame[l.frame - 1];
    if (checksum(s.frame, l.frame - 2) != stored) return s.fault(8, 0);
    if (!s.take(16, v)) return false;
    if (v != 0xFFFF) return s.fault(9, 0);
    if (!s.take(9, level)) return false;
    if (!s.take(7, boundary)) return false;
    for (u32 c = 0; c < l.channels; c++)
        if (!take_factors(s, factors + c * 128, l.coded(c)) || !take_sides(l, c, s, side + c * 8)) return false;
    for (u32 f = 0; f < 8; f++)
        for (u32 c = 0; c < l.channels; c++)
            for (u32 b = 0; b < l.coded(c); b++) {
                u32 res = resolution(l, factors[c * 128 + b], level, boundary, b);
                if (res > 0 && !take_code(s, res, codes[c * 1024 + f * 128 + b])) return false;
            }
    u32 bits = s.place;
    while (s.place < s.limit) {
        u32 at = s.place;
        if (!s.take(1, v)) return false;
        if (v) return s.fault(14, at);
    }
    answer[0] = level, answer[1] = boundary, answer[2] = bits;
    return true;
}

// ------------------------------------------------------------------ record writer
bool is_legal(const Layout &l, u32 level, u32 boundary, const u8 *factors, const u8 *side, const i32 *codes) {
    if (level > 511 || boundary > 127) return false;
    for (u32 c = 0; c < l.channels; c++) {
        for (u32 b = 0; b < 128; b++) {
            u32 factor = factors[c * 128 + b];
            if (factor > (b < l.coded(c) ? 63u : 0u)) return false;
            u32 res = resolution(l, factor, level, boundary, b);
            i32 most = res == 0 ? 0 : largest_code(res);
            for (u32 f = 0; f < 8; f++) {
                i32 code = codes[c * 1024 + f * 128 + b];
                if (code < -most || code > most) return false;
            }
        }
        for (u32 i = 0; i < 8; i++)
            if (side[c * 8 + i] > (i < l.sides(c) ? (l.secondary(c) ? 15u : 63u) : 0u)) return false;
    }
    return true;
}

// ------------------------------------------------------------------ stage
struct Work {
    Layout l;
    float scaled[16][128][8];
    u8 factors[16][128];
    u8 side[16][8];
    i32 codes[16][8][128];
};

// An average travels as its sum and its count.
struct Average {
    float sum;
    u32 count;
    void add(float v) {
        sum = sum + magnitude(v);
        count += 1;
    }
    float value() const { return count == 0 ? 0.0f : sum / float(count); }
};

void find_factors(Work &w, const float *spectra) {
    for (u32 c = 0; c < w.l.channels; c++)
        for (u32 b = 0; b < w.l.coded(c); b++) {
            float peak = 0.0f;
            for (u32 f = 0; f < 8; f++) {
                float v = magnitude(spectra[c * 1024 + f * 128 + b]);
                if (v > peak) peak = v;
            }
            u32 factor = factor_of(peak);
            w.factors[c][b] = u8(factor);
            if (factor == 0) continue;
            float scale = 1.0f / of_bits(SCALING[factor]);
            float most = of_bits(UPPER_CLIP);
            for (u32 f = 0; f < 8; f++) {
                float v = spectra[c * 1024 + f * 128 + b] * scale;
                w.scaled[c][b][f] = v > most ? most : v < -most ? -most : v;
            }
        }
}

void find_sides(Work &w, const float *spectra, const u8 *intensities) {
    const Layout &l = w.l;
    for (u32 c = 0; c < l.channels; c++) {
        if (l.secondary(c)) {
            std::memcpy(w.side[c], intensities + c * 8, 8);
            continue;
        }
        u32 sources = l.hfr() < l.start() ? l.hfr() : l.start();
        for (u32 i = 0; i < l.groups(); i++) {
            Average from = {0.0f, 0}, to = {0.0f, 0};
            for (u32 k = i * l.per_group(); k < (i + 1) * l.per_group(); k++) {
                if (l.start() + k < 128)
                    for (u32 f = 0; f < 8; f++) to.add(spectra[c * 1024 + f * 128 + l.start() + k]);
                if (k < sources)
                    for (u32 f = 0; f < 8; f++) from.add(w.scaled[c][l.start() - 1 - k][f]);
            }
            float v = to.value(), source = from.value();
            if (source > 0.0f) {
                float times = 1.0f / source;
                if (times > of_bits(ROOT_TWO)) times = of_bits(ROOT_TWO);
                v = v * times;
            }
            w.side[c][i] = u8(factor_of(v));
        }
    }
}

u32 estimate(const Work &w, u32 level, u32 boundary) {
    const Layout &l = w.l;
    u32 n = 48;
    for (u32 c = 0; c < l.channels; c++) {
        u32 cost;
        width_of(w.factors[c], l.coded(c), cost);
        n += cost + (l.secondary(c) ? 32 : 6 * l.groups());
        for (u32 b = 0; b < l.coded(c); b++) {
            u32 res = resolution(l, w.factors[c][b], level, boundary, b);
            for (u32 f = 0; f < 8; f++) n += estimated_bits(l, w.scaled[c][b][f], res);
        }
    }
    return n;
}

// Halving 0..255; true with the level, false where probe 254 exceeds.
bool find_level(const Work &w, u32 &level) {
    u32 low = 0, high = 255;
    while (low != high) {
        u32 mid = (low + high) / 2;
        if (estimate(w, mid, 0) > 8 * w.l.frame) {
            if (mid == 254) return false;
            low = mid + 1;
        } else
            high = mid;
    }
    level = low;
    return true;
}

// Pairs of bands are removed, the highest first, until there is a level; false where there is none without them either.
bool find_level_and_pairs(Work &w, u32 &level, u32 &pairs) {
    int highest = int(w.l.start()) - 1;
    for (pairs = 0; !find_level(w, level); pairs++) {
        highest -= 2;
        if (highest < 0) return false;
        for (u32 c = 0; c < w.l.channels; c++) w.factors[c][highest + 1] = 0, w.factors[c][highest + 2] = 0;
    }
    return true;
}

// The search over 0..127, whatever is over.
template <class Over> u32 search_boundary(Over over) {
    u32 low = 0, high = 127;
    while (high - low > 1) {
        u32 mid = (low + high) / 2;
        if (over(mid))
            high = mid - 1;
        else
            low = mid;
    }
    if (low == high) return low;
    return over(high) ? low : high;
}

u32 find_boundary(const Work &w, u32 level) {
    if (level == 0) return 0;
    return search_boundary([&](u32 probe) { return estimate(w, level, probe) > 8 * w.l.frame; });
}

void find_codes(Work &w, u32 level, u32 boundary) {
    for (u32 c = 0; c < w.l.channels; c++)
        for (u32 b = 0; b < w.l.coded(c); b++) {
            u32 res = resolution(w.l, w.factors[c][b], level, boundary, b);
            i32 most = largest_code(res);
            for (u32 f = 0; f < 8 && res > 0; f++) {
                i32 v = res < 8 ? small_code(w.l, w.scaled[c][b][f], res) : raw_code(w.scaled[c][b][f], res);
                w.codes[c][f][b] = res < 8 ? v : v < -most ? -most : v > most ? most : v;
            }
        }
}

} // namespace

// ------------------------------------------------------------------ C interface
// The boundary's search by itself, for tests/decisions.rs.
extern "C" u32 model_search_boundary(bool (*over)(u32 probe, void *with), void *with) {
    return search_boundary([&](u32 probe) { return over(probe, with); });
}

extern "C" std::uint16_t model_checksum(const std::uint8_t *bytes, std::size_t bytes_len) { return checksum(bytes, bytes_len); }

extern "C" std::uint32_t model_read_frame(const u32 *layout, std::size_t layout_len, const u8 *kinds, std::size_t kinds_len,
                                          const u8 *frame, std::size_t frame_len, u8 *factors, std::size_t factors_len,
                                          u8 *side, std::size_t side_len, i32 *codes, std::size_t codes_len,
                                          u32 *answer, std::size_t answer_len) {
    Layout l;
    if (!layout_of(l, layout, layout_len, kinds, kinds_len)) return refuse(1, 0, answer, answer_len);
    std::size_t n = l.channels;
    if (frame_len < l.frame || factors_len < n * 128 || side_len < n * 8 || codes_len < n * 1024 || answer_len < 4)
        return refuse(2, 0, answer, answer_len);
    std::memset(factors, 0, n * 128);
    std::memset(side, 0, n * 8);
    std::memset(codes, 0, n * 1024 * sizeof(i32));
    Source s = {frame, l.limit(), 0, 0, 0};
    if (take_frame(l, s, factors, side, codes, answer)) return 0;
    std::memset(factors, 0, n * 128);
    std::memset(side, 0, n * 8);
    std::memset(codes, 0, n * 1024 * sizeof(i32));
    return refuse(s.number, s.beside, answer, answer_len);
}

extern "C" std::uint32_t model_write_record(const u32 *layout, std::size_t layout_len, const u8 *kinds, std::size_t kinds_len,
                                            const u32 *record, std::size_t record_len, const u8 *factors, std::size_t factors_len,
                                            const u8 *side, std::size_t side_len, const i32 *codes, std::size_t codes_len,
                                            u8 *frame, std::size_t frame_len, u32 *answer, std::size_t answer_len) {
    Layout l;
    if (!layout_of(l, layout, layout_len, kinds, kinds_len)) return refuse(1, 0, answer, answer_len);
    std::size_t n = l.channels;
    if (record_len < 2 || factors_len < n * 128 || side_len < n * 8 || codes_len < n * 1024 || frame_len < l.frame || answer_len < 4)
        return refuse(2, 0, answer, answer_len);
    if (!is_legal(l, record[0], record[1], factors, side, codes)) return refuse(15, 0, answer, answer_len);
    u32 bits;
    if (!put_frame(l, record[0], record[1], factors, side, codes, frame, bits)) return refuse(7, bits, answer, answer_len);
    answer[0] = record[0], answer[1] = record[1], answer[2] = bits;
    return 0;
}

extern "C" std::uint32_t model_encode_frame(const u32 *layout, std::size_t layout_len, const u8 *kinds, std::size_t kinds_len,
                                            const float *spectra, std::size_t spectra_len, const u8 *intensities, std::size_t intensities_len,
                                            float *scaled, std::size_t scaled_len, i32 *codes, std::size_t codes_len,
                                            u8 *factors, std::size_t factors_len, u8 *side, std::size_t side_len,
                                            u8 *frame, std::size_t frame_len, u32 *answer, std::size_t answer_len) {
    static thread_local Work w;
    Layout l;
    if (!layout_of(l, layout, layout_len, kinds, kinds_len)) return refuse(1, 0, answer, answer_len);
    std::size_t n = l.channels;
    if (spectra_len < n * 1024 || intensities_len < n * 8 || scaled_len < n * 1024 || codes_len < n * 1024 ||
        factors_len < n * 128 || side_len < n * 8 || frame_len < l.frame || answer_len < 4)
        return refuse(2, 0, answer, answer_len);
    for (u32 c = 0; c < n; c++)
        for (u32 f = 0; f < 8 && l.secondary(c); f++)
            if (intensities[c * 8 + f] > 15) return refuse(3, c * 8 + f, answer, answer_len);
    for (u32 i = 0; i < n * 1024; i++)
        if ((bits_of(spectra[i]) & 0x7F800000) == 0x7F800000) return refuse(4, i, answer, answer_len);

    std::memset(&w, 0, sizeof w);
    w.l = l;
    find_factors(w, spectra);
    find_sides(w, spectra, intensities);
    u32 level = 0, boundary = 0, pairs = 0, bits = 0, number = 0, beside = 0;
    if (!find_level_and_pairs(w, level, pairs)) number = 5, beside = pairs;
    if (number == 0) {
        boundary = find_boundary(w, level);
        find_codes(w, level, boundary);
        if (!put_frame(l, level, boundary, w.factors[0], w.side[0], w.codes[0][0], frame, bits)) number = 7, beside = bits;
    }
    if (number != 0) {
        std::memset(&w, 0, sizeof w);
        std::memset(frame, 0, l.frame);
    }
    std::memcpy(scaled, w.scaled, n * 1024 * sizeof(float));
    std::memcpy(codes, w.codes, n * 1024 * sizeof(i32));
    std::memcpy(factors, w.factors, n * 128);
    std::memcpy(side, w.side, n * 8);
    if (number != 0) return refuse(number, beside, answer, answer_len);
    answer[0] = level, answer[1] = boundary, answer[2] = pairs, answer[3] = bits;
    return 0;
}

// For compare-finest, over buffers of the stated lengths and a legal layout; false where it is none.

// The scaled values and factors of finite spectra before any removal; found: level (255: none), boundary, pairs.
extern "C" bool model_searched(const u32 *layout, std::size_t layout_len, const u8 *kinds, std::size_t kinds_len, const float *spectra,
                               float *scaled, u8 *factors, u32 *found) {
    static thread_local Work w;
    std::memset(&w, 0, sizeof w);
    if (!layout_of(w.l, layout, layout_len, kinds, kinds_len)) return false;
    find_factors(w, spectra);
    std::memcpy(scaled, w.scaled, w.l.channels * 1024 * sizeof(float));
    std::memcpy(factors, w.factors, w.l.channels * 128);
    bool some = find_level_and_pairs(w, found[0], found[2]);
    found[0] = some ? found[0] : 255;
    found[1] = some ? find_boundary(w, found[0]) : 0;
    return true;
}

// The estimate at each of the levels 0 to 254 with boundary 0, or at each of the boundaries 0 to 127 with one level.
extern "C" bool model_estimates(const u32 *layout, std::size_t layout_len, const u8 *kinds, std::size_t kinds_len, const float *scaled,
                                const u8 *factors, u32 level, u32 *estimates, std::size_t estimates_len) {
    static thread_local Work w;
    if (!layout_of(w.l, layout, layout_len, kinds, kinds_len)) return false;
    std::memcpy(w.scaled, scaled, w.l.channels * 1024 * sizeof(float));
    std::memcpy(w.factors, factors, w.l.channels * 128);
    for (u32 i = 0; i < estimates_len; i++) estimates[i] = estimates_len == 255 ? estimate(w, i, 0) : estimate(w, level, i);
    return true;
}
