// Model of the WAV reader, after document 02: the walk over the chunks, the samples and the level note. The Rust decides
// for walk and samples; for the note this model is the only witness. It shares no code with either.
#include <cmath>
#include <cstddef>
#include <cstdint>
#include <cstring>

typedef std::uint8_t u8;
typedef std::int32_t i32;
typedef std::uint32_t u32;
typedef std::uint64_t u64;
typedef std::size_t usize;

namespace {

const u64 MOST_SAMPLES = 16777216;

u32 low_first(const u8 *at, int width) {
    u32 v = 0;
    while (width-- > 0) v = v * 256 + at[width];
    return v;
}

bool is_named(const u8 *at, const char *four) { return std::memcmp(at, four, 4) == 0; }

struct Take {
    u32 channels = 2, rate = 44100, depth = 16; // what holds where no fmt chunk says otherwise
    u64 start = 0, size = 0;                    // of the samples: where they begin, and what their chunk says
    const u8 *bytes;
    u64 end;
    u64 width() const { return depth / 8; }
    u64 present() const { return end - start < size ? end - start : size; }
    u64 count() const { return present() / width(); }
};

// To the data chunk; false where there is none, or it is empty.
bool walked(Take &t) {
    u64 at = 12;
    while (at + 8 <= t.end) {
        u64 size = low_first(t.bytes + at + 4, 4), body = at + 8;
        if (is_named(t.bytes + at, "data")) {
            t.start = body, t.size = size;
            return size > 0;
        }
        if (body + size > t.end) return false;
        if (is_named(t.bytes + at, "fmt ") && size >= 16) {
            t.channels = low_first(t.bytes + body + 2, 2);
            t.rate = low_first(t.bytes + body + 4, 4);
            t.depth = low_first(t.bytes + body + 14, 2);
        }
        at = body + size + size % 2; // an odd chunk is followed by a byte that belongs to none
    }
    return false;
}

float sample(const Take &t, u64 k) {
    const u8 *at = t.bytes + t.start + k * t.width();
    u32 v = low_first(at, int(t.width()));
    if (t.depth == 32) {
        float stored;
        std::memcpy(&stored, &v, 4);
        return stored;
    }
    // a power of two below: no rounding
    i32 whole = v >> (t.depth - 1) == 0 ? i32(v) : i32(v) - (i32(1) << t.depth);
    return std::ldexp(float(whole), 1 - int(t.depth));
}

bool is_finite(const Take &t, u64 k) {
    return t.depth != 32 || (low_first(t.bytes + t.start + 4 * k, 4) & 0x7F800000) != 0x7F800000;
}

u32 judged(Take &t, usize samples_len) {
    if (t.end < 44 || !is_named(t.bytes, "RIFF") || !is_named(t.bytes + 8, "WAVE")) return 22;
    if (!walked(t)) return 23;
    if (t.depth != 16 && t.depth != 24 && t.depth != 32) return 24;
    if (t.count() > MOST_SAMPLES) return 30;
    if (samples_len < t.count()) return 2;
    for (u64 k = 0; k < t.count(); k++)
        if (!is_finite(t, k)) return 25;
    return 0;
}

} // namespace

extern "C" u32 model_read_wav(const u8 *wav, usize wav_len, float *samples, usize samples_len, float *note, usize note_len,
                              u32 *answer, usize answer_len) {
    Take t;
    t.bytes = wav, t.end = wav_len;
    u32 number = note_len < 2 || answer_len < 4 ? 2 : judged(t, samples_len);
    if (number != 0) {
        if (answer_len >= 4) answer[0] = 0;
        return number;
    }
    float peak = 0.0f, sum = 0.0f;
    for (u64 k = 0; k < t.count(); k++) {
        samples[k] = sample(t, k);
        float loud = std::fabs(samples[k]);
        if (loud > peak) peak = loud;
        sum = sum + loud;
    }
    note[0] = peak;
    note[1] = t.count() == 0 ? 0.0f : sum / float(t.count());
    answer[0] = t.channels, answer[1] = t.rate, answer[2] = t.depth, answer[3] = u32(t.count());
    return 0;
}
