// Model of the stereo stage, after A2's rules: refusals 1 to 4 and 17, the mixing, then the model's own stage on what is mixed.
// The bounds are those of the published encoder.rs; it shares no code with the Rust, with the crates or with the library.
#include <cstddef>
#include <cstdint>
#include <cstring>

typedef std::uint8_t u8;
typedef std::uint32_t u32;
typedef std::int32_t i32;

extern "C" u32 model_encode_frame(const u32 *layout, std::size_t layout_len, const u8 *kinds, std::size_t kinds_len,
                                  const float *spectra, std::size_t spectra_len, const u8 *intensities, std::size_t intensities_len,
                                  float *scaled, std::size_t scaled_len, i32 *codes, std::size_t codes_len,
                                  u8 *factors, std::size_t factors_len, u8 *side, std::size_t side_len,
                                  u8 *frame, std::size_t frame_len, u32 *answer, std::size_t answer_len);

namespace {

const u32 BOUNDS[14] = { // INTENSITY_RATIO_BOUNDS, as bits; the first and the last are never looked at
    0x3FF6DB6E, 0x3FE49249, 0x3FD24925, 0x3FC00000, 0x3FADB6DB, 0x3F9B6DB7, 0x3F892492,
    0x3F6DB6DB, 0x3F492492, 0x3F249249, 0x3F000000, 0x3EB6DB6E, 0x3E5B6DB7, 0x3D924925,
};
const u32 LEAST_RATIO = 0x3F000000, MOST_RATIO = 0x3F3504F3, LOUDEST = 0x47800000;

float of_bits(u32 b) {
    float f;
    std::memcpy(&f, &b, 4);
    return f;
}
u32 magnitude_bits(float f) {
    u32 b;
    std::memcpy(&b, &f, 4);
    return b & 0x7FFFFFFF;
}
float magnitude(float f) { return of_bits(magnitude_bits(f)); }

// Intensity of two energies.
u8 intensity(float left, float combined) {
    if (combined <= 0.0f) return 0;
    float doubled = 2.0f * left;
    float stored = doubled / combined;
    u8 value = 1;
    for (int k = 1; k <= 12 && of_bits(BOUNDS[k]) >= stored; k++) value++;
    return value;
}

float ratio(float combined, float total) {
    if (combined <= 0.0f || !(total > 0.0f)) return 1.0f;
    float r = combined / total;
    if (r < of_bits(LEAST_RATIO)) return of_bits(LEAST_RATIO);
    if (r > of_bits(MOST_RATIO)) return of_bits(MOST_RATIO);
    return r;
}

// One subframe of a pair, from the first mixed band on.
u8 mix(float *left, float *right, u32 bands) {
    float sum_left = 0.0f, sum_right = 0.0f, sum_both = 0.0f;
    for (u32 b = 0; b < bands; b++) {
        float both = left[b] + right[b];
        sum_left = sum_left + magnitude(left[b]);
        sum_right = sum_right + magnitude(right[b]);
        sum_both = sum_both + magnitude(both);
    }
    float combined = sum_left + sum_right;
    float times = ratio(combined, 2.0f * sum_both);
    for (u32 b = 0; b < bands; b++) {
        float both = left[b] + right[b];
        left[b] = both * times;
        right[b] = 0.0f;
    }
    return intensity(sum_left, combined);
}

u32 refuse(u32 number, u32 beside, u32 *answer, std::size_t answer_len) {
    if (answer_len > 0) answer[0] = beside;
    return number;
}

} // namespace

extern "C" u32 model_encode_stereo_frame(const u32 *layout, std::size_t layout_len, const u8 *kinds, std::size_t kinds_len,
                                         float *spectra, std::size_t spectra_len, u8 *intensities, std::size_t intensities_len,
                                         float *scaled, std::size_t scaled_len, i32 *codes, std::size_t codes_len,
                                         u8 *factors, std::size_t factors_len, u8 *side, std::size_t side_len,
                                         u8 *frame, std::size_t frame_len, u32 *answer, std::size_t answer_len) {
    // with no buffers the stage refuses a layout with 1 and any other call with 2
    if (model_encode_frame(layout, layout_len, kinds, kinds_len, 0, 0, 0, 0, 0, 0, 0, 0, 0, 0, 0, 0, 0, 0, 0, 0) == 1)
        return refuse(1, 0, answer, answer_len);
    const u32 n = layout[0], base = layout[1], stereo = layout[2], total = layout[3];
    if (spectra_len < n * 1024 || intensities_len < n * 8 || scaled_len < n * 1024 || codes_len < n * 1024 ||
        factors_len < n * 128 || side_len < n * 8 || frame_len < layout[4] || answer_len < 4)
        return refuse(2, 0, answer, answer_len);
    for (u32 i = 0; i < n * 8; i++)
        if (kinds[i / 8] == 2 && intensities[i] > 15) return refuse(3, i, answer, answer_len);
    for (u32 i = 0; i < n * 1024; i++)
        if (magnitude_bits(spectra[i]) >= 0x7F800000) return refuse(4, i, answer, answer_len);
    for (u32 i = 0; i < n * 1024; i++)
        if (magnitude_bits(spectra[i]) > LOUDEST) return refuse(17, 0, answer, answer_len);

    for (u32 c = 0; c + 1 < n; c++)
        for (u32 s = 0; s < 8 && kinds[c] == 1 && stereo > 0; s++) {
            float *left = spectra + c * 1024 + s * 128 + base;
            intensities[(c + 1) * 8 + s] = mix(left, left + 1024, total - base);
        }
    return model_encode_frame(layout, layout_len, kinds, kinds_len, spectra, spectra_len, intensities, intensities_len, scaled,
                              scaled_len, codes, codes_len, factors, factors_len, side, side_len, frame, frame_len, answer,
                              answer_len);
}
