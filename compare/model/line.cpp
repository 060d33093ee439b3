// Model of a line of frames, after A5's rules: refusals 1, 18 and 2, then the model's own stage, frame after frame; the same over the
// model's own stereo stage.
// It shares no code with the Rust, with the crates or with the library.
#include <cstddef>
#include <cstdint>

typedef std::uint8_t u8;
typedef std::uint32_t u32;
typedef std::uint64_t u64;
typedef std::int32_t i32;

extern "C" u32 model_encode_frame(const u32 *layout, std::size_t layout_len, const u8 *kinds, std::size_t kinds_len,
                                  const float *spectra, std::size_t spectra_len, const u8 *intensities, std::size_t intensities_len,
                                  float *scaled, std::size_t scaled_len, i32 *codes, std::size_t codes_len,
                                  u8 *factors, std::size_t factors_len, u8 *side, std::size_t side_len,
                                  u8 *frame, std::size_t frame_len, u32 *answer, std::size_t answer_len);

extern "C" u32 model_encode_stereo_frame(const u32 *layout, std::size_t layout_len, const u8 *kinds, std::size_t kinds_len,
                                         float *spectra, std::size_t spectra_len, u8 *intensities, std::size_t intensities_len,
                                         float *scaled, std::size_t scaled_len, i32 *codes, std::size_t codes_len,
                                         u8 *factors, std::size_t factors_len, u8 *side, std::size_t side_len,
                                         u8 *frame, std::size_t frame_len, u32 *answer, std::size_t answer_len);

namespace {

u32 refuse(u32 number, u32 beside, u32 *answer, std::size_t answer_len) {
    if (answer_len > 0) answer[0] = beside;
    return number;
}

// `single` is the stage or the stereo stage.
template <typename Float, typename Byte, typename Single>
u32 line(Single single, const u32 *layout, std::size_t layout_len, const u8 *kinds, std::size_t kinds_len, std::size_t count,
         Float *spectra, std::size_t spectra_len, Byte *intensities, std::size_t intensities_len, float *scaled, std::size_t scaled_len,
         i32 *codes, std::size_t codes_len, u8 *factors, std::size_t factors_len, u8 *side, std::size_t side_len, u8 *frames,
         std::size_t frames_len, u32 *answers, std::size_t answers_len, u64 *tally, std::size_t tally_len, u32 *answer,
         std::size_t answer_len) {
    // with no buffers the stage refuses a layout with 1 and any other call with 2
    if (model_encode_frame(layout, layout_len, kinds, kinds_len, 0, 0, 0, 0, 0, 0, 0, 0, 0, 0, 0, 0, 0, 0, 0, 0) == 1)
        return refuse(1, 0, answer, answer_len);
    bool large = count > 65535;
    for (std::size_t i = 0; i < 3 && i < tally_len; i++) large = large || tally[i] > u64(1) << 63;
    if (large) return refuse(18, 0, answer, answer_len);
    const std::size_t n = layout[0], f = layout[4];
    if (spectra_len < count * n * 1024 || intensities_len < count * n * 8 || scaled_len < n * 1024 || codes_len < n * 1024 ||
        factors_len < n * 128 || side_len < n * 8 || frames_len < count * f || answers_len < count * 4 || tally_len < 3 ||
        answer_len < 4)
        return refuse(2, 0, answer, answer_len);
    for (std::size_t k = 0; k < count; k++) {
        u32 own[4];
        u32 number = single(layout, layout_len, kinds, kinds_len, spectra + k * n * 1024, n * 1024, intensities + k * n * 8, n * 8,
                            scaled, n * 1024, codes, n * 1024, factors, n * 128, side, n * 8, frames + k * f, f, own, 4);
        if (number != 0) {
            answer[0] = own[0], answer[1] = u32(k);
            return number;
        }
        for (int i = 0; i < 4; i++) answers[4 * k + i] = own[i];
        tally[0] += 1, tally[1] += own[3], tally[2] += own[2];
    }
    return 0;
}

} // namespace

extern "C" u32 model_encode_line(const u32 *layout, std::size_t layout_len, const u8 *kinds, std::size_t kinds_len, std::size_t count,
                                 const float *spectra, std::size_t spectra_len, const u8 *intensities, std::size_t intensities_len,
                                 float *scaled, std::size_t scaled_len, i32 *codes, std::size_t codes_len,
                                 u8 *factors, std::size_t factors_len, u8 *side, std::size_t side_len,
                                 u8 *frames, std::size_t frames_len, u32 *answers, std::size_t answers_len,
                                 u64 *tally, std::size_t tally_len, u32 *answer, std::size_t answer_len) {
    return line(model_encode_frame, layout, layout_len, kinds, kinds_len, count, spectra, spectra_len, intensities, intensities_len,
                scaled, scaled_len, codes, codes_len, factors, factors_len, side, side_len, frames, frames_len, answers,
                answers_len, tally, tally_len, answer, answer_len);
}

extern "C" u32 model_encode_stereo_line(const u32 *layout, std::size_t layout_len, const u8 *kinds, std::size_t kinds_len, std::size_t count,
                                        float *spectra, std::size_t spectra_len, u8 *intensities, std::size_t intensities_len,
                                        float *scaled, std::size_t scaled_len, i32 *codes, std::size_t codes_len,
                                        u8 *factors, std::size_t factors_len, u8 *side, std::size_t side_len,
                                        u8 *frames, std::size_t frames_len, u32 *answers, std::size_t answers_len,
                                        u64 *tally, std::size_t tally_len, u32 *answer, std::size_t answer_len) {
    return line(model_encode_stereo_frame, layout, layout_len, kinds, kinds_len, count, spectra, spectra_len, intensities, intensities_len,
                scaled, scaled_len, codes, codes_len, factors, factors_len, side, side_len, frames, frames_len, answers,
                answers_len, tally, tally_len, answer, answer_len);
}
