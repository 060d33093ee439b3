/* A library with one fault, to see that the fuzzer finds it: linked with --wrap for each function, and the environment's
   HCA_FAULT names the fault. `run.sh faults` runs them all; each has to be found. */
#include "../include/hca_frame.h"
#include "rules.h"

#include <stdlib.h>
#include <string.h>

uint32_t __real_hca_encode_frame(const uint32_t *, size_t, const uint8_t *, size_t, const float *, size_t, const uint8_t *, size_t,
                                 float *, size_t, int32_t *, size_t, uint8_t *, size_t, uint8_t *, size_t, uint8_t *, size_t,
                                 uint32_t *, size_t);
uint32_t __real_hca_write_record(const uint32_t *, size_t, const uint8_t *, size_t, const uint32_t *, size_t, const uint8_t *, size_t,
                                 const uint8_t *, size_t, const int32_t *, size_t, uint8_t *, size_t, uint32_t *, size_t);
uint32_t __real_hca_read_frame(const uint32_t *, size_t, const uint8_t *, size_t, const uint8_t *, size_t, uint8_t *, size_t,
                               uint8_t *, size_t, int32_t *, size_t, uint32_t *, size_t);
uint16_t __real_hca_checksum(const uint8_t *, size_t);

static int is_fault(const char *name)
{
    const char *wanted = getenv("HCA_FAULT");
    return wanted != NULL && strcmp(wanted, name) == 0;
}

static volatile uint8_t sink;

/* The layout as a library takes it that does not mind its limits of the resolution or its mode; otherwise as it is. */
static const uint32_t *minded(const uint32_t *layout, size_t layout_len, uint32_t *other)
{
    if (layout_len < HCA_LAYOUT_FULL_COUNT)
        return layout;
    memcpy(other, layout, 4 * HCA_LAYOUT_FULL_COUNT);
    if (is_fault("minimum-ignored"))
        other[HCA_MINIMUM] = 1;
    else if (is_fault("maximum-ignored"))
        other[HCA_MAXIMUM] = 15;
    else if (is_fault("limits-exchanged"))
        other[HCA_MINIMUM] = layout[HCA_MAXIMUM], other[HCA_MAXIMUM] = layout[HCA_MINIMUM];
    else if (is_fault("modes-exchanged"))
        other[HCA_MODE] = layout[HCA_MODE] < 2 ? 1 - layout[HCA_MODE] : layout[HCA_MODE];
    else if (is_fault("mode-2-let-in"))
        other[HCA_MODE] = layout[HCA_MODE] == 2 ? 1 : layout[HCA_MODE];
    else if (is_fault("held-in-the-code-alone"))
        other[HCA_MODE] = layout[HCA_MODE] == 1 ? 0 : layout[HCA_MODE];
    else
        return layout;
    return other;
}

/* After a call in the Rust's mode: every code within its range, and the frame anew, which may have no room for them now. */
static uint32_t hold_codes(const uint32_t *layout, size_t layout_len, const uint8_t *kinds, float *scaled, int32_t *codes, uint8_t *factors,
                           uint8_t *side, uint8_t *frame, uint32_t *answer, const uint32_t *lent)
{
    struct shape l;
    uint32_t record[2] = {answer[0], answer[1]}, told[4] = {0, 0, 0, 0};
    if (layout_len < HCA_LAYOUT_FULL_COUNT || layout[HCA_MODE] != 1 || !shape_of(&l, layout, layout_len, kinds, 16))
        return 0;
    for (uint32_t i = 0; i < l.channels * 1024; i++) {
        uint32_t c = i / 1024, b = i % 128, r = resolution(&l, factors[128 * c + b], record[0], record[1], b);
        if (r < 8 && codes[i] > (int32_t)r)
            codes[i] = (int32_t)r;
    }
    if (__real_hca_write_record(layout, layout_len, kinds, l.channels, record, 2, factors, l.channels * 128, side, l.channels * 8, codes,
                                l.channels * 1024, frame, l.frame, told, 4) == 0) {
        answer[3] = told[2];
        return 0;
    }
    memset(scaled, 0, l.channels * 4096);
    memset(codes, 0, l.channels * 4096);
    memset(factors, 0, l.channels * 128);
    memset(side, 0, l.channels * 8);
    memcpy(answer, lent, 16);
    answer[0] = told[0];
    return 7;
}

uint32_t __wrap_hca_encode_frame(const uint32_t *layout, size_t layout_len, const uint8_t *kinds, size_t kinds_len,
                                 const float *spectra, size_t spectra_len, const uint8_t *intensities, size_t intensities_len,
                                 float *scaled, size_t scaled_len, int32_t *codes, size_t codes_len, uint8_t *factors,
                                 size_t factors_len, uint8_t *side, size_t side_len, uint8_t *frame, size_t frame_len,
                                 uint32_t *answer, size_t answer_len)
{
    uint32_t other[HCA_LAYOUT_FULL_COUNT];
    const uint32_t *taken = minded(layout, layout_len, other);
    size_t count_taken = taken == layout ? layout_len : HCA_LAYOUT_FULL_COUNT;
    uint32_t lent[4] = {0, 0, 0, 0};
    if (answer_len >= 4)
        memcpy(lent, answer, 16);
    uint32_t number = __real_hca_encode_frame(taken, count_taken, kinds, kinds_len, spectra, spectra_len, intensities,
                                              intensities_len, scaled, scaled_len, codes, codes_len, factors, factors_len, side,
                                              side_len, frame, frame_len, answer, answer_len);
    if (is_fault("stage-writes-past-the-frame") && number == 0 && frame_len > layout[4])
        frame[layout[4]] ^= 1;
    if (is_fault("stage-writes-past-the-buffer") && number == 0)
        frame[frame_len] ^= 1;
    if (is_fault("stage-writes-before-the-buffer") && number == 0)
        side[-1] ^= 1;
    if (is_fault("stage-reads-past-the-spectra") && number == 0)
        sink = ((const uint8_t *)spectra)[4 * spectra_len];
    if (is_fault("refusal-1-writes") && number == 1 && frame_len > 0)
        frame[0] ^= 1;
    if (is_fault("refusal-4-writes") && number == 4)
        scaled[scaled_len - 1] = 0.5f;
    if (is_fault("refusal-5-leaves-a-code") && number == 5)
        codes[1023] = 1;
    if (is_fault("refusal-5-made-up-pairs") && number == 5)
        answer[0] += 1;
    if (is_fault("refusal-4-for-3") && number == 3)
        number = 4;
    if (is_fault("spectra-changed") && number == 0)
        ((float *)(uintptr_t)spectra)[7] += 1.0f;
    if (is_fault("stage-bits-one-off") && number == 0)
        answer[3] -= 1;
    if (is_fault("stage-made-up-pairs") && number == 0)
        answer[2] += 1;
    if (is_fault("stage-other-code") && number == 0 && codes[0] != 0)
        codes[0] = -codes[0];
    if (is_fault("stage-refuses-all") && number == 0)
        number = 6;
    if (is_fault("held-in-the-code-alone") && number == 0)
        number = hold_codes(layout, layout_len, kinds, scaled, codes, factors, side, frame, answer, lent);
    if (is_fault("stage-first-subframe-only") && number == 0)
        memset(codes + 128, 0, 4 * 896);
    return number;
}

uint32_t __wrap_hca_write_record(const uint32_t *layout, size_t layout_len, const uint8_t *kinds, size_t kinds_len,
                                 const uint32_t *record, size_t record_len, const uint8_t *factors, size_t factors_len,
                                 const uint8_t *side, size_t side_len, const int32_t *codes, size_t codes_len, uint8_t *frame,
                                 size_t frame_len, uint32_t *answer, size_t answer_len)
{
    uint32_t other[HCA_LAYOUT_FULL_COUNT];
    const uint32_t *taken = minded(layout, layout_len, other);
    size_t count_taken = taken == layout ? layout_len : HCA_LAYOUT_FULL_COUNT;
    uint32_t number = __real_hca_write_record(taken, count_taken, kinds, kinds_len, record, record_len, factors, factors_len, side,
                                              side_len, codes, codes_len, frame, frame_len, answer, answer_len);
    if (is_fault("refusal-7-leaves-a-byte") && number == 7)
        frame[0] = 0xFF;
    if (is_fault("refusal-7-one-bit-less") && number == 7)
        answer[0] -= 1;
    if (is_fault("refusal-15-clears") && number == 15)
        memset(frame, 0, layout[4]);
    if (is_fault("writer-takes-all") && number == 15)
        number = 0;
    if (is_fault("writer-refuses-legal") && number == 0 && record[0] == 511)
        number = 15;
    if (is_fault("refusal-moves-the-answer") && number != 0 && answer_len > 1)
        answer[1] = 0;
    if (is_fault("short-answer-is-written") && number == 2 && answer_len > 0 && answer_len < 4)
        answer[0] = 0;
    if (is_fault("writer-fill-holds-a-1") && number == 0 && answer[2] < 8 * (layout[4] - 2))
        frame[layout[4] - 3] |= 1;
    return number;
}

uint32_t __wrap_hca_read_frame(const uint32_t *layout, size_t layout_len, const uint8_t *kinds, size_t kinds_len,
                               const uint8_t *frame, size_t frame_len, uint8_t *factors, size_t factors_len, uint8_t *side,
                               size_t side_len, int32_t *codes, size_t codes_len, uint32_t *answer, size_t answer_len)
{
    uint32_t other[HCA_LAYOUT_FULL_COUNT];
    const uint32_t *taken = minded(layout, layout_len, other);
    size_t count_taken = taken == layout ? layout_len : HCA_LAYOUT_FULL_COUNT;
    uint32_t number = __real_hca_read_frame(taken, count_taken, kinds, kinds_len, frame, frame_len, factors, factors_len, side,
                                            side_len, codes, codes_len, answer, answer_len);
    if (is_fault("reader-reads-past-the-frame") && number == 0)
        sink = frame[frame_len];
    if (is_fault("reader-moves-the-fourth-place") && number == 0)
        answer[3] = 0;
    if (is_fault("reader-other-factor") && number == 0 && factors[0] > 0)
        factors[0] -= 1;
    if (is_fault("reader-takes-any-fill") && number == 14)
        number = 0;
    if (is_fault("refusal-14-one-off") && number == 14)
        answer[0] += 1;
    if (is_fault("refusal-13-one-byte-off") && number == 13)
        answer[0] += 8;
    if (is_fault("refusal-11-leaves-factors") && number == 11)
        factors[0] = 5;
    if (is_fault("check-not-looked-at") && number == 8)
        number = 9;
    return number;
}

uint16_t __wrap_hca_checksum(const uint8_t *bytes, size_t bytes_len)
{
    uint16_t check = __real_hca_checksum(bytes, bytes_len);
    return is_fault("check-of-one-byte-wrong") && bytes_len == 1 ? (uint16_t)(check ^ 1) : check;
}

/* ---- the header writer */

extern __typeof__(hca_write_header) __real_hca_write_header;

uint32_t __wrap_hca_write_header(const uint32_t *layout, size_t layout_len, const uint8_t *kinds, size_t kinds_len,
                                 const uint64_t *stream, size_t stream_len, const uint64_t *points, size_t points_len,
                                 uint8_t *header, size_t header_len)
{
    uint32_t other[HCA_LAYOUT_FULL_COUNT];
    const uint32_t *taken = minded(layout, layout_len, other);
    size_t count_taken = taken == layout ? layout_len : HCA_LAYOUT_FULL_COUNT;
    uint32_t number = __real_hca_write_header(taken, count_taken, kinds, kinds_len, stream, stream_len, points, points_len, header,
                                              header_len);
    if (is_fault("header-edge-keeps-its-frame") && number == 0 && points_len > 1 && (points[1] + 128) % 1024 == 0)
        header[51] += 1;
    if (is_fault("header-rest-is-written") && number == 0 && header_len > 96)
        header[96] ^= 1;
    if (is_fault("header-reads-past-the-points") && number == 0)
        sink = ((const uint8_t *)points)[8 * points_len];
    if (is_fault("refusal-16-writes") && number == 16)
        header[95] ^= 1;
    if (is_fault("header-takes-nine-channels") && number == 16 && layout[0] == 9)
        number = 0;
    return number;
}

/* ---- the header reader */

extern __typeof__(hca_read_header) __real_hca_read_header;

/* The number that it would answer with one byte as it was meant: a fault that lets that byte pass. */
static uint32_t passed(const uint8_t *header, size_t at, uint8_t byte, uint32_t *layout, uint32_t *answer)
{
    uint8_t other[96];
    memcpy(other, header, 96);
    other[at] = byte;
    uint16_t check = __real_hca_checksum(other, 94);
    other[94] = (uint8_t)(check >> 8), other[95] = (uint8_t)check;
    return __real_hca_read_header(other, 96, layout, 7, answer, 8);
}

uint32_t __wrap_hca_read_header(const uint8_t *header, size_t header_len, uint32_t *layout, size_t layout_len, uint32_t *answer,
                                size_t answer_len)
{
    uint32_t number = __real_hca_read_header(header, header_len, layout, layout_len, answer, answer_len);
    if (is_fault("header-back-takes-any-group") && number == 28)
        number = passed(header, 37, (uint8_t)((header[34] - header[35] - header[36] + 7) / 8), layout, answer);
    if (is_fault("header-back-not-to-93") && number == 29)
        number = passed(header, 93, 0, layout, answer);
    if (is_fault("header-back-fields-before-names") && number == 27 && header[12] > 8)
        number = 28;
    if (is_fault("header-back-minimum-above-maximum") && number == 28 && header[30] > header[31])
        number = passed(header, 30, header[31], layout, answer);
    if (is_fault("header-back-in-the-order-of-the-bytes") && number == 0) {
        uint32_t delay = answer[5];
        answer[5] = answer[6];
        answer[6] = delay;
    }
    if (is_fault("header-back-loop-without-one") && number == 0 && answer[3] == 0)
        answer[7] = 1;
    if (is_fault("header-back-base-for-stereo") && number == 0) {
        uint32_t base = layout[1];
        layout[1] = layout[2];
        layout[2] = base;
    }
    if (is_fault("header-back-writes-the-mode") && number == 0 && layout_len > 7)
        layout[7] = 0;
    if (is_fault("header-back-writes-past-the-answer") && number == 0 && answer_len > 8)
        answer[8] = 0;
    if (is_fault("refusal-28-writes-the-layout") && number == 28)
        layout[0] = header[12] ^ 0x100;
    if (is_fault("refusal-26-leaves-the-answer") && number == 26)
        answer[0] = 7;
    if (is_fault("header-back-short-answer-written") && number == 2 && answer_len > 0 && answer_len < 8)
        answer[0] ^= 1;
    if (is_fault("header-back-reads-past-the-header") && number == 2 && header_len < 96)
        sink = header[header_len];
    return number;
}

/* ---- the list */

extern __typeof__(hca_list_write) __real_hca_list_write;
extern __typeof__(hca_list_read) __real_hca_list_read;
extern __typeof__(hca_list_lookup) __real_hca_list_lookup;
extern __typeof__(hca_list_summary) __real_hca_list_summary;

uint32_t __wrap_hca_list_write(uint32_t frames, const uint32_t *entries, size_t entries_len, uint8_t *list, size_t list_len)
{
    uint32_t number = __real_hca_list_write(frames, entries, entries_len, list, list_len);
    if (is_fault("list-level-low-byte-first") && number == 0 && frames > 0) {
        uint8_t high = list[9];
        list[9] = list[10];
        list[10] = high;
    }
    if (is_fault("refusal-21-writes-the-mark") && number == 21)
        list[0] = 'V';
    return number;
}

uint32_t __wrap_hca_list_read(const uint8_t *list, size_t list_len, uint32_t *entries, size_t entries_len, uint32_t *answer,
                              size_t answer_len)
{
    uint32_t number = __real_hca_list_read(list, list_len, entries, entries_len, answer, answer_len);
    if (is_fault("list-reads-past-the-list") && number == 20)
        sink = list[list_len];
    if (is_fault("list-takes-a-longer-one") && number == 20 && list_len > 9)
        number = 0;
    if (is_fault("list-pairs-and-boundary") && number == 0 && answer[0] > 0) {
        uint32_t boundary = entries[1];
        entries[1] = entries[2];
        entries[2] = boundary;
    }
    return number;
}

uint32_t __wrap_hca_list_lookup(const uint8_t *list, size_t list_len, uint32_t frame, uint32_t *answer, size_t answer_len)
{
    uint32_t number = __real_hca_list_lookup(list, list_len, frame, answer, answer_len);
    if (is_fault("lookup-before-the-entries") && number == 21)
        number = 31;
    if (is_fault("refusal-31-leaves-the-answer") && number == 31)
        answer[0] = 7;
    return number;
}

uint32_t __wrap_hca_list_summary(const uint8_t *list, size_t list_len, uint64_t *answer, size_t answer_len)
{
    uint32_t number = __real_hca_list_summary(list, list_len, answer, answer_len);
    if (is_fault("summary-in-32-bits") && number == 0)
        answer[2] &= 0xFFFFFFFF;
    if (is_fault("summary-moves-the-rest") && number == 0 && answer_len > 3)
        answer[3] = 0;
    return number;
}

/* ---- the WAV reader */

extern __typeof__(hca_read_wav) __real_hca_read_wav;

uint32_t __wrap_hca_read_wav(const uint8_t *wav, size_t wav_len, float *samples, size_t samples_len, float *note, size_t note_len,
                             uint32_t *answer, size_t answer_len)
{
    uint32_t number = __real_hca_read_wav(wav, wav_len, samples, samples_len, note, note_len, answer, answer_len);
    if (is_fault("wav-reads-past-the-file") && number == 23)
        sink = wav[wav_len];
    if (is_fault("wav-peak-is-signed") && number == 0 && answer[3] > 0 && samples[0] < 0)
        note[0] = samples[0];
    if (is_fault("wav-mean-of-one-more") && number == 0 && answer[3] > 0)
        note[1] = note[1] * (float)answer[3] / (float)(answer[3] + 1);
    if (is_fault("wav-last-sample-missing") && number == 0 && answer[3] > 0)
        samples[answer[3] - 1] = 0.0f;
    if (is_fault("refusal-25-writes") && number == 25)
        samples[0] = 1.0f;
    if (is_fault("refusal-30-for-2") && number == 30)
        number = 2;
    if (is_fault("wav-note-of-a-refusal") && number == 24)
        note[0] = 0.0f;
    return number;
}

/* ---- the stereo stage */

extern __typeof__(hca_encode_stereo_frame) __real_hca_encode_stereo_frame;

uint32_t __wrap_hca_encode_stereo_frame(const uint32_t *layout, size_t layout_len, const uint8_t *kinds, size_t kinds_len,
                                        float *spectra, size_t spectra_len, uint8_t *intensities, size_t intensities_len,
                                        float *scaled, size_t scaled_len, int32_t *codes, size_t codes_len, uint8_t *factors,
                                        size_t factors_len, uint8_t *side, size_t side_len, uint8_t *frame, size_t frame_len,
                                        uint32_t *answer, size_t answer_len)
{
    uint32_t other[HCA_LAYOUT_FULL_COUNT];
    const uint32_t *taken = minded(layout, layout_len, other);
    size_t count_taken = taken == layout ? layout_len : HCA_LAYOUT_FULL_COUNT;
    uint32_t number = __real_hca_encode_stereo_frame(taken, count_taken, kinds, kinds_len, spectra, spectra_len, intensities,
                                                     intensities_len, scaled, scaled_len, codes, codes_len, factors, factors_len,
                                                     side, side_len, frame, frame_len, answer, answer_len);
    int paired = number == 0 && layout[0] > 1 && layout[2] > 0 && kinds[0] == 1;
    if (is_fault("intensity-of-the-left") && paired)
        intensities[0] = intensities[8];
    if (is_fault("intensity-one-more") && paired)
        intensities[8] += 1;
    if (is_fault("right-is-minus-zero") && paired && kinds[1] != 1)
        spectra[1024 + layout[1]] = -0.0f;
    if (is_fault("mixes-past-total") && paired && layout[3] < 128)
        spectra[layout[3]] *= 0.75f;
    if (is_fault("mixes-an-ulp-beside") && paired && spectra[layout[1]] != 0.0f)
        ((uint32_t *)(void *)spectra)[layout[1]] ^= 1;
    if (is_fault("mixes-without-stereo-bands") && number == 0 && layout[0] > 1 && layout[2] == 0)
        intensities[8] ^= 1;
    if (is_fault("refusal-17-mixes") && number == 17)
        intensities[0] ^= 1;
    if (is_fault("refusal-17-as-4") && number == 17)
        number = 4;
    if (is_fault("refusal-17-with-a-place") && number == 17)
        answer[0] = 5;
    if (is_fault("refusal-17-clears") && number == 17)
        memset(frame, 0, layout[4]);
    if (is_fault("refusal-5-takes-back-the-mixing") && number == 5 && layout[0] > 1 && layout[2] > 0 && kinds[0] == 1)
        intensities[8] ^= 1;
    if (is_fault("refusal-5-clears-the-spectra") && number == 5)
        memset(spectra, 0, 4096 * layout[0]);
    if (is_fault("stereo-refusal-7-leaves-a-byte") && number == 7)
        frame[0] = 0xFF;
    if (is_fault("stereo-writes-past-the-intensities") && number == 0)
        intensities[intensities_len] ^= 1;
    if (is_fault("stereo-writes-past-the-spectra") && number == 0 && spectra_len > 1024 * layout[0])
        spectra[1024 * layout[0]] = 0.0f;
    if (is_fault("stereo-other-code") && number == 0 && codes[0] != 0)
        codes[0] = -codes[0];
    return number;
}

/* ---- the line */

extern __typeof__(hca_encode_line) __real_hca_encode_line;

uint32_t __wrap_hca_encode_line(const uint32_t *layout, size_t layout_len, const uint8_t *kinds, size_t kinds_len, size_t count,
                                const float *spectra, size_t spectra_len, const uint8_t *intensities, size_t intensities_len,
                                float *scaled, size_t scaled_len, int32_t *codes, size_t codes_len, uint8_t *factors,
                                size_t factors_len, uint8_t *side, size_t side_len, uint8_t *frames, size_t frames_len,
                                uint32_t *answers, size_t answers_len, uint64_t *tally, size_t tally_len, uint32_t *answer,
                                size_t answer_len)
{
    uint32_t other[HCA_LAYOUT_FULL_COUNT];
    const uint32_t *taken = minded(layout, layout_len, other);
    size_t count_taken = taken == layout ? layout_len : HCA_LAYOUT_FULL_COUNT;
    uint32_t number = __real_hca_encode_line(taken, count_taken, kinds, kinds_len, count, spectra, spectra_len, intensities,
                                             intensities_len, scaled, scaled_len, codes, codes_len, factors, factors_len, side,
                                             side_len, frames, frames_len, answers, answers_len, tally, tally_len, answer,
                                             answer_len);
    int of_a_frame = number >= 3 && number <= 7;
    size_t f = number == 1 ? 0 : layout[4], k = of_a_frame ? answer[1] : 0;
    if (is_fault("tally-counts-a-refused-frame") && of_a_frame)
        tally[0] += 1;
    if (is_fault("tally-of-the-last-frame-only") && number == 0 && count > 1)
        tally[1] = answers[4 * count - 1];
    if (is_fault("bits-and-pairs-exchanged") && number == 0) {
        uint64_t bits = tally[1];
        tally[1] = tally[2];
        tally[2] = bits;
    }
    if (is_fault("tally-past-its-three-counts") && number == 0 && tally_len > 3)
        tally[3] ^= 1;
    if (is_fault("index-one-off") && of_a_frame)
        answer[1] += 1;
    if (is_fault("place-of-the-whole-line") && number == 4 && k > 0)
        answer[0] += (uint32_t)k * 1024 * layout[0];
    if (is_fault("answers-before-the-refusal") && of_a_frame)
        answers[4 * k] = 0;
    if (is_fault("frame-a-byte-late") && number == 0 && count > 1)
        frames[f] ^= 1;
    if (is_fault("later-areas-cleared") && of_a_frame && k + 1 < count)
        memset(frames + (k + 1) * f, 0, f);
    if (is_fault("earlier-frames-cleared") && of_a_frame && k > 0)
        memset(frames, 0, f);
    if (is_fault("line-refusal-4-clears-its-area") && number == 4)
        memset(frames + k * f, 0, f);
    if (is_fault("line-refusal-5-leaves-a-code") && number == 5)
        codes[0] = 1;
    if (is_fault("line-refusal-4-clears-the-work") && number == 4)
        memset(factors, 0, 128);
    if (is_fault("line-refusal-18-as-2") && number == 18)
        number = 2;
    if (is_fault("line-takes-any-count") && number == 18 && count > 65535)
        number = 0;
    if (is_fault("line-refuses-65535") && number == 2 && count == 65535)
        number = 18;
    if (is_fault("line-refuses-2-to-the-63") && number == 0 && tally[2] >= (uint64_t)1 << 63)
        number = 18;
    if (is_fault("delivered-line-writes-the-answer") && number == 0)
        answer[0] = 0;
    if (is_fault("line-refusal-2-tells-an-index") && number == 2 && answer_len >= 4)
        answer[1] = 0;
    if (is_fault("no-frames-clear-the-work") && number == 0 && count == 0)
        memset(side, 0, 8);
    if (is_fault("line-writes-past-the-frames") && number == 0 && frames_len > count * f)
        frames[count * f] ^= 1;
    if (is_fault("line-reads-past-the-spectra") && number == 0)
        sink = ((const uint8_t *)spectra)[4 * spectra_len];
    return number;
}

extern __typeof__(hca_encode_stereo_line) __real_hca_encode_stereo_line;

uint32_t __wrap_hca_encode_stereo_line(const uint32_t *layout, size_t layout_len, const uint8_t *kinds, size_t kinds_len, size_t count,
                                       float *spectra, size_t spectra_len, uint8_t *intensities, size_t intensities_len,
                                       float *scaled, size_t scaled_len, int32_t *codes, size_t codes_len, uint8_t *factors,
                                       size_t factors_len, uint8_t *side, size_t side_len, uint8_t *frames, size_t frames_len,
                                       uint32_t *answers, size_t answers_len, uint64_t *tally, size_t tally_len, uint32_t *answer,
                                       size_t answer_len)
{
    uint32_t number = __real_hca_encode_stereo_line(layout, layout_len, kinds, kinds_len, count, spectra, spectra_len, intensities,
                                                    intensities_len, scaled, scaled_len, codes, codes_len, factors, factors_len,
                                                    side, side_len, frames, frames_len, answers, answers_len, tally, tally_len,
                                                    answer, answer_len);
    int of_a_frame = (number >= 3 && number <= 7) || number == 17;
    size_t n = number == 1 ? 0 : 1024 * layout[0], f = number == 1 ? 0 : layout[4], k = of_a_frame ? answer[1] : 0;
    if (is_fault("stereo-line-mixes-later-frames") && of_a_frame && k + 1 < count)
        spectra[(k + 1) * n] = -spectra[(k + 1) * n];
    if (is_fault("stereo-line-leaves-another-right") && number == 0 && count > 0 && layout[0] > 1)
        spectra[count * n - 1024 + layout[1]] += 1.0f;
    if (is_fault("stereo-line-intensities-of-the-first") && number == 0 && count > 1)
        memcpy(intensities + (count - 1) * 8 * layout[0], intensities, 8 * layout[0]);
    if (is_fault("stereo-line-17-mixes") && number == 17)
        intensities[k * 8 * layout[0]] ^= 1;
    if (is_fault("stereo-line-17-clears-its-area") && number == 17)
        memset(frames + k * f, 0, f);
    if (is_fault("stereo-line-17-clears-the-work") && number == 17)
        memset(side, 0, 8);
    if (is_fault("stereo-line-17-without-its-frame") && number == 17 && k > 0)
        answer[1] = 0;
    if (is_fault("stereo-line-17-counts") && number == 17)
        tally[0] += 1;
    if (is_fault("stereo-line-5-as-lent") && number == 5 && layout[0] > 1)
        spectra[k * n + layout[1]] *= 2.0f;
    if (is_fault("stereo-line-18-as-2") && number == 18)
        number = 2;
    if (is_fault("stereo-line-writes-past-the-spectra") && number == 0 && spectra_len > count * n)
        ((uint32_t *)(void *)spectra)[count * n] ^= 1;
    if (is_fault("stereo-line-writes-past-the-intensities") && number == 0 && intensities_len > count * n / 128)
        intensities[count * n / 128] ^= 1;
    return number;
}
