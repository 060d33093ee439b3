/* How much stack a call takes: linked with --wrap for each function. Before a call the stack below it is
   painted, after it the lowest byte that changed is looked for. Counted from where the caller stands before it puts the
   arguments there, so arguments and return address count. `run.sh stack` prints the most of each function. x86-64 and aarch64. */
#include "../include/hca_frame.h"
#include "calls.h"

#include <stdio.h>
#include <stdlib.h>

enum { PAINTED = 64 * 1024, PAINT = 0xA5 };

extern __typeof__(hca_encode_frame) __real_hca_encode_frame;
extern __typeof__(hca_write_record) __real_hca_write_record;
extern __typeof__(hca_read_frame) __real_hca_read_frame;
extern __typeof__(hca_checksum) __real_hca_checksum;

static size_t most[FUNCTIONS];

static void say(void)
{
    printf("bytes of stack: hca_encode_frame %zu, hca_write_record %zu, hca_read_frame %zu, hca_checksum %zu%s", most[ENCODE],
           most[WRITE], most[READ], most[CHECKSUM], most[ENCODE] >= PAINTED ? " or more" : "");
    printf(", hca_write_header %zu", most[HEADER]);
    printf(", hca_list_write %zu, hca_list_read %zu, hca_list_lookup %zu, hca_list_summary %zu", most[LIST_WRITE], most[LIST_READ],
           most[LIST_LOOKUP], most[LIST_SUMMARY]);
    printf(", hca_read_wav %zu", most[WAV]);
    printf(", hca_encode_stereo_frame %zu", most[STEREO]);
    printf(", hca_encode_line %zu, hca_encode_stereo_line %zu", most[LINE], most[STEREO_LINE]);
    printf(", hca_read_header %zu", most[HEADER_BACK]);
    printf("\n");
}

#ifdef __aarch64__
#define STACK_POINTER(to) __asm__ volatile("mov %0, sp" : "=r"(to))
#else
#define STACK_POINTER(to) __asm__ volatile("mov %%rsp, %0" : "=r"(to))
#endif

/* Paints the stack below the caller, but for the first 512 bytes, where this function itself stands. */
__attribute__((noinline)) static void paint(uint8_t *from)
{
    volatile uint8_t *at = from - 512;
    while (at > from - PAINTED)
        *--at = PAINT;
}

__attribute__((noinline)) static void look(uint8_t *from, int function)
{
    volatile uint8_t *at = from - PAINTED;
    while (at < from - 512 && *at == PAINT)
        at++;
    static int told;
    if (!told)
        atexit(say);
    told = 1;
    if ((size_t)(from - (uint8_t *)(uintptr_t)at) > most[function])
        most[function] = (size_t)(from - (uint8_t *)(uintptr_t)at);
}

uint32_t __wrap_hca_encode_frame(const uint32_t *layout, size_t layout_len, const uint8_t *kinds, size_t kinds_len,
                                 const float *spectra, size_t spectra_len, const uint8_t *intensities, size_t intensities_len,
                                 float *scaled, size_t scaled_len, int32_t *codes, size_t codes_len, uint8_t *factors,
                                 size_t factors_len, uint8_t *side, size_t side_len, uint8_t *frame, size_t frame_len,
                                 uint32_t *answer, size_t answer_len)
{
    uint8_t *here;
    STACK_POINTER(here);
    paint(here);
    uint32_t number = __real_hca_encode_frame(layout, layout_len, kinds, kinds_len, spectra, spectra_len, intensities,
                                              intensities_len, scaled, scaled_len, codes, codes_len, factors, factors_len, side,
                                              side_len, frame, frame_len, answer, answer_len);
    look(here, ENCODE);
    return number;
}

uint32_t __wrap_hca_write_record(const uint32_t *layout, size_t layout_len, const uint8_t *kinds, size_t kinds_len,
                                 const uint32_t *record, size_t record_len, const uint8_t *factors, size_t factors_len,
                                 const uint8_t *side, size_t side_len, const int32_t *codes, size_t codes_len, uint8_t *frame,
                                 size_t frame_len, uint32_t *answer, size_t answer_len)
{
    uint8_t *here;
    STACK_POINTER(here);
    paint(here);
    uint32_t number = __real_hca_write_record(layout, layout_len, kinds, kinds_len, record, record_len, factors, factors_len,
                                              side, side_len, codes, codes_len, frame, frame_len, answer, answer_len);
    look(here, WRITE);
    return number;
}

uint32_t __wrap_hca_read_frame(const uint32_t *layout, size_t layout_len, const uint8_t *kinds, size_t kinds_len,
                               const uint8_t *frame, size_t frame_len, uint8_t *factors, size_t factors_len, uint8_t *side,
                               size_t side_len, int32_t *codes, size_t codes_len, uint32_t *answer, size_t answer_len)
{
    uint8_t *here;
    STACK_POINTER(here);
    paint(here);
    uint32_t number = __real_hca_read_frame(layout, layout_len, kinds, kinds_len, frame, frame_len, factors, factors_len, side,
                                            side_len, codes, codes_len, answer, answer_len);
    look(here, READ);
    return number;
}

uint16_t __wrap_hca_checksum(const uint8_t *bytes, size_t bytes_len)
{
    uint8_t *here;
    STACK_POINTER(here);
    paint(here);
    uint16_t check = __real_hca_checksum(bytes, bytes_len);
    look(here, CHECKSUM);
    return check;
}

extern __typeof__(hca_write_header) __real_hca_write_header;

uint32_t __wrap_hca_write_header(const uint32_t *layout, size_t layout_len, const uint8_t *kinds, size_t kinds_len,
                                 const uint64_t *stream, size_t stream_len, const uint64_t *points, size_t points_len,
                                 uint8_t *header, size_t header_len)
{
    uint8_t *here;
    STACK_POINTER(here);
    paint(here);
    uint32_t number = __real_hca_write_header(layout, layout_len, kinds, kinds_len, stream, stream_len, points, points_len, header,
                                              header_len);
    look(here, HEADER);
    return number;
}

extern __typeof__(hca_read_header) __real_hca_read_header;

uint32_t __wrap_hca_read_header(const uint8_t *header, size_t header_len, uint32_t *layout, size_t layout_len, uint32_t *answer,
                                size_t answer_len)
{
    uint8_t *here;
    STACK_POINTER(here);
    paint(here);
    uint32_t number = __real_hca_read_header(header, header_len, layout, layout_len, answer, answer_len);
    look(here, HEADER_BACK);
    return number;
}

extern __typeof__(hca_list_write) __real_hca_list_write;
extern __typeof__(hca_list_read) __real_hca_list_read;
extern __typeof__(hca_list_lookup) __real_hca_list_lookup;
extern __typeof__(hca_list_summary) __real_hca_list_summary;

uint32_t __wrap_hca_list_write(uint32_t frames, const uint32_t *entries, size_t entries_len, uint8_t *list, size_t list_len)
{
    uint8_t *here;
    STACK_POINTER(here);
    paint(here);
    uint32_t number = __real_hca_list_write(frames, entries, entries_len, list, list_len);
    look(here, LIST_WRITE);
    return number;
}

uint32_t __wrap_hca_list_read(const uint8_t *list, size_t list_len, uint32_t *entries, size_t entries_len, uint32_t *answer,
                              size_t answer_len)
{
    uint8_t *here;
    STACK_POINTER(here);
    paint(here);
    uint32_t number = __real_hca_list_read(list, list_len, entries, entries_len, answer, answer_len);
    look(here, LIST_READ);
    return number;
}

uint32_t __wrap_hca_list_lookup(const uint8_t *list, size_t list_len, uint32_t frame, uint32_t *answer, size_t answer_len)
{
    uint8_t *here;
    STACK_POINTER(here);
    paint(here);
    uint32_t number = __real_hca_list_lookup(list, list_len, frame, answer, answer_len);
    look(here, LIST_LOOKUP);
    return number;
}

uint32_t __wrap_hca_list_summary(const uint8_t *list, size_t list_len, uint64_t *answer, size_t answer_len)
{
    uint8_t *here;
    STACK_POINTER(here);
    paint(here);
    uint32_t number = __real_hca_list_summary(list, list_len, answer, answer_len);
    look(here, LIST_SUMMARY);
    return number;
}

extern __typeof__(hca_read_wav) __real_hca_read_wav;

uint32_t __wrap_hca_read_wav(const uint8_t *wav, size_t wav_len, float *samples, size_t samples_len, float *note, size_t note_len,
                             uint32_t *answer, size_t answer_len)
{
    uint8_t *here;
    STACK_POINTER(here);
    paint(here);
    uint32_t number = __real_hca_read_wav(wav, wav_len, samples, samples_len, note, note_len, answer, answer_len);
    look(here, WAV);
    return number;
}

extern __typeof__(hca_encode_stereo_frame) __real_hca_encode_stereo_frame;

uint32_t __wrap_hca_encode_stereo_frame(const uint32_t *layout, size_t layout_len, const uint8_t *kinds, size_t kinds_len,
                                        float *spectra, size_t spectra_len, uint8_t *intensities, size_t intensities_len,
                                        float *scaled, size_t scaled_len, int32_t *codes, size_t codes_len, uint8_t *factors,
                                        size_t factors_len, uint8_t *side, size_t side_len, uint8_t *frame, size_t frame_len,
                                        uint32_t *answer, size_t answer_len)
{
    uint8_t *here;
    STACK_POINTER(here);
    paint(here);
    uint32_t number = __real_hca_encode_stereo_frame(layout, layout_len, kinds, kinds_len, spectra, spectra_len, intensities,
                                                     intensities_len, scaled, scaled_len, codes, codes_len, factors, factors_len,
                                                     side, side_len, frame, frame_len, answer, answer_len);
    look(here, STEREO);
    return number;
}

extern __typeof__(hca_encode_line) __real_hca_encode_line;

uint32_t __wrap_hca_encode_line(const uint32_t *layout, size_t layout_len, const uint8_t *kinds, size_t kinds_len, size_t count,
                                const float *spectra, size_t spectra_len, const uint8_t *intensities, size_t intensities_len,
                                float *scaled, size_t scaled_len, int32_t *codes, size_t codes_len, uint8_t *factors,
                                size_t factors_len, uint8_t *side, size_t side_len, uint8_t *frames, size_t frames_len,
                                uint32_t *answers, size_t answers_len, uint64_t *tally, size_t tally_len, uint32_t *answer,
                                size_t answer_len)
{
    uint8_t *here;
    STACK_POINTER(here);
    paint(here);
    uint32_t number = __real_hca_encode_line(layout, layout_len, kinds, kinds_len, count, spectra, spectra_len, intensities,
                                             intensities_len, scaled, scaled_len, codes, codes_len, factors, factors_len, side,
                                             side_len, frames, frames_len, answers, answers_len, tally, tally_len, answer,
                                             answer_len);
    look(here, LINE);
    return number;
}

extern __typeof__(hca_encode_stereo_line) __real_hca_encode_stereo_line;

uint32_t __wrap_hca_encode_stereo_line(const uint32_t *layout, size_t layout_len, const uint8_t *kinds, size_t kinds_len, size_t count,
                                float *spectra, size_t spectra_len, uint8_t *intensities, size_t intensities_len,
                                float *scaled, size_t scaled_len, int32_t *codes, size_t codes_len, uint8_t *factors,
                                size_t factors_len, uint8_t *side, size_t side_len, uint8_t *frames, size_t frames_len,
                                uint32_t *answers, size_t answers_len, uint64_t *tally, size_t tally_len, uint32_t *answer,
                                size_t answer_len)
{
    uint8_t *here;
    STACK_POINTER(here);
    paint(here);
    uint32_t number = __real_hca_encode_stereo_line(layout, layout_len, kinds, kinds_len, count, spectra, spectra_len, intensities,
                                             intensities_len, scaled, scaled_len, codes, codes_len, factors, factors_len, side,
                                             side_len, frames, frames_len, answers, answers_len, tally, tally_len, answer,
                                             answer_len);
    look(here, STEREO_LINE);
    return number;
}
