/* One mono frame there and back: encode, read strictly, write again.

     cc -std=c99 -Wall -Wextra -Iinclude examples/encode.c target/library/libhca.a -o target/encode-example
     target/encode-example

   Needs libhca.a: sh scripts/library.sh. Exit status 0 where all is as it should be. */
#include "hca_frame.h"

#include <stdio.h>
#include <string.h>

#define FRAME_SIZE 170 /* 64 kbit/s at 48 kHz: 1,024 samples a frame */

/* Lengths of the buffers of one channel. */
#define SPECTRA HCA_SPECTRA_LENGTH(1)
#define SCALED HCA_SCALED_LENGTH(1)
#define CODES HCA_CODES_LENGTH(1)
#define FACTORS HCA_FACTORS_LENGTH(1)
#define INTENSITIES HCA_INTENSITIES_LENGTH(1)
#define SIDE HCA_SIDE_LENGTH(1)

/* Everything a mono frame needs, lent to the calls. */
static float spectra[SPECTRA];
static float scaled[SCALED];
static int32_t codes[CODES], codes_read[CODES];
static uint8_t factors[FACTORS], factors_read[FACTORS];
static uint8_t side[SIDE], side_read[SIDE];
static uint8_t frame[FRAME_SIZE], frame_again[FRAME_SIZE];

static const uint32_t layout[HCA_LAYOUT_COUNT] = {1, 64, 0, 100, FRAME_SIZE}; /* channels, base, stereo, total, frame size */
static const uint8_t kinds[1] = {HCA_DISCRETE};
static const uint8_t intensities[INTENSITIES] = {0}; /* only secondaries have them */

static int refused(const char *call, uint32_t refusal, const uint32_t *answer)
{
    fprintf(stderr, "%s: refusal %u, beside it %u: %s\n", call, (unsigned)refusal, (unsigned)answer[0], hca_refusal_text(refusal));
    return 1;
}

/* A few sines that decay over the frame: each is a peak over its band and the two beside it. */
static void make_spectra(void)
{
    static const int bands[5] = {3, 9, 20, 41, 80};
    float loudness = 0.5f;
    for (int n = 0; n < 5; n++) {
        float now = loudness;
        for (int subframe = 0; subframe < 8; subframe++) {
            float *band = spectra + 128 * subframe + bands[n];
            float sign = subframe % 2 == 0 ? 1.0f : -1.0f;
            band[-1] += 0.3f * now;
            band[0] += sign * now;
            band[1] -= 0.3f * now;
            now *= 0.8f;
        }
        loudness *= 0.4f;
    }
}

int main(void)
{
    uint32_t answer[HCA_ANSWER_COUNT], answer_read[HCA_ANSWER_COUNT], answer_again[HCA_ANSWER_COUNT];
    uint32_t refusal;

    make_spectra();
    refusal = hca_encode_frame(layout, HCA_LAYOUT_COUNT, kinds, 1, spectra, SPECTRA, intensities, INTENSITIES,
                               scaled, SCALED, codes, CODES, factors, FACTORS, side, SIDE,
                               frame, FRAME_SIZE, answer, HCA_ANSWER_COUNT);
    if (refusal != HCA_OK)
        return refused("hca_encode_frame", refusal, answer);
    printf("level %u, boundary %u, pairs removed %u, bits %u of %u\n", (unsigned)answer[HCA_ENCODED_LEVEL],
           (unsigned)answer[HCA_ENCODED_BOUNDARY], (unsigned)answer[HCA_ENCODED_PAIRS],
           (unsigned)answer[HCA_ENCODED_BITS], 8u * (FRAME_SIZE - 2));

    refusal = hca_read_frame(layout, HCA_LAYOUT_COUNT, kinds, 1, frame, FRAME_SIZE, factors_read, FACTORS,
                             side_read, SIDE, codes_read, CODES, answer_read, HCA_ANSWER_COUNT);
    if (refusal != HCA_OK)
        return refused("hca_read_frame", refusal, answer_read);
    if (answer_read[HCA_RECORD_LEVEL] != answer[HCA_ENCODED_LEVEL] ||
        answer_read[HCA_RECORD_BOUNDARY] != answer[HCA_ENCODED_BOUNDARY] ||
        answer_read[HCA_RECORD_BITS] != answer[HCA_ENCODED_BITS] || memcmp(codes_read, codes, sizeof codes) != 0 ||
        memcmp(factors_read, factors, sizeof factors) != 0 || memcmp(side_read, side, sizeof side) != 0) {
        fprintf(stderr, "read back: another record\n");
        return 1;
    }
    printf("read back: the same record\n");

    /* level and boundary stand first in the reader's answer, as a record wants them */
    refusal = hca_write_record(layout, HCA_LAYOUT_COUNT, kinds, 1, answer_read, HCA_RECORD_COUNT, factors_read, FACTORS,
                               side_read, SIDE, codes_read, CODES, frame_again, FRAME_SIZE,
                               answer_again, HCA_ANSWER_COUNT);
    if (refusal != HCA_OK)
        return refused("hca_write_record", refusal, answer_again);
    if (memcmp(frame_again, frame, FRAME_SIZE) != 0) {
        fprintf(stderr, "written again: other bytes\n");
        return 1;
    }
    printf("written again: the same %d bytes, check %04x\n", FRAME_SIZE, (unsigned)hca_checksum(frame, FRAME_SIZE - 2));
    return 0;
}
