/* Every buffer of numbers lent with exactly the *_COUNT places of its enum, as a user would declare it: no call may refuse it with 2, and every call here
   delivers. And the version: of the header in text and number, and of the library. Compiled by scripts/install-test.sh as C and as C++. */
#include "hca_frame.h"

#include <stdio.h>
#include <string.h>

#define SIZE 170

static float spectra[HCA_SPECTRA_LENGTH(1)], scaled[HCA_SCALED_LENGTH(1)], samples[4];
static int32_t codes[HCA_CODES_LENGTH(1)];
static uint8_t intensities[HCA_INTENSITIES_LENGTH(1)], factors[HCA_FACTORS_LENGTH(1)], side[HCA_SIDE_LENGTH(1)];
static uint8_t frame[SIZE], header[HCA_HEADER_SIZE], list[HCA_LIST_SIZE(1)];
static const uint32_t layout[HCA_LAYOUT_COUNT] = {1, 64, 0, 100, SIZE};
static const uint8_t kinds[1] = {HCA_DISCRETE};

static int faults;

static void delivers(const char *call, uint32_t refusal)
{
    if (refusal != HCA_OK) {
        printf("%s: refusal %u: %s\n", call, (unsigned)refusal, hca_refusal_text(refusal));
        faults++;
    }
}

static void frames(void)
{
    uint32_t encoded[HCA_ENCODED_COUNT], answer[HCA_ANSWER_COUNT], line_answer[HCA_LINE_ANSWER_COUNT];
    uint32_t answers[HCA_LINE_ANSWERS_LENGTH(1)];
    uint64_t tally[HCA_TALLY_COUNT] = {0, 0, 0};
    spectra[1] = 0.5f;
    delivers("hca_encode_frame", hca_encode_frame(layout, HCA_LAYOUT_COUNT, kinds, 1, spectra, HCA_SPECTRA_LENGTH(1), intensities,
        HCA_INTENSITIES_LENGTH(1), scaled, HCA_SCALED_LENGTH(1), codes, HCA_CODES_LENGTH(1), factors, HCA_FACTORS_LENGTH(1), side,
        HCA_SIDE_LENGTH(1), frame, SIZE, encoded, HCA_ENCODED_COUNT));
    delivers("hca_encode_stereo_frame", hca_encode_stereo_frame(layout, HCA_LAYOUT_COUNT, kinds, 1, spectra, HCA_SPECTRA_LENGTH(1),
        intensities, HCA_INTENSITIES_LENGTH(1), scaled, HCA_SCALED_LENGTH(1), codes, HCA_CODES_LENGTH(1), factors,
        HCA_FACTORS_LENGTH(1), side, HCA_SIDE_LENGTH(1), frame, SIZE, answer, HCA_ANSWER_COUNT));
    delivers("hca_encode_line", hca_encode_line(layout, HCA_LAYOUT_COUNT, kinds, 1, 1, spectra, HCA_LINE_SPECTRA_LENGTH(1, 1),
        intensities, HCA_LINE_INTENSITIES_LENGTH(1, 1), scaled, HCA_SCALED_LENGTH(1), codes, HCA_CODES_LENGTH(1), factors,
        HCA_FACTORS_LENGTH(1), side, HCA_SIDE_LENGTH(1), frame, HCA_LINE_FRAMES_LENGTH(SIZE, 1), answers, HCA_LINE_ANSWERS_LENGTH(1),
        tally, HCA_TALLY_COUNT, line_answer, HCA_LINE_ANSWER_COUNT));
    delivers("hca_encode_stereo_line", hca_encode_stereo_line(layout, HCA_LAYOUT_COUNT, kinds, 1, 1, spectra, HCA_LINE_SPECTRA_LENGTH(1, 1),
        intensities, HCA_LINE_INTENSITIES_LENGTH(1, 1), scaled, HCA_SCALED_LENGTH(1), codes, HCA_CODES_LENGTH(1), factors,
        HCA_FACTORS_LENGTH(1), side, HCA_SIDE_LENGTH(1), frame, HCA_LINE_FRAMES_LENGTH(SIZE, 1), answers, HCA_LINE_ANSWERS_LENGTH(1),
        tally, HCA_TALLY_COUNT, line_answer, HCA_LINE_ANSWER_COUNT));
    delivers("hca_list_write", hca_list_write(1, encoded, HCA_LIST_ENTRIES_LENGTH(1), list, HCA_LIST_SIZE(1)));
}

static void records(void)
{
    uint32_t record[HCA_RECORD_COUNT], answer[HCA_RECORD_COUNT];
    delivers("hca_read_frame", hca_read_frame(layout, HCA_LAYOUT_COUNT, kinds, 1, frame, SIZE, factors, HCA_FACTORS_LENGTH(1), side,
        HCA_SIDE_LENGTH(1), codes, HCA_CODES_LENGTH(1), record, HCA_RECORD_COUNT));
    delivers("hca_write_record", hca_write_record(layout, HCA_LAYOUT_COUNT, kinds, 1, record, HCA_RECORD_COUNT, factors,
        HCA_FACTORS_LENGTH(1), side, HCA_SIDE_LENGTH(1), codes, HCA_CODES_LENGTH(1), frame, SIZE, answer, HCA_RECORD_COUNT));
}

static void files(void)
{
    /* four samples of 16 bits */
    static const uint8_t wav[52] = {'R', 'I', 'F', 'F', 0, 0, 0, 0, 'W', 'A', 'V', 'E', 'f', 'm', 't', ' ', 16, 0, 0, 0, 1, 0, 1, 0,
        0, 32, 0, 0, 0, 64, 0, 0, 2, 0, 16, 0, 'd', 'a', 't', 'a', 8};
    const uint64_t stream[HCA_STREAM_COUNT] = {48000, 1, 0};
    uint32_t handed[HCA_LAYOUT_FULL_COUNT], file[HCA_FILE_COUNT];
    uint32_t take[HCA_TAKE_COUNT], entries[HCA_LIST_ENTRIES_LENGTH(1)], answer[HCA_ANSWER_COUNT], entry[HCA_ENCODED_COUNT];
    uint64_t summary[HCA_SUMMARY_COUNT];
    float note[HCA_NOTE_COUNT];
    delivers("hca_write_header", hca_write_header(layout, HCA_LAYOUT_COUNT, kinds, 1, stream, HCA_STREAM_COUNT, NULL, 0, header,
        HCA_HEADER_SIZE));
    delivers("hca_read_header", hca_read_header(header, HCA_HEADER_SIZE, handed, HCA_LAYOUT_FULL_COUNT, file, HCA_FILE_COUNT));
    delivers("hca_read_wav", hca_read_wav(wav, sizeof wav, samples, 4, note, HCA_NOTE_COUNT, take, HCA_TAKE_COUNT));
    if (take[HCA_TAKE_SAMPLES] != 4) {
        printf("hca_read_wav: other samples than four\n");
        faults++;
    }
    delivers("hca_list_read", hca_list_read(list, HCA_LIST_SIZE(1), entries, HCA_LIST_ENTRIES_LENGTH(1), answer, HCA_ANSWER_COUNT));
    delivers("hca_list_lookup", hca_list_lookup(list, HCA_LIST_SIZE(1), 0, entry, HCA_ENCODED_COUNT));
    delivers("hca_list_summary", hca_list_summary(list, HCA_LIST_SIZE(1), summary, HCA_SUMMARY_COUNT));
}

static void version(void)
{
    const unsigned number = HCA_VERSION_NUMBER;
    char text[32];
    sprintf(text, "%u.%u.%u", number / 10000, number / 100 % 100, number % 100);
    if (strcmp(text, HCA_VERSION) != 0 || hca_version() != number) {
        printf("the header is %s, by its number %s; the library %u\n", HCA_VERSION, text, (unsigned)hca_version());
        faults++;
    }
}

int main(void)
{
    frames();
    records();
    files();
    version();
    return faults != 0;
}
