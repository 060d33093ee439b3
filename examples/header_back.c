/* The header of an HCA file, read back: its layout, stream and loop.

     cc -std=c99 -Wall -Wextra -Iinclude examples/header_back.c target/library/libhca.a -o target/header-back-example
     target/header-back-example FILE

   Without FILE it writes a header of its own and reads that. Needs libhca.a: sh scripts/library.sh. Exit status 0 where the header
   is accepted. */
#include "hca_frame.h"

#include <stdio.h>

/* A header of two channels with a loop; says whether it was delivered. */
static int make(uint8_t *header)
{
    static const uint32_t layout[HCA_LAYOUT_COUNT] = {2, 52, 52, 128, 417};
    static const uint8_t kinds[2] = {HCA_STEREO_PRIMARY, HCA_STEREO_SECONDARY};
    static const uint64_t stream[HCA_STREAM_COUNT] = {44100, 40, 832}, points[2] = {5000, 40000};
    return hca_write_header(layout, HCA_LAYOUT_COUNT, kinds, 2, stream, HCA_STREAM_COUNT, points, 2, header, HCA_HEADER_SIZE) == HCA_OK;
}

static size_t load(const char *path, uint8_t *header)
{
    FILE *file = fopen(path, "rb");
    size_t n = file == NULL ? 0 : fread(header, 1, HCA_HEADER_SIZE, file);
    if (file != NULL)
        fclose(file);
    return n;
}

int main(int count, char **words)
{
    uint8_t header[HCA_HEADER_SIZE];
    uint32_t layout[HCA_LAYOUT_FULL_COUNT], answer[HCA_FILE_COUNT];
    size_t n = count > 1 ? load(words[1], header) : make(header) ? HCA_HEADER_SIZE : 0;
    uint32_t refusal = hca_read_header(header, n, layout, HCA_LAYOUT_FULL_COUNT, answer, HCA_FILE_COUNT);
    if (refusal != HCA_OK) {
        fprintf(stderr, "refusal %u: %s\n", (unsigned)refusal, hca_refusal_text(refusal));
        return 1;
    }
    printf("channels %u, bands %u + %u of %u, frames of %u bytes, resolutions %u to %u\n", (unsigned)layout[HCA_CHANNELS],
           (unsigned)layout[HCA_BASE], (unsigned)layout[HCA_STEREO], (unsigned)layout[HCA_TOTAL], (unsigned)layout[HCA_FRAME_SIZE],
           (unsigned)layout[HCA_MINIMUM], (unsigned)layout[HCA_MAXIMUM]);
    printf("rate %u, frames %u, padding %u\n", (unsigned)answer[HCA_FILE_RATE], (unsigned)answer[HCA_FILE_FRAMES],
           (unsigned)answer[HCA_FILE_PADDING]);
    if (answer[HCA_FILE_LOOP]) { /* in samples of the input, as hca_write_header takes them */
        uint64_t start = 1024 * (uint64_t)answer[HCA_FILE_LOOP_FRAME] + answer[HCA_FILE_LOOP_DELAY] - 128;
        uint64_t end = 1024 * ((uint64_t)answer[HCA_FILE_LOOP_END_FRAME] + 1) - answer[HCA_FILE_LOOP_PADDING] - 128;
        printf("loop from sample %lu to %lu\n", (unsigned long)start, (unsigned long)end); /* both are below 2^32 */
    }
    return 0;
}
