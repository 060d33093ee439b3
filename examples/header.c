/* The 96 bytes in front of a file's frames, with a loop over its first 896 samples.

     cc -std=c99 -Wall -Wextra -Iinclude examples/header.c target/library/libhca.a -o target/header-example
     target/header-example

   Needs libhca.a: sh scripts/library.sh. Prints the bytes; exit status 0 where all is as it should be. */
#include "hca_frame.h"

#include <stdio.h>

int main(void)
{
    static const uint32_t layout[HCA_LAYOUT_COUNT] = {1, 64, 0, 100, 170};        /* channels, base, stereo, total, frame size */
    static const uint8_t kinds[1] = {HCA_DISCRETE};
    static const uint64_t stream[HCA_STREAM_COUNT] = {48000, 47, 512};            /* samples a second, frames, padding */
    static const uint64_t points[2] = {0, 896};                                   /* start and end; no loop: a length of 0 */
    uint8_t header[HCA_HEADER_SIZE];
    uint32_t refusal = hca_write_header(layout, HCA_LAYOUT_COUNT, kinds, 1, stream, HCA_STREAM_COUNT, points, 2, header, HCA_HEADER_SIZE);
    if (refusal != HCA_OK) {
        fprintf(stderr, "refusal %u: %s\n", (unsigned)refusal, hca_refusal_text(refusal));
        return 1;
    }
    for (int i = 0; i < HCA_HEADER_SIZE; i++)
        printf("%02x%s", header[i], i % 32 == 31 ? "\n" : "");
    return hca_checksum(header, HCA_HEADER_SIZE) == 0 ? 0 : 1; /* over a whole header the check is 0 */
}
