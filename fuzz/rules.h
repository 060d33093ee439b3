/* What document 01 says of layouts, records and checks, written down once more for the fuzzer alone. */
#ifndef HCA_FUZZ_RULES_H
#define HCA_FUZZ_RULES_H

#include <stddef.h>
#include <stdint.h>

struct shape {
    uint32_t channels, base, stereo, total, frame;
    uint32_t minimum, maximum; /* of the resolution */
    uint32_t mode;             /* 0 the Rust's, 1 held */
    uint32_t start;  /* N */
    uint32_t groups; /* G */
    uint8_t kinds[16];
};

/* Fills the shape and says 1, or says 0: refusal 1. */
int shape_of(struct shape *out, const uint32_t *layout, size_t layout_len, const uint8_t *kinds, size_t kinds_len);
uint32_t coded_count(const struct shape *l, uint32_t channel);
uint32_t resolution(const struct shape *l, uint32_t factor, uint32_t level, uint32_t boundary, uint32_t band);
/* No record has more bits: 32, then for each channel 3 + 128 x 11 + 48 and 1,024 codes of 12 at most. */
uint32_t longest_fields(const struct shape *l);
/* The largest magnitude of a legal code. */
int32_t code_range(uint32_t resolution);

enum verdict { LEGAL, CORNER, ILLEGAL };
/* CORNER: legal but for codes one past the range at resolutions 2, 4 and 5, which the stage may deliver in the Rust's mode. */
enum verdict record_verdict(const struct shape *l, uint32_t level, uint32_t boundary, const uint8_t *factors,
                            const uint8_t *side, const int32_t *codes);
/* The check by division. */
uint16_t divided(const uint8_t *bytes, size_t count);
uint32_t bits_at(const uint8_t *frame, size_t bit, unsigned count);
void mend_check(uint8_t *frame, size_t size);

#endif
