/* What hostile calls are made of: layouts, lengths, spectra, records, damage. */
#ifndef HCA_FUZZ_CHOICES_H
#define HCA_FUZZ_CHOICES_H

#include "rules.h"
#include "source.h"

struct wish {
    uint32_t layout[10];
    size_t layout_len;
    uint8_t kinds[20];
    size_t kinds_len;
    int any_lengths;
};

void wish_for(struct source *s, struct wish *w);
static inline size_t need_channels(const struct wish *w) { return w->layout[0] < 16 ? w->layout[0] : 16; }
static inline size_t need_frame(const struct wish *w) { return w->layout[4] < 65535 ? w->layout[4] : 65535; }
/* How long a buffer is that needs so many: longer now and then; where any lengths are wished, also too short. */
size_t length_for(struct source *s, const struct wish *w, size_t need);
/* A legal shape out of a wish, for what is made before the call; the call itself gets the wish as it is. */
void tame(const struct wish *w, struct shape *l);

void fill_spectra(struct source *s, float *v, size_t count);

struct record {
    uint32_t head[2];
    uint8_t factors[16 * 128], side[16 * 8];
    int32_t codes[16 * 1024];
};

/* A legal record; whether its frame has room is another matter. */
void make_record(struct source *s, const struct shape *l, struct record *out);
/* Moves one number of it, mostly out of its range. */
void spoil_record(struct source *s, const struct shape *l, struct record *x);

void flip(uint8_t *frame, uint32_t bit);
void put_bits(uint8_t *frame, uint32_t at, uint32_t value, uint32_t count);
void any_bits_from(struct source *s, uint8_t *frame, uint32_t bit, uint32_t limit);

#endif
