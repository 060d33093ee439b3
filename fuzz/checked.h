/* The calls themselves, each with every check that document 01 gives for it. */
#ifndef HCA_FUZZ_CHECKED_H
#define HCA_FUZZ_CHECKED_H

#include "calls.h"
#include "lend.h"
#include "rules.h"

/* The buffers of a call. */
struct set {
    struct lent layout, kinds, spectra, intensities, record, scaled, codes, factors, side, frame, answer;
    struct lent answers, tally; /* of a line, whose frames stand in frame */
};

/* A call and two calls that check it can be open at once. */
extern struct set sets[3];

static inline uint32_t *words(const struct lent *b) { return (uint32_t *)(void *)b->data; }
static inline int32_t *codes_of(const struct lent *b) { return (int32_t *)(void *)b->data; }
static inline float *floats(const struct lent *b) { return (float *)(void *)b->data; }

/* Which numbers each function can give, a bit each. */
extern const uint32_t can_give[FUNCTIONS];

/* What a call has to answer, where document 01 says it without the whole codec. */
struct expected {
    int known;
    uint32_t number, beside;
};

/* A buffer of a call, and what the call does to the elements that it needs. */
enum use {
    READ_ONLY,
    WRITTEN,
    MIXED,   /* read and written; a refusal after the work leaves what the work made */
    IN_ORDER /* written frame after frame; a frame's refusal leaves what stood before it */
};
struct part {
    struct lent *b;
    size_t need;
    enum use use;
};

static inline struct expected nothing_known(void) { return (struct expected){0, 0, 0}; }
static inline struct expected just(uint32_t number, uint32_t beside) { return (struct expected){1, number, beside}; }

/* Lends layout and kinds. */
void lend_named(struct set *b, const uint32_t *layout, size_t layout_len, const uint8_t *kinds, size_t kinds_len, struct source *s);
/* Whether two sets hold the same factors, side and codes. */
int same_record(const struct shape *l, const struct set *a, const struct set *b);

/* Each calls with the buffers of the set, checks and answers the refusal number. After call_encode the buffers are given
   back; after the others the caller takes them back. */
uint32_t call_encode(struct set *b, struct source *s);
uint32_t call_write(struct set *b, int first);
void take_back_write(struct set *b);
uint32_t call_read(struct set *b, int first, struct expected e);
void take_back_read(struct set *b);

/* What each of these calls is made of. Fills the shape that the set's buffers name, or says 0. */
int shape_in(struct shape *l, const struct set *b);
/* Refusals 1 and 2, then 3 and 4. */
struct expected before_the_work(const struct part *parts, int count, int legal, size_t answer_len);
struct expected before_the_stage(const struct shape *l, const struct set *b);
void seal_all(const struct part *parts, int count, struct lent *answer);
void give_back_all(const struct part *parts, int count, struct lent *answer);
/* All that holds after any call. */
void check_call(enum function f, const struct part *parts, int count, const struct lent *answer, uint32_t number,
                struct expected e, int first);
/* What the stage may answer once it works, and the frame that it delivered. */
void check_stage_outcome(const struct shape *l, const struct set *b, uint32_t number, struct source *s);

/* The parts of a call of the stage, for n channels and frames of f bytes; spectra and intensities have the given use. */
enum { STAGE_PARTS = 9 };
void stage_parts(struct part *parts, struct set *b, size_t n, size_t f, enum use use);

/* The stage on spectra and intensities of this shape, in exact lengths. */
uint32_t stage_again(struct set *b, const struct shape *l, const float *spectra, const uint8_t *intensities, struct source *s);
void take_back_stage(struct set *b);
/* Whether two sets hold the same five buffers that the stage writes. */
int same_stage(const struct shape *l, const struct set *a, const struct set *b);

/* Request A2's mixing of one frame, and whether it is refused with 17. */
void mix_pairs(const struct shape *l, float *spectra, uint8_t *intensities);
int is_too_loud(const struct shape *l, const float *spectra);

/* The same for a frame or a record that another call made, in exact lengths. */
uint32_t read_again(struct set *b, const struct shape *l, const uint8_t *frame, struct expected e, struct source *s);
uint32_t write_again(struct set *b, const struct shape *l, const struct set *from, const uint32_t *record, struct source *s);

#endif
