/* Hostile calls of the C interface, each checked against the documents. */
#ifndef HCA_FUZZ_CALLS_H
#define HCA_FUZZ_CALLS_H

#include "source.h"

enum function {
    ENCODE,
    WRITE,
    READ,
    CHECKSUM,
    HEADER,
    LIST_WRITE,
    LIST_READ,
    LIST_LOOKUP,
    LIST_SUMMARY,
    WAV,
    STEREO,
    LINE,
    STEREO_LINE,
    HEADER_BACK,
    FUNCTIONS
};

enum { NUMBERS = 32 }; /* every refusal number is below it */

/* Makes one call by the choices of the source, and the calls that check it. */
void one_call(struct source *s);

struct set;
struct wish;
/* The buffers of a call of the stage, as wished for. */
void lend_stage(struct set *b, const struct wish *w, struct source *s);

/* One call of a request's function, as one_call makes it. */
void hostile_stereo(struct source *s);
void hostile_line(struct source *s);
void hostile_stereo_line(struct source *s);

/* The program above tells these: a call and its answer; first where it is not one that checks another. */
void saw(enum function f, uint32_t number, uint32_t beside, int first);

#endif
