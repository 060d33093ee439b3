/* The WAV reader. */
#define _DEFAULT_SOURCE
#include "files.h"

#include "../include/hca_frame.h"
#include "choices.h"

#include <stdio.h>
#include <stdlib.h>
#include <string.h>
#include <sys/mman.h>

enum { MOST_BYTES = 20000, MOST_SAMPLES = 16777216 };

static uint8_t made_wav[MOST_BYTES];
static struct lent wav, samples, note, answer;

static uint32_t low_first(const uint8_t *from, unsigned width)
{
    uint32_t v = 0;
    for (unsigned i = 0; i < width; i++)
        v |= (uint32_t)from[i] << 8 * i;
    return v;
}

static uint32_t pattern_of(float value)
{
    uint32_t bits;
    memcpy(&bits, &value, 4);
    return bits;
}

/* ---- the rules */

struct take {
    uint32_t channels, rate, depth;
    size_t body, size;
};

/* Walks to the data chunk; 0 where there is none or it is empty. */
static int walk(const uint8_t *file, size_t bytes, struct take *t)
{
    size_t pos = 12;
    *t = (struct take){2, 44100, 16, 0, 0};
    while (pos <= bytes && bytes - pos >= 8) {
        size_t size = low_first(file + pos + 4, 4), rest = bytes - pos - 8;
        const uint8_t *body = file + pos + 8;
        if (memcmp(file + pos, "data", 4) == 0) {
            t->body = pos + 8;
            t->size = size < rest ? size : rest;
            return size != 0;
        }
        if (size > rest)
            return 0;
        if (memcmp(file + pos, "fmt ", 4) == 0 && size >= 16) {
            t->channels = low_first(body + 2, 2);
            t->rate = low_first(body + 4, 4);
            t->depth = low_first(body + 14, 2);
        }
        pos += 8 + size + size % 2;
    }
    return 0;
}

static size_t count_of(const struct take *t) { return t->size / (t->depth / 8); }

/* 22, 23, 24, 30 or 0, and the take. */
static uint32_t heard(const uint8_t *file, size_t bytes, struct take *t)
{
    *t = (struct take){2, 44100, 16, 0, 0};
    if (bytes < 44 || memcmp(file, "RIFF", 4) != 0 || memcmp(file + 8, "WAVE", 4) != 0)
        return NOT_WAVE;
    if (!walk(file, bytes, t))
        return NO_DATA;
    if (t->depth != 16 && t->depth != 24 && t->depth != 32)
        return BAD_DEPTH;
    return count_of(t) > MOST_SAMPLES ? TOO_MANY : 0;
}

/* 25 or 0. */
static uint32_t finite_all(const uint8_t *file, const struct take *t)
{
    for (size_t k = 0; t->depth == 32 && k < count_of(t); k++)
        if ((low_first(file + t->body + 4 * k, 4) >> 23 & 255) == 255)
            return NOT_FINITE;
    return 0;
}

/* A sample's pattern: the number over a power of two, which a double has exactly and a float too. */
static uint32_t sample_pattern(const uint8_t *at, uint32_t depth)
{
    if (depth == 32)
        return low_first(at, 4);
    double value = low_first(at, depth / 8), whole = depth == 16 ? 65536.0 : 16777216.0;
    return pattern_of((float)((value < whole / 2 ? value : value - whole) / (whole / 2)));
}

static void check_take(const uint8_t *file, const struct take *t)
{
    const uint32_t *a = (const uint32_t *)(const void *)answer.data;
    const float *x = (const float *)(const void *)samples.data;
    const float *told = (const float *)(const void *)note.data;
    size_t count = count_of(t);
    float peak = 0.0f, sum = 0.0f;
    if (a[0] != t->channels || a[1] != t->rate || a[2] != t->depth || a[3] != count)
        fault("hca_read_wav: channels %u, rate %u, depth %u, count %u", a[0], a[1], a[2], a[3]);
    for (size_t k = 0; k < count; k++) {
        uint32_t right = sample_pattern(file + t->body + k * (t->depth / 8), t->depth);
        if (pattern_of(x[k]) != right) {
            fault("hca_read_wav: sample %zu is %08x, not %08x", k, pattern_of(x[k]), right);
            return;
        }
        float loud = x[k] < 0.0f ? -x[k] : x[k] == 0.0f ? 0.0f : x[k];
        peak = loud > peak ? loud : peak;
        sum += loud;
    }
    float mean = count == 0 ? 0.0f : sum / (float)count;
    if (pattern_of(told[0]) != pattern_of(peak) || pattern_of(told[1]) != pattern_of(mean))
        fault("hca_read_wav: peak %08x, mean %08x, not %08x, %08x", pattern_of(told[0]), pattern_of(told[1]), pattern_of(peak),
              pattern_of(mean));
}

/* ---- the call */

static uint32_t read_wav(const uint8_t *file, size_t bytes)
{
    return hca_read_wav(file, bytes, (float *)(void *)samples.data, samples.count, (float *)(void *)note.data, note.count,
                        (uint32_t *)(void *)answer.data, answer.count);
}

static void call_wav(const uint8_t *file, size_t bytes, int first)
{
    struct take t;
    uint32_t expected = heard(file, bytes, &t);
    size_t count = expected == 0 ? count_of(&t) : 0;
    if (note.count < 2 || answer.count < 4)
        expected = SHORT_SLICE;
    if (expected == 0)
        expected = samples.count < count ? SHORT_SLICE : finite_all(file, &t);
    struct file_part parts[2] = {{&samples, count}, {&note, 2}};
    seal_parts(parts, 2);
    seal(&answer);
    uint32_t number = read_wav(file, bytes);
    check_parts(WAV, "hca_read_wav", parts, 2, number, expected, first);
    check_file_answer(&answer, 4, 4, number);
    if (number == 0 && expected == 0)
        check_take(file, &t);
}

/* ---- hostile files */

static size_t put_chunk(size_t at, const char *id, uint32_t size, size_t bytes, struct source *r)
{
    memcpy(made_wav + at, id, 4);
    for (unsigned i = 0; i < 4; i++)
        made_wav[at + 4 + i] = (uint8_t)(size >> 8 * i);
    for (size_t i = 0; i < bytes; i++)
        made_wav[at + 8 + i] = (uint8_t)(next_number(r) >> 24);
    return at + 8 + bytes;
}

/* A size that is right, off by one or two, or far too large. */
static uint32_t some_size(struct source *s, size_t bytes)
{
    static const uint32_t far[4] = {0xFFFFFFFF, 0xFFFFFFFE, 0x80000000, 0x7FFFFFFF};
    if (!one_in(s, 16))
        return (uint32_t)bytes;
    return one_in(s, 2) ? far[pick(s, 4)] : (uint32_t)bytes + pick(s, 5) - 2;
}

static size_t put_format(size_t at, struct source *s, struct source *r)
{
    static const uint32_t depths[8] = {16, 16, 24, 24, 32, 32, 32, 8};
    size_t bytes = one_in(s, 10) ? pick(s, 16) : one_in(s, 4) ? 16 + pick(s, 26) : 16;
    uint32_t depth = one_in(s, 16) ? take_word(s) % 70 : depths[pick(s, 8)];
    size_t end = put_chunk(at, "fmt ", some_size(s, bytes), bytes, r);
    if (bytes >= 16) {
        made_wav[at + 22] = (uint8_t)depth;
        made_wav[at + 23] = one_in(s, 40) ? pick(s, 256) : 0;
    }
    return end;
}

/* Samples; as floats mostly finite ones. */
static size_t put_data(size_t at, struct source *s, struct source *r)
{
    size_t bytes = one_in(s, 16) ? take_word(s) % 9000 : one_in(s, 8) ? pick(s, 5) : pick(s, 200);
    size_t end = put_chunk(at, "data", some_size(s, bytes), bytes, r);
    if (!one_in(s, 4))
        for (size_t i = at + 11; i < end; i += 4) /* the highest byte of a float: never all exponent bits */
            made_wav[i] &= 0xBF;
    if (bytes >= 4 && one_in(s, 8)) { /* an infinity, or a NaN */
        size_t i = at + 8 + 4 * (take_word(s) % (bytes / 4));
        made_wav[i + 2] |= 0x80;
        made_wav[i + 3] |= 0x7F;
    }
    return end;
}

static size_t make_wav(struct source *s)
{
    static const char *const others[6] = {"LIST", "fact", "JUNK", "DATA", "fmt\0", "data"};
    struct source r = bulk(s);
    size_t at = 12;
    memcpy(made_wav, "RIFF\0\0\0\0WAVE", 12);
    if (one_in(s, 60))
        made_wav[pick(s, 12)] ^= (uint8_t)(1 << pick(s, 8));
    for (uint32_t i = pick(s, 3); i > 0; i--) {
        /* each choice in a statement of its own: in which order a call's arguments are evaluated differs from processor to processor */
        size_t bytes = pick(s, 30);
        const char *id = others[pick(s, one_in(s, 4) ? 6 : 5)];
        uint32_t size = some_size(s, bytes);
        at = put_chunk(at, id, size, bytes, &r);
        at += bytes % 2 == 1 && !one_in(s, 12);
        if (one_in(s, 2))
            at = put_format(at, s, &r);
    }
    if (!one_in(s, 6))
        at = put_format(at, s, &r), at += at % 2 == 1 && !one_in(s, 12);
    if (!one_in(s, 12))
        at = put_data(at, s, &r);
    if (one_in(s, 8))
        at = put_chunk(at, "LIST", 8, 8, &r);
    if (one_in(s, 8))
        at = take_word(s) % (at + 1);
    if (one_in(s, 60))
        at = 43 + pick(s, 2);
    return at;
}

static void lend_the_rest(struct source *s, size_t room)
{
    struct wish w = {.any_lengths = one_in(s, 4)};
    lend(&samples, "samples", 4, length_for(s, &w, room), s);
    lend(&note, "note", 4, length_for(s, &w, 2), s);
    lend(&answer, "answer", 4, length_for(s, &w, 4), s);
}

static void give_back_the_rest(void)
{
    struct file_part parts[3] = {{&samples, 0}, {&note, 0}, {&answer, 0}};
    give_back_parts(parts, 3);
}

/* A file of 2^24 samples, or of one more: pages of zeros that are never looked at, since 30 or 2 comes before. */
static void huge_wav(struct source *s)
{
    static uint8_t *pages;
    static const uint8_t head[44] = "RIFF\0\0\0\0WAVEfmt \20\0\0\0\1\0\1\0\200\273\0\0\0\0\0\0\2\0\20\0data\377\377\377\377";
    size_t most = 44 + 2 * ((size_t)MOST_SAMPLES + 1);
    if (pages == NULL) {
        pages = mmap(NULL, most, PROT_READ | PROT_WRITE, MAP_PRIVATE | MAP_ANONYMOUS | MAP_NORESERVE, -1, 0);
        if (pages == MAP_FAILED) {
            fprintf(stderr, "out of memory\n");
            exit(3);
        }
        memcpy(pages, head, sizeof head);
    }
    lend_the_rest(s, 40);
    call_wav(pages, most - 2 * pick(s, 2), 1);
    if (memcmp(pages, head, sizeof head) != 0)
        fault("hca_read_wav: the file was changed");
    give_back_the_rest();
}

void hostile_wav(struct source *s)
{
    if (one_in(s, 200)) {
        huge_wav(s);
        return;
    }
    size_t bytes = make_wav(s);
    struct take t;
    size_t room = heard(made_wav, bytes, &t) == 0 && one_in(s, 2) ? count_of(&t) : bytes / 2;
    lend(&wav, "wav", 1, bytes, s);
    if (bytes > 0)
        memcpy(wav.data, made_wav, bytes);
    seal(&wav);
    lend_the_rest(s, room);
    call_wav(wav.data, wav.count, 1);
    guards_hold(&wav);
    is_untouched(&wav);
    give_back_the_rest();
    give_back(&wav);
}
