/* Makes the calls of a file of fixed vectors (VECTORS.md), read from standard input, and writes all that each call leaves: its number and every written
   buffer, whole. processors.sh runs it on the library of each processor and compares. What a call has to give is not looked at here: replay-vectors does
   that. What is used of the C library is declared by hand. */
#include "hca_frame.h"

long read(int file, void *to, size_t length);
long write(int file, const void *from, size_t length);
void _exit(int status);

/* a slice of elements; of those that are written also the length in bytes */
struct slice {
    void *at;
    size_t count, bytes;
};

static uint8_t input[1 << 20], room[1 << 24];
static size_t input_length, place, taken;
static struct slice written[10];
static int written_count;

static void must(int holds) {
    if (!holds) _exit(1);
}

/* -- the input: numbers low byte first, as both processors have them */
static const uint8_t *take(size_t n) {
    must(n <= input_length - place);
    place += n;
    return input + place - n;
}

static uint32_t word(void) {
    const uint8_t *b = take(4);
    return b[0] | (uint32_t)b[1] << 8 | (uint32_t)b[2] << 16 | (uint32_t)b[3] << 24;
}

/* room for so many elements of so many bytes, all 0x5A, at a multiple of 8 */
static struct slice fresh(size_t count, size_t size) {
    struct slice s = {room + taken, count, count * size};
    size_t i;
    must(count <= sizeof room / 8 && taken + s.bytes + 8 <= sizeof room);
    for (i = 0; i < s.bytes; i++) room[taken + i] = 0x5A;
    taken += (s.bytes + 7) / 8 * 8;
    return s;
}

/* the next elements of the input; their bytes stand there as in memory */
static struct slice elements(size_t count, size_t size) {
    struct slice s = fresh(count, size);
    const uint8_t *from = take(s.bytes);
    size_t i;
    for (i = 0; i < s.bytes; i++) ((uint8_t *)s.at)[i] = from[i];
    return s;
}

static struct slice bytes(void) { return elements(word(), 1); }
static struct slice words(void) { return elements(word(), 4); }
static struct slice longs(void) { return elements(word(), 8); }

/* a run of words, put where it belongs */
static void run(struct slice of) {
    uint32_t start = word(), count = word(), i;
    must(start <= of.count && count <= of.count - start);
    for (i = 0; i < count; i++) ((uint32_t *)of.at)[start + i] = word();
}

static struct slice runs(void) {
    struct slice s = fresh(word(), 4);
    uint32_t count = word();
    size_t i;
    for (i = 0; i < s.count; i++) ((uint32_t *)s.at)[i] = 0;
    while (count-- > 0) run(s);
    return s;
}

/* -- what a call writes */
static struct slice noted(struct slice s) {
    must(written_count < 10);
    return written[written_count++] = s;
}

static struct slice lent(size_t count, size_t size) { return noted(fresh(count, size)); }

static void leave(const void *from, size_t length) {
    const uint8_t *at = from;
    while (length > 0) {
        long n = write(1, at, length);
        must(n > 0);
        at += n, length -= n;
    }
}

/* -- the calls, one for each kind of case */
#define SLICE(s) s.at, s.count

/* numbers of the layout of the case at hand */
static size_t numbers;

static uint32_t encode_frame(int stereo) {
    struct slice layout = elements(numbers, 4), kinds = bytes(), spectra = runs(), intensities = bytes();
    struct slice scaled = lent(word(), 4), codes = lent(word(), 4), factors = lent(word(), 1), side = lent(word(), 1), frame = lent(word(), 1);
    struct slice answer = lent(4, 4);
    if (!stereo)
        return hca_encode_frame(SLICE(layout), SLICE(kinds), SLICE(spectra), SLICE(intensities), SLICE(scaled), SLICE(codes), SLICE(factors), SLICE(side),
                                SLICE(frame), SLICE(answer));
    noted(spectra), noted(intensities);
    return hca_encode_stereo_frame(SLICE(layout), SLICE(kinds), SLICE(spectra), SLICE(intensities), SLICE(scaled), SLICE(codes), SLICE(factors), SLICE(side),
                                   SLICE(frame), SLICE(answer));
}

static uint32_t encode_line(int stereo) {
    struct slice layout = elements(numbers, 4), kinds = bytes();
    size_t count = word();
    struct slice spectra = runs(), intensities = bytes();
    struct slice scaled = lent(word(), 4), codes = lent(word(), 4), factors = lent(word(), 1), side = lent(word(), 1), frames = lent(word(), 1);
    struct slice answers = lent(word(), 4), tally = noted(longs()), answer = lent(4, 4);
    if (!stereo)
        return hca_encode_line(SLICE(layout), SLICE(kinds), count, SLICE(spectra), SLICE(intensities), SLICE(scaled), SLICE(codes), SLICE(factors),
                               SLICE(side), SLICE(frames), SLICE(answers), SLICE(tally), SLICE(answer));
    noted(spectra), noted(intensities);
    return hca_encode_stereo_line(SLICE(layout), SLICE(kinds), count, SLICE(spectra), SLICE(intensities), SLICE(scaled), SLICE(codes), SLICE(factors),
                                  SLICE(side), SLICE(frames), SLICE(answers), SLICE(tally), SLICE(answer));
}

static uint32_t read_frame(void) {
    struct slice layout = elements(numbers, 4), kinds = bytes(), frame = bytes();
    struct slice factors = lent(word(), 1), side = lent(word(), 1), codes = lent(word(), 4), answer = lent(4, 4);
    return hca_read_frame(SLICE(layout), SLICE(kinds), SLICE(frame), SLICE(factors), SLICE(side), SLICE(codes), SLICE(answer));
}

static uint32_t write_record(void) {
    struct slice layout = elements(numbers, 4), kinds = bytes(), record = elements(2, 4), factors = bytes(), side = bytes(), codes = runs();
    struct slice frame = lent(word(), 1), answer = lent(4, 4);
    return hca_write_record(SLICE(layout), SLICE(kinds), SLICE(record), SLICE(factors), SLICE(side), SLICE(codes), SLICE(frame), SLICE(answer));
}

static uint32_t checksum(void) {
    struct slice of = bytes();
    return hca_checksum(SLICE(of));
}

static uint32_t write_header(void) {
    struct slice layout = elements(numbers, 4), kinds = bytes(), stream = longs(), points = longs(), header = lent(word(), 1);
    return hca_write_header(SLICE(layout), SLICE(kinds), SLICE(stream), SLICE(points), SLICE(header));
}

static uint32_t read_header(void) {
    struct slice header = bytes(), layout = lent(word(), 4), answer = lent(word(), 4);
    return hca_read_header(SLICE(header), SLICE(layout), SLICE(answer));
}

static uint32_t list_write(void) {
    uint32_t frames = word();
    struct slice entries = words(), list = lent(word(), 1);
    return hca_list_write(frames, SLICE(entries), SLICE(list));
}

static uint32_t list_read(void) {
    struct slice list = bytes(), entries = lent(word(), 4), answer = lent(4, 4);
    return hca_list_read(SLICE(list), SLICE(entries), SLICE(answer));
}

static uint32_t list_lookup(void) {
    struct slice list = bytes(), answer = lent(4, 4);
    return hca_list_lookup(SLICE(list), word(), SLICE(answer));
}

static uint32_t list_summary(void) {
    struct slice list = bytes(), answer = lent(3, 8);
    return hca_list_summary(SLICE(list), SLICE(answer));
}

static uint32_t read_wav(void) {
    struct slice wav = bytes(), samples = lent(word(), 4), note = lent(2, 4), answer = lent(4, 4);
    return hca_read_wav(SLICE(wav), SLICE(samples), SLICE(note), SLICE(answer));
}

static uint32_t call(uint32_t kind) {
    numbers = kind > 100 ? word() : 5;
    switch (kind > 100 ? kind - 100 : kind) {
    case 1: return encode_frame(0);
    case 2: return read_frame();
    case 3: return write_record();
    case 4: return checksum();
    case 5: return write_header();
    case 6: return list_write();
    case 7: return list_read();
    case 8: return list_lookup();
    case 9: return list_summary();
    case 10: return read_wav();
    case 11: return encode_frame(1);
    case 12: return encode_line(0);
    case 13: return read_header();
    case 14: return encode_line(1);
    default: must(0); return 0;
    }
}

int main(void) {
    uint32_t cases, kind, length, number;
    size_t end;
    long n;
    int i;
    while ((n = read(0, input + input_length, sizeof input - input_length)) > 0) input_length += n;
    must(n == 0 && input_length < sizeof input && word() == 0x56414348 && word() == 1);
    for (cases = word(); cases > 0; cases--) {
        kind = word(), length = word(), end = place + length;
        taken = 0, written_count = 0;
        number = call(kind);
        leave(&number, sizeof number);
        for (i = 0; i < written_count; i++) leave(written[i].at, written[i].bytes);
        /* what the file expects is passed over */
        must(place <= end && end <= input_length);
        place = end;
    }
    must(place == input_length);
    return 0;
}
