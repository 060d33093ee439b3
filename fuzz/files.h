/* Hostile calls of document 02's files. Their numbers can always be told before the call, by rules written down once more. */
#ifndef HCA_FUZZ_FILES_H
#define HCA_FUZZ_FILES_H

#include "calls.h"
#include "lend.h"

/* Refusals by number. */
enum {
    SHORT_SLICE = 2,
    BAD_FILE_HEADER = 16,
    WRONG_FILE_CHECK = 26,
    WRONG_FILE_NAME = 27,
    BAD_FILE_FIELD = 28,
    FILE_NOT_ZERO = 29,
    BAD_MARK = 19,
    BAD_LENGTH = 20,
    BAD_ENTRY = 21,
    NO_FRAME = 31,
    NOT_WAVE = 22,
    NO_DATA = 23,
    BAD_DEPTH = 24,
    NOT_FINITE = 25,
    TOO_MANY = 30,
};

/* A buffer of such a call, and how many of its elements a delivery writes; 0 where it is only read. */
struct file_part {
    struct lent *b;
    size_t written;
};

void seal_parts(const struct file_part *parts, int count);
void give_back_parts(const struct file_part *parts, int count);
/* After the call: the number is the one that must come, and nothing is touched but what a delivery writes. */
void check_parts(enum function f, const char *name, const struct file_part *parts, int count, uint32_t number, uint32_t expected,
                 int first);
/* The same for an answer: of at least `least` places it takes `filled` numbers, or the 0 beside a refusal; else it stays. */
void check_file_answer(const struct lent *answer, size_t least, size_t filled, uint32_t number);

/* Puts a number of so many bytes, high byte first. */
void put_number(uint8_t *to, uint64_t value, unsigned width);
/* A number up to its limit, often at an end; one in `past` lies past it. */
uint64_t number_near(struct source *s, uint64_t limit, uint32_t past);

void hostile_header(struct source *s);
void hostile_header_back(struct source *s);
void hostile_list(struct source *s);
void hostile_wav(struct source *s);

#endif
