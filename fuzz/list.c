/* The list beside the bank: writer, reader, lookup and summary. */
#include "files.h"

#include "../include/hca_frame.h"
#include "choices.h"

#include <string.h>

enum { HEAD = 9, MOST_FRAMES = 1500 };

static uint32_t made_entries[4 * MOST_FRAMES];
static uint8_t made_list[HEAD + 8 * MOST_FRAMES + 16];
static struct lent list, entries, answer;        /* of the call */
static struct lent list_2, entries_2, answer_2;  /* of one that checks it */

static uint32_t *numbers_of(const struct lent *b) { return (uint32_t *)(void *)b->data; }
static uint64_t *longs_of(const struct lent *b) { return (uint64_t *)(void *)b->data; }

static uint64_t number_at(const uint8_t *from, unsigned width)
{
    uint64_t v = 0;
    for (unsigned i = 0; i < width; i++)
        v = v << 8 | from[i];
    return v;
}

/* ---- the rules */

static int is_legal(uint64_t level, uint64_t boundary, uint64_t pairs) { return level <= 511 && boundary <= 127 && pairs <= 63; }

static void bytes_of(uint8_t *out, uint32_t count, const uint32_t *from, size_t frames)
{
    memcpy(out, "VFI\0\1", 5);
    put_number(out + 5, count, 4);
    for (size_t i = 0; i < frames; i++) {
        put_number(out + HEAD + 8 * i, from[4 * i], 2);
        put_number(out + HEAD + 8 * i + 2, from[4 * i + 1], 1);
        put_number(out + HEAD + 8 * i + 3, from[4 * i + 2], 1);
        put_number(out + HEAD + 8 * i + 4, from[4 * i + 3], 4);
    }
}

static void entry_of(const uint8_t *from, size_t i, uint32_t *four)
{
    const uint8_t *at = from + HEAD + 8 * i;
    four[0] = (uint32_t)number_at(at, 2);
    four[1] = at[2];
    four[2] = at[3];
    four[3] = (uint32_t)number_at(at + 4, 4);
}

/* 19, 20 or 0. */
static uint32_t opened(const uint8_t *from, size_t bytes)
{
    if (bytes < HEAD || memcmp(from, "VFI\0\1", 5) != 0)
        return BAD_MARK;
    return bytes - HEAD == 8 * number_at(from + 5, 4) ? 0 : BAD_LENGTH;
}

/* 21 or 0, of an opened list. */
static uint32_t entries_judged(const uint8_t *from, size_t bytes)
{
    uint32_t e[4];
    for (size_t i = 0; i < (bytes - HEAD) / 8; i++) {
        entry_of(from, i, e);
        if (!is_legal(e[0], e[1], e[2]))
            return BAD_ENTRY;
    }
    return 0;
}

static uint32_t judged(const uint8_t *from, size_t bytes)
{
    uint32_t number = opened(from, bytes);
    return number != 0 ? number : entries_judged(from, bytes);
}

/* ---- the calls, each on buffers that are lent already */

static uint32_t call_list_write(uint32_t frames, struct lent *e, struct lent *l, int first)
{
    uint64_t room = HEAD + 8 * (uint64_t)frames;
    uint32_t expected = e->count < 4 * (uint64_t)frames || l->count < room ? SHORT_SLICE : 0;
    for (size_t i = 0; expected == 0 && i < frames; i++)
        if (!is_legal(numbers_of(e)[4 * i], numbers_of(e)[4 * i + 1], numbers_of(e)[4 * i + 2]))
            expected = BAD_ENTRY;
    struct file_part parts[2] = {{e, 0}, {l, (size_t)room}};
    seal_parts(parts, 2);
    uint32_t number = hca_list_write(frames, numbers_of(e), e->count, l->data, l->count);
    check_parts(LIST_WRITE, "hca_list_write", parts, 2, number, expected, first);
    if (number == 0 && expected == 0) {
        static uint8_t right[sizeof made_list];
        bytes_of(right, frames, numbers_of(e), frames);
        if (memcmp(right, l->data, (size_t)room) != 0)
            fault("hca_list_write: other bytes than the list of its %u entries", frames);
    }
    return number;
}

static uint32_t call_list_read(struct lent *l, struct lent *e, struct lent *a, int first)
{
    uint32_t expected = a->count < 4 ? SHORT_SLICE : opened(l->data, l->count);
    size_t frames = l->count < HEAD ? 0 : (l->count - HEAD) / 8;
    if (expected == 0)
        expected = e->count < 4 * frames ? SHORT_SLICE : entries_judged(l->data, l->count);
    struct file_part parts[2] = {{l, 0}, {e, 4 * frames}};
    seal_parts(parts, 2);
    seal(a);
    uint32_t number = hca_list_read(l->data, l->count, numbers_of(e), e->count, numbers_of(a), a->count);
    check_parts(LIST_READ, "hca_list_read", parts, 2, number, expected, first);
    check_file_answer(a, 4, 1, number);
    if (number != 0 || expected != 0)
        return number;
    if (numbers_of(a)[0] != frames)
        fault("hca_list_read: %u frames of %zu", numbers_of(a)[0], frames);
    for (size_t i = 0; i < frames; i++) {
        uint32_t right[4];
        entry_of(l->data, i, right);
        if (memcmp(right, numbers_of(e) + 4 * i, sizeof right) != 0) {
            fault("hca_list_read: entry %zu is not the list's", i);
            break;
        }
    }
    return number;
}

static uint32_t call_list_lookup(struct lent *l, uint32_t frame, struct lent *a, int first)
{
    uint32_t expected = a->count < 4 ? SHORT_SLICE : judged(l->data, l->count), right[4];
    if (expected == 0 && frame >= (l->count - HEAD) / 8)
        expected = NO_FRAME;
    struct file_part parts[1] = {{l, 0}};
    seal_parts(parts, 1);
    seal(a);
    uint32_t number = hca_list_lookup(l->data, l->count, frame, numbers_of(a), a->count);
    check_parts(LIST_LOOKUP, "hca_list_lookup", parts, 1, number, expected, first);
    check_file_answer(a, 4, 4, number);
    if (number == 0 && expected == 0) {
        entry_of(l->data, frame, right);
        if (memcmp(right, numbers_of(a), sizeof right) != 0)
            fault("hca_list_lookup: entry %u is not the list's", frame);
    }
    return number;
}

static uint32_t call_list_summary(struct lent *l, struct lent *a, int first)
{
    uint32_t expected = a->count < 3 ? SHORT_SLICE : judged(l->data, l->count), e[4];
    uint64_t right[3] = {0, 0, 0};
    struct file_part parts[1] = {{l, 0}};
    seal_parts(parts, 1);
    seal(a);
    uint32_t number = hca_list_summary(l->data, l->count, longs_of(a), a->count);
    check_parts(LIST_SUMMARY, "hca_list_summary", parts, 1, number, expected, first);
    check_file_answer(a, 3, 3, number);
    if (number != 0 || expected != 0)
        return number;
    for (size_t i = 0; i < (l->count - HEAD) / 8; i++) {
        entry_of(l->data, i, e);
        right[0] = e[0] > right[0] ? e[0] : right[0];
        right[1] = e[2] > right[1] ? e[2] : right[1];
        right[2] += e[3];
    }
    if (memcmp(right, longs_of(a), sizeof right) != 0)
        fault("hca_list_summary: not the largest level and pairs, or not the sum of the bits");
    return number;
}

/* ---- hostile ones */

static size_t make_entries(struct source *s)
{
    struct source r = bulk(s);
    size_t n = one_in(s, 64) ? take_word(s) % MOST_FRAMES : pick(s, 16);
    for (size_t i = 0; i < n; i++) {
        made_entries[4 * i] = (uint32_t)(next_number(&r) % 512);
        made_entries[4 * i + 1] = (uint32_t)(next_number(&r) % 128);
        made_entries[4 * i + 2] = (uint32_t)(next_number(&r) % 64);
        made_entries[4 * i + 3] = (uint32_t)next_number(&r);
    }
    if (n > 0 && one_in(s, 3)) { /* one value at its limit, one past it, or any */
        static const uint32_t limits[4] = {511, 127, 63, 0xFFFFFFFF};
        uint32_t field = pick(s, 4), sort = pick(s, 4);
        size_t at = 4 * (one_in(s, 3) ? n - 1 : take_word(s) % n) + field;
        made_entries[at] = sort == 0 ? limits[field] : sort == 3 ? take_word(s) : limits[field] + 1;
    }
    return n;
}

static void lend_bytes(struct lent *b, const char *name, size_t element, size_t count, const void *from, size_t bytes, struct source *s)
{
    lend(b, name, element, count, s);
    if (b->bytes > 0 && bytes > 0)
        memcpy(b->data, from, bytes < b->bytes ? bytes : b->bytes);
}

/* What was written is read back to the same entries. */
static void read_written(const struct lent *l, size_t bytes, const struct lent *e, size_t frames, struct source *s)
{
    lend_bytes(&list_2, "list", 1, bytes, l->data, bytes, s);
    lend(&entries_2, "entries", 4, 4 * frames, s);
    lend(&answer_2, "answer", 4, 4, s);
    if (call_list_read(&list_2, &entries_2, &answer_2, 0) != 0 ||
        (frames > 0 && memcmp(entries_2.data, e->data, 16 * frames) != 0))
        fault("a written list is not read back to its entries");
    give_back(&list_2);
    give_back(&entries_2);
    give_back(&answer_2);
}

static void hostile_list_write(struct source *s)
{
    struct wish w = {.any_lengths = one_in(s, 3)};
    size_t n = make_entries(s);
    uint32_t frames = (uint32_t)n;
    if (one_in(s, 12)) {
        static const uint32_t odd[4] = {0xFFFFFFFF, 0x20000001, 0x40000000, 0x1FFFFFFF};
        frames = one_in(s, 2) ? odd[pick(s, 4)] : (uint32_t)n + pick(s, 3) - 1;
    }
    lend_bytes(&entries, "entries", 4, length_for(s, &w, 4 * n), made_entries, 16 * n, s);
    lend(&list, "list", 1, length_for(s, &w, HEAD + 8 * n), s);
    if (call_list_write(frames, &entries, &list, 1) == 0)
        read_written(&list, HEAD + 8 * (size_t)frames, &entries, frames, s);
    give_back(&entries);
    give_back(&list);
}

/* The bytes of some list, damaged in one of many ways or not. */
static size_t make_list(struct source *s)
{
    size_t n = make_entries(s), bytes = HEAD + 8 * n;
    uint32_t count = (uint32_t)n, sort = pick(s, 12);
    if (sort == 0) {
        static const uint32_t odd[5] = {0xFFFFFFFF, 0x20000001, 0x1FFFFFFF, 0x80000000, 0};
        count = one_in(s, 2) ? odd[pick(s, 5)] : (uint32_t)n + 2 * pick(s, 2) - 1;
    }
    bytes_of(made_list, count, made_entries, n);
    memset(made_list + bytes, 0, 16);
    if (sort == 1 || sort == 2) {
        static const uint8_t set[3] = {0, 1, 255};
        size_t at = take_word(s) % (sort == 1 ? HEAD : bytes);
        made_list[at] = one_in(s, 2) ? set[pick(s, 3)] : (uint8_t)(made_list[at] ^ 1 << pick(s, 8));
    }
    if (sort == 3)
        bytes += one_in(s, 2) ? 1 : 8;
    if (sort == 4)
        bytes -= one_in(s, 2) ? 1 : 8;
    if (sort == 5)
        bytes = take_word(s) % bytes;
    return bytes;
}

/* What was read is written to the same bytes. */
static void write_read(size_t frames, struct source *s)
{
    lend_bytes(&entries_2, "entries", 4, 4 * frames, entries.data, 16 * frames, s);
    lend(&list_2, "list", 1, HEAD + 8 * frames, s);
    if (call_list_write((uint32_t)frames, &entries_2, &list_2, 0) != 0 || memcmp(list_2.data, list.data, list.count) != 0)
        fault("a list that was read is not written to the same bytes");
    give_back(&entries_2);
    give_back(&list_2);
}

static void hostile_list_read(struct source *s, uint32_t sort)
{
    struct wish w = {.any_lengths = one_in(s, 3)};
    size_t bytes = make_list(s), n = bytes < HEAD ? 0 : (bytes - HEAD) / 8;
    lend_bytes(&list, "list", 1, bytes, made_list, bytes, s);
    if (sort == 0) {
        lend(&entries, "entries", 4, length_for(s, &w, 4 * n), s);
        lend(&answer, "answer", 4, length_for(s, &w, 4), s);
        if (call_list_read(&list, &entries, &answer, 1) == 0)
            write_read(n, s);
        give_back(&entries);
    } else if (sort == 1) {
        uint32_t frame = one_in(s, 4) ? (uint32_t)n + pick(s, 2) : one_in(s, 12) ? take_word(s) : take_word(s) % ((uint32_t)n + 1);
        lend(&answer, "answer", 4, length_for(s, &w, 4), s);
        call_list_lookup(&list, frame, &answer, 1);
    } else {
        lend(&answer, "answer", 8, length_for(s, &w, 3), s);
        call_list_summary(&list, &answer, 1);
    }
    give_back(&list);
    give_back(&answer);
}

void hostile_list(struct source *s)
{
    uint32_t sort = pick(s, 4);
    if (sort == 3)
        hostile_list_write(s);
    else
        hostile_list_read(s, sort);
}
