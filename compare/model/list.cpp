// Model of the list beside the bank, after document 02: three bytes VFI, a version of 16 bits, a count of 32, then for each
// frame level (16 bits), boundary (8), pairs removed (8) and bits written (32), high byte first. There is no list in the
// Rust: this model is the library's only witness, and shares no code with it.
#include <cstddef>
#include <cstdint>
#include <cstring>

typedef std::uint8_t u8;
typedef std::uint32_t u32;
typedef std::uint64_t u64;
typedef std::size_t usize;

namespace {

enum { MARK_AND_COUNT = 9, A_FRAME = 8 };
const u8 MARK[5] = {'V', 'F', 'I', 0, 1};

struct Frame {
    u64 level, boundary, pairs, bits;
    bool legal() const { return level <= 511 && boundary <= 127 && pairs <= 63; }
};

Frame in_memory(const u32 *entries, u64 i) {
    return {entries[4 * i], entries[4 * i + 1], entries[4 * i + 2], entries[4 * i + 3]};
}

Frame in_list(const u8 *list, u64 i) {
    const u8 *at = list + MARK_AND_COUNT + A_FRAME * i;
    return {at[0] * u64(256) + at[1], at[2], at[3], ((at[4] * u64(256) + at[5]) * 256 + at[6]) * 256 + at[7]};
}

u64 size_of(u64 frames) { return MARK_AND_COUNT + A_FRAME * frames; }

// Refusals 19 and 20, or 0 with the count.
u32 opened(const u8 *list, usize len, u64 &frames) {
    if (len < MARK_AND_COUNT || std::memcmp(list, MARK, 5) != 0) return 19;
    frames = ((list[5] * u64(256) + list[6]) * 256 + list[7]) * 256 + list[8];
    return len == size_of(frames) ? 0 : 20;
}

bool all_legal(const u8 *list, u64 frames) {
    for (u64 i = 0; i < frames; i++)
        if (!in_list(list, i).legal()) return false;
    return true;
}

u32 judged(const u8 *list, usize len, u64 &frames) {
    u32 number = opened(list, len, frames);
    return number != 0 ? number : all_legal(list, frames) ? 0 : 21;
}

u64 larger(u64 a, u64 b) { return a > b ? a : b; }

} // namespace

extern "C" u32 model_list_write(u32 frames, const u32 *entries, usize entries_len, u8 *list, usize list_len) {
    if (entries_len < u64(frames) * 4 || list_len < size_of(frames)) return 2;
    for (u64 i = 0; i < frames; i++)
        if (!in_memory(entries, i).legal()) return 21;
    std::memcpy(list, MARK, 5);
    u8 *to = list + 5;
    for (int shift = 24; shift >= 0; shift -= 8) *to++ = u8(frames >> shift);
    for (u64 i = 0; i < frames; i++) {
        Frame f = in_memory(entries, i);
        *to++ = u8(f.level / 256), *to++ = u8(f.level % 256), *to++ = u8(f.boundary), *to++ = u8(f.pairs);
        for (int shift = 24; shift >= 0; shift -= 8) *to++ = u8(f.bits >> shift);
    }
    return 0;
}

extern "C" u32 model_list_read(const u8 *list, usize list_len, u32 *entries, usize entries_len, u32 *answer, usize answer_len) {
    u64 frames = 0;
    if (answer_len < 4) return 2;
    answer[0] = 0;
    if (u32 number = opened(list, list_len, frames)) return number;
    if (entries_len < 4 * frames) return 2;
    if (!all_legal(list, frames)) return 21;
    for (u64 i = 0; i < frames; i++) {
        Frame f = in_list(list, i);
        entries[4 * i] = u32(f.level), entries[4 * i + 1] = u32(f.boundary);
        entries[4 * i + 2] = u32(f.pairs), entries[4 * i + 3] = u32(f.bits);
    }
    answer[0] = u32(frames);
    return 0;
}

extern "C" u32 model_list_lookup(const u8 *list, usize list_len, u32 frame, u32 *answer, usize answer_len) {
    u64 frames = 0;
    if (answer_len < 4) return 2;
    answer[0] = 0;
    if (u32 number = judged(list, list_len, frames)) return number;
    if (frame >= frames) return 31;
    Frame f = in_list(list, frame);
    answer[0] = u32(f.level), answer[1] = u32(f.boundary), answer[2] = u32(f.pairs), answer[3] = u32(f.bits);
    return 0;
}

extern "C" u32 model_list_summary(const u8 *list, usize list_len, u64 *answer, usize answer_len) {
    u64 frames = 0, level = 0, pairs = 0, bits = 0;
    if (answer_len < 3) return 2;
    answer[0] = 0;
    if (u32 number = judged(list, list_len, frames)) return number;
    for (u64 i = 0; i < frames; i++) {
        Frame f = in_list(list, i);
        level = larger(level, f.level), pairs = larger(pairs, f.pairs), bits += f.bits;
    }
    answer[0] = level, answer[1] = pairs, answer[2] = bits;
    return 0;
}
