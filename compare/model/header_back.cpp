// Model of the file header's reader, after document 02. It judges no field by a limit: it guesses what the header was made from, has the
// model of the writer write that, and compares, names first, then fields, then what the writer leaves 0.
#include <cstddef>
#include <cstdint>
#include <cstring>

typedef std::uint8_t u8;
typedef std::uint32_t u32;
typedef std::uint64_t u64;

extern "C" std::uint16_t model_checksum(const u8 *bytes, std::size_t bytes_len);
extern "C" std::uint32_t model_write_header(const u32 *layout, std::size_t layout_len, const u8 *kinds, std::size_t kinds_len,
                                            const u64 *stream, std::size_t stream_len, const u64 *points, std::size_t points_len,
                                            u8 *header, std::size_t header_len);

namespace {

const u8 discrete[16] = {};

struct Guess {
    u32 layout[7];
    u64 stream[3];
    u64 points[2];
    bool loop;
};

u64 number(const u8 *header, u32 offset, u32 width) {
    u64 n = 0;
    for (u32 i = 0; i < width; i++) n = 256 * n + header[offset + i];
    return n;
}

// Points that would lie before the input's first sample wrap, and no writer takes them.
Guess guess(const u8 *header) {
    Guess g;
    static const u32 places[7] = {12, 35, 36, 34, 28, 30, 31};
    for (u32 i = 0; i < 7; i++) g.layout[i] = u32(number(header, places[i], places[i] == 28 ? 2 : 1));
    g.stream[0] = number(header, 13, 3), g.stream[1] = number(header, 16, 4), g.stream[2] = number(header, 22, 2);
    g.loop = std::memcmp(header + 40, "loop", 4) == 0;
    g.points[0] = number(header, 44, 4) * 1024 + number(header, 52, 2) - 128;
    g.points[1] = (number(header, 48, 4) + 1) * 1024 - number(header, 54, 2) - 128;
    return g;
}

// Written by the model: 0 where it delivers.
u32 write(const Guess &g, u8 *out) {
    return model_write_header(g.layout, 7, discrete, 16, g.stream, 3, g.points, g.loop ? 2 : 0, out, 96);
}

// What a byte is for: a name or the version (N), a field (F), or nothing (0).
char use_of(u32 at, bool loop) {
    const char *head = "NNNNNNFFNNNNFFFFFFFFFFFFNNNNFFFFFFFFFF00", *turn = "NNNNFFFFFFFFFFFF", *tail = "NNNNFFNNNN";
    if (at < 40) return head[at];
    at -= 40;
    if (loop && at < 16) return turn[at];
    if (loop) at -= 16;
    return at < 10 ? tail[at] : '0';
}

bool agree(const u8 *a, const u8 *b, char use, bool loop) {
    for (u32 i = 0; i < 94; i++)
        if (use_of(i, loop) == use && a[i] != b[i]) return false;
    return true;
}

u32 judged(const u8 *header, const Guess &g) {
    static const Guess good = {{1, 1, 0, 1, 8, 1, 15}, {1, 0, 0}, {0, 0}, false};
    u8 written[96];
    if (model_checksum(header, 94) != number(header, 94, 2)) return 26;
    Guess other = good;
    other.loop = g.loop;
    write(other, written);
    if (!agree(header, written, 'N', g.loop)) return 27;
    if (write(g, written) != 0 || !agree(header, written, 'F', g.loop)) return 28;
    return agree(header, written, '0', g.loop) ? 0 : 29;
}

} // namespace

extern "C" std::uint32_t model_read_header(const u8 *header, std::size_t header_len, u32 *layout, std::size_t layout_len, u32 *answer,
                                           std::size_t answer_len) {
    if (answer_len < 8) return 2;
    Guess g = {};
    u32 refusal = 2;
    if (header_len >= 96 && layout_len >= 7) {
        g = guess(header);
        refusal = judged(header, g);
    }
    if (refusal != 0) {
        answer[0] = 0;
        return refusal;
    }
    std::memcpy(layout, g.layout, sizeof g.layout);
    for (u32 i = 0; i < 3; i++) answer[i] = u32(g.stream[i]);
    // the points as frames again: quotient and rest of what they were moved to
    u64 start = g.points[0] + 128, end = g.points[1] + 128, last = (end + 1023) / 1024;
    u64 loop[5] = {1, start / 1024, start % 1024, last - 1, 1024 * last - end};
    for (u32 i = 0; i < 5; i++) answer[3 + i] = g.loop ? u32(loop[i]) : 0;
    return 0;
}
