// Model of the file header's writer, after document 02: a table of pieces by offset, a byte at a time. The Rust itself is
// the better witness; this one stands in the library's place under --model.
#include <cstddef>
#include <cstdint>
#include <cstring>

typedef std::uint8_t u8;
typedef std::uint32_t u32;
typedef std::uint64_t u64;

extern "C" std::uint16_t model_checksum(const u8 *bytes, std::size_t bytes_len);

namespace {

// Refusal 1 of document 01.
bool layout_fits(const u32 *layout, std::size_t layout_len, const u8 *kinds, std::size_t kinds_len) {
    if (layout_len < 5 || layout[0] < 1 || layout[0] > 16 || kinds_len < layout[0]) return false;
    for (u32 c = 0; c < layout[0]; c++)
        if (kinds[c] > 2) return false;
    u32 least = layout_len > 5 ? layout[5] : 1, most = layout_len > 6 ? layout[6] : 15;
    if (least < 1 || most < least || most > 15 || (layout_len > 7 && layout[7] > 1)) return false;
    return layout[3] >= 1 && layout[3] <= 128 && u64(layout[1]) + layout[2] <= layout[3] && layout[4] >= 8 && layout[4] <= 65535;
}

void put(u8 *header, u32 offset, u32 width, u64 value) {
    for (u32 i = 0; i < width; i++) header[offset + i] = u8(value >> 8 * (width - 1 - i));
}

void name(u8 *header, u32 offset, const char *four) { std::memcpy(header + offset, four, 4); }

// The moved points as frames and samples; the end on an edge belongs to the frame before.
void put_loop(u8 *header, u64 start, u64 end) {
    start += 128, end += 128;
    u64 last = (end - 1) / 1024;
    name(header, 40, "loop");
    put(header, 44, 4, start / 1024);
    put(header, 48, 4, last);
    put(header, 52, 2, start % 1024);
    put(header, 54, 2, 1024 * (last + 1) - end);
}

} // namespace

extern "C" std::uint32_t model_write_header(const u32 *layout, std::size_t layout_len, const u8 *kinds, std::size_t kinds_len,
                                            const u64 *stream, std::size_t stream_len, const u64 *points, std::size_t points_len,
                                            u8 *header, std::size_t header_len) {
    static const u8 configuration[9] = {0, 1, 0, 4, 0, 1, 3, 7, 3};
    if (!layout_fits(layout, layout_len, kinds, kinds_len)) return 1;
    if (stream_len < 3 || points_len == 1 || header_len < 96) return 2;
    bool loop = points_len >= 2;
    if (layout[0] > 8 || stream[0] < 1 || stream[0] > 0x7FFFFF || stream[1] > 4294967295u || stream[2] > 65535) return 16;
    if (loop && (points[0] > 4294967167u || points[1] > 4294967167u)) return 16;
    u32 hfr = layout[3] - layout[1] - layout[2], p = loop ? 56 : 40;
    std::memset(header, 0, 96);
    name(header, 0, "HCA");
    put(header, 4, 2, 0x0200);
    put(header, 6, 2, 96);
    name(header, 8, "fmt");
    put(header, 12, 1, layout[0]);
    put(header, 13, 3, stream[0]);
    put(header, 16, 4, stream[1]);
    put(header, 20, 2, 128);
    put(header, 22, 2, stream[2]);
    name(header, 24, "comp");
    put(header, 28, 2, layout[4]);
    put(header, 30, 1, layout_len > 5 ? layout[5] : 1);
    put(header, 31, 1, layout_len > 6 ? layout[6] : 15);
    put(header, 32, 1, 1);
    put(header, 33, 1, configuration[layout[0]]);
    put(header, 34, 1, layout[3]);
    put(header, 35, 1, layout[1]);
    put(header, 36, 1, layout[2]);
    put(header, 37, 1, (hfr + 7) / 8);
    if (loop) put_loop(header, points[0], points[1]);
    name(header, p, "ciph");
    name(header, p + 6, "pad");
    put(header, 94, 2, model_checksum(header, 94));
    return 0;
}
