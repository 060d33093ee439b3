/* The HCA frame stage, its record writer, its strict reader and what stands around them, as C sees them (libhca.a).
   C99 or later, C++98 or later.

   hca_encode_frame   spectra of one frame                -> a frame, or a numbered refusal
   hca_encode_stereo_frame  unmixed spectra of one frame  -> the same, its pairs mixed first
   hca_encode_line    spectra of up to 65,535 frames      -> their frames, each as hca_encode_frame makes it
   hca_encode_stereo_line  unmixed spectra of as many     -> the same, each as hca_encode_stereo_frame makes it
   hca_read_frame     a frame                             -> its record (level, boundary, factors, side, codes)
   hca_write_record   a record                            -> its frame
   hca_checksum       bytes                               -> their check
   hca_write_header   layout, rate, count, padding, loop  -> the 96 bytes in front of a file's frames
   hca_read_header    the first 96 bytes of a file        -> its layout without kinds, rate, count, padding and loop
   hca_read_wav       a WAV file                          -> its samples, exact, and their level note
   hca_list_write     the stage's answers of a line       -> the list beside its frames
   hca_list_read      a list                              -> its entries; hca_list_lookup: one; hca_list_summary: the worst
   hca_version                                            -> the version of the library that is linked

   Arguments. Every buffer is a pointer and a number of ELEMENTS (not bytes). What is const is only read. No call has
   a precondition on numbers: any layout, kinds, lengths and contents may be passed, and what cannot be used is refused.
   The caller keeps these rules of C, which no call can test:
     - a pointer is valid for its number of elements and aligned for their type;
     - a null pointer goes with the length 0 only (and is then fine);
     - a buffer that is written overlaps no other buffer of the call;
     - nobody else reads or writes a written buffer, or writes a read one, while the call runs;
     - floats round to nearest and small ones are not flushed to zero (C's default; some audio engines set FTZ or DAZ).
   A buffer may be longer than is needed: the rest is not looked at and stays as it was.

   Threads. There is no state, no heap, no lock, no file, no errno: any number of threads may call at once, each with
   its own written buffers. Stack: at most 21,808 bytes a call, its arguments among them, whatever the layout; measured
   on a painted stack over hostile calls of up to 16 channels (fuzz/run.sh stack). Plan with 32 KiB: a later build may
   differ.

   Result. 0 (HCA_OK) where the call delivered, else the number of the refusal: see enum hca_refusal. */
#ifndef HCA_FRAME_H
#define HCA_FRAME_H

#include <stddef.h>
#include <stdint.h>

#ifdef __cplusplus
extern "C" {
#endif

/* The version of this header; the number is 10,000 x major + 100 x minor + patch. hca_version tells that of the library. */
#define HCA_VERSION "0.2.0"
#define HCA_VERSION_NUMBER 200

#define HCA_MAX_CHANNELS 16
#define HCA_SUBFRAME_COUNT 8    /* of a frame */
#define HCA_BAND_COUNT 128      /* of a subframe */

/* Elements that each buffer needs, by the number of channels; frame needs the layout's frame size. */
#define HCA_KINDS_LENGTH(channels) ((size_t)(channels))
#define HCA_SPECTRA_LENGTH(channels) ((size_t)(channels) * HCA_SUBFRAME_COUNT * HCA_BAND_COUNT)
#define HCA_SCALED_LENGTH(channels) ((size_t)(channels) * HCA_BAND_COUNT * HCA_SUBFRAME_COUNT)
#define HCA_CODES_LENGTH(channels) ((size_t)(channels) * HCA_SUBFRAME_COUNT * HCA_BAND_COUNT)
#define HCA_FACTORS_LENGTH(channels) ((size_t)(channels) * HCA_BAND_COUNT)
#define HCA_INTENSITIES_LENGTH(channels) ((size_t)(channels) * HCA_SUBFRAME_COUNT)
#define HCA_SIDE_LENGTH(channels) ((size_t)(channels) * HCA_SUBFRAME_COUNT)

/* Of a line of frames, by the number of frames too; the work buffers of a line have one frame's length. */
#define HCA_LINE_MAX_FRAMES 65535
#define HCA_LINE_SPECTRA_LENGTH(channels, count) ((size_t)(count) * HCA_SPECTRA_LENGTH(channels))
#define HCA_LINE_INTENSITIES_LENGTH(channels, count) ((size_t)(count) * HCA_INTENSITIES_LENGTH(channels))
#define HCA_LINE_FRAMES_LENGTH(frame_size, count) ((size_t)(count) * (size_t)(frame_size))
#define HCA_LINE_ANSWERS_LENGTH(count) ((size_t)(count) * HCA_ENCODED_COUNT)

/* Lengths: the fewest elements that each call needs, else refusal 2, of layout and kinds 1. C channels, F bytes of a frame, n frames
   of a line or a list. Where there is an answer, its number of places stands last; *_COUNT of its enum below is that number.

                            layout kinds  spectra intensities   scaled    codes factors  side  frame   and                 answer
   hca_encode_frame              5     C  C x 1024      C x 8 C x 1024 C x 1024 C x 128 C x 8      F                            4
   hca_encode_stereo_frame       5     C  C x 1024      C x 8 C x 1024 C x 1024 C x 128 C x 8      F                            4
   hca_encode_line               5     C nC x 1024     nC x 8 C x 1024 C x 1024 C x 128 C x 8     nF  answers 4n, tally 3       4
   hca_encode_stereo_line        5     C nC x 1024     nC x 8 C x 1024 C x 1024 C x 128 C x 8     nF  answers 4n, tally 3       4
   hca_write_record              5     C                               C x 1024 C x 128 C x 8      F  record 2                  4
   hca_read_frame                5     C                               C x 1024 C x 128 C x 8      F                            4
   hca_write_header              5     C                                                              stream 3, points 0 or 2,
                                                                                                      header 96
   hca_read_header               7                                                                    header 96                 8
   hca_read_wav                                                                                       samples of the file,      4
                                                                                                      note 2
   hca_list_write                                                                                     entries 4n, list 9 + 8n
   hca_list_read                                                                                      entries 4n                4
   hca_list_lookup                                                                                                              4
   hca_list_summary                                                                                                             3 */

/* layout: five to eight numbers in this order. A sixth, seventh or eighth that is missing has its default. Numbers after the
   eighth are not looked at, but a later version may: pass no more than eight. */
enum hca_layout {
    HCA_CHANNELS = 0,       /* C: 1 to 16 */
    HCA_BASE = 1,           /* bands that every channel codes; may be 0 */
    HCA_STEREO = 2,         /* further bands that all but secondaries code; may be 0; base + stereo is at most total */
    HCA_TOTAL = 3,          /* bands in all: 1 to 128; those from base + stereo on are reconstructed (HFR) */
    HCA_FRAME_SIZE = 4,     /* F, bytes of a frame with its check: 8 to 65,535 */
    HCA_MINIMUM = 5,        /* the lowest resolution of a band that is not silent: 1 to the maximum; where missing 1 */
    HCA_MAXIMUM = 6,        /* the highest one: the minimum to 15; where missing 15 */
    HCA_MODE = 7,           /* what becomes of a code past its range: see enum hca_mode; where missing 0 */
    HCA_LAYOUT_COUNT = 5,   /* how many numbers a layout must have */
    HCA_LAYOUT_FULL_COUNT = 8   /* how many it has with both limits of the resolution and the mode */
};

/* The modes of a layout. The mode is in no frame and in no file header; only the calls that make frames from spectra look at
   it. The others take a layout with either mode, and do the same. */
enum hca_mode {
    HCA_MODE_RUST = 0,      /* as the published encoder: at the upper clip and resolution 2, 4 or 5 a code can be one past its
                               range; such a code gets no bits */
    HCA_MODE_HELD = 1       /* below resolution 8 a code is held within plus or minus the resolution before it is counted, kept
                               and written: hca_read_frame hands back the record of every frame that is delivered */
};

/* kinds: one byte a channel, in any arrangement. Bytes after the first C are not looked at. */
enum hca_kind {
    HCA_DISCRETE = 0,
    HCA_STEREO_PRIMARY = 1,
    HCA_STEREO_SECONDARY = 2    /* codes the base bands only; its side values are intensities */
};

/* stream: three numbers in this order, of hca_write_header. Numbers after the third are not looked at. */
enum hca_stream {
    HCA_STREAM_RATE = 0,    /* samples a second: 1 to 0x7FFFFF */
    HCA_STREAM_FRAMES = 1,  /* how many frames follow: up to 2^32 - 1 */
    HCA_STREAM_PADDING = 2, /* samples of padding behind the last one: up to 65,535. Of a take of n samples a channel the frames are
                               (n + 128) / 1024, rounded up, and the padding is frames x 1024 - 128 - n */
    HCA_STREAM_COUNT = 3    /* how many numbers a stream has */
};
enum { HCA_HEADER_SIZE = 96 };

/* answer: at least HCA_ANSWER_COUNT places, for each call that has one (hca_list_summary: HCA_SUMMARY_COUNT, which is 3;
   hca_read_header: HCA_FILE_COUNT, which is 8). In each enum of places *_COUNT is a length that suffices, and no index.
   Where a call delivered, the first places hold the numbers of its enum below, and the places after them stay as they were.
   Where it refused, answer[0] holds the number beside the refusal, and the other places stay as they were.
   An answer of fewer places is refusal 2 (after 1; before all others where there is no layout) and stays as it was. */
enum { HCA_ANSWER_COUNT = 4 };

/* What hca_encode_frame and hca_encode_stereo_frame deliver. */
enum hca_encoded {
    HCA_ENCODED_LEVEL = 0,      /* noise level, 0 to 254; with HCA_MODE_HELD the least that fits, and the boundary the largest */
    HCA_ENCODED_BOUNDARY = 1,   /* bands below it are coded one level finer; 0 to 127, 0 at level 0 */
    HCA_ENCODED_PAIRS = 2,      /* pairs of bands removed before a level was found */
    HCA_ENCODED_BITS = 3,       /* bits of all fields, those before the fill */
    HCA_ENCODED_COUNT = 4       /* how many numbers it delivers */
};

/* tally: what a caller's lines have delivered so far, three counts of at most 2^63 each. hca_encode_line and
   hca_encode_stereo_line bring them up to date. */
enum hca_tally {
    HCA_TALLY_FRAMES = 0,       /* frames delivered */
    HCA_TALLY_BITS = 1,         /* their bits, those before the fill */
    HCA_TALLY_PAIRS = 2,        /* their pairs of bands removed */
    HCA_TALLY_COUNT = 3         /* how many counts a tally has */
};

/* answer of hca_encode_line and hca_encode_stereo_line, at a refusal only. */
enum hca_line_answer {
    HCA_LINE_BESIDE = 0,        /* the number beside the refusal; with 3 and 4 an index within that frame's part */
    HCA_LINE_FRAME = 1,         /* with 3, 4, 17, 5 and 7 the index of the frame that was refused */
    HCA_LINE_ANSWER_COUNT = 4   /* places that its answer needs */
};

/* What hca_read_frame and hca_write_record deliver. The first two are what hca_write_record takes as record. */
enum hca_record {
    HCA_RECORD_LEVEL = 0,       /* noise level, 0 to 511 */
    HCA_RECORD_BOUNDARY = 1,    /* bands below it are coded one level finer, where the level is not 0; 0 to 127 */
    HCA_RECORD_BITS = 2,        /* bits of all fields, those before the fill */
    HCA_RECORD_COUNT = 4        /* places that their answer needs; the fourth stays as it was */
};

/* What hca_read_header delivers beside the layout. The loop's four numbers are in this order, which is not that of the bytes; each is
   0 where there is no loop. The points in samples of the input, as hca_write_header takes them, are in 64 bits
   start = 1024 x frame + delay - 128 and end = 1024 x (end frame + 1) - padding - 128. */
enum hca_file {
    HCA_FILE_RATE = 0,          /* samples a second: 1 to 0x7FFFFF */
    HCA_FILE_FRAMES = 1,        /* how many frames the header says, any; the call does not see whether they follow */
    HCA_FILE_PADDING = 2,       /* samples of padding behind the last one: 0 to 65,535 */
    HCA_FILE_LOOP = 3,          /* 1 for a loop, else 0 */
    HCA_FILE_LOOP_FRAME = 4,    /* the frame where the loop starts: 0 to 4,194,303 */
    HCA_FILE_LOOP_DELAY = 5,    /* samples of that frame before the start: 0 to 1,023 */
    HCA_FILE_LOOP_END_FRAME = 6,    /* the frame where it ends: 0 to 4,194,303 */
    HCA_FILE_LOOP_PADDING = 7,  /* samples of that frame behind the end: 0 to 1,023 */
    HCA_FILE_COUNT = 8          /* how many numbers it delivers, and places that its answer needs */
};

/* What hca_read_wav delivers, and its note. */
enum hca_take {
    HCA_TAKE_CHANNELS = 0,      /* as the file has them, 0 too */
    HCA_TAKE_RATE = 1,          /* samples a second and channel, as the file has them, 0 too */
    HCA_TAKE_DEPTH = 2,         /* bits of a sample in the file: 16, 24 or 32 */
    HCA_TAKE_SAMPLES = 3,       /* samples of all channels together, 0 to 16,777,216 */
    HCA_TAKE_COUNT = 4          /* how many numbers it delivers */
};
enum hca_note {
    HCA_NOTE_PEAK = 0,          /* the largest magnitude */
    HCA_NOTE_MEAN = 1,          /* the mean magnitude; infinite where the sum is */
    HCA_NOTE_COUNT = 2          /* places that a note needs */
};

/* The list beside the bank: "VFI", version 1 in 2 bytes, the frame count n in 4; then for each frame its level in 2 bytes,
   boundary in 1, pairs in 1, bits in 4; high byte first. In memory its entries are 4n numbers, frame after frame, in the order
   of enum hca_encoded: those that hca_encode_frame answers. */
#define HCA_LIST_SIZE(frames) ((size_t)9 + (size_t)8 * (frames))                    /* bytes of a list */
#define HCA_LIST_ENTRIES_LENGTH(frames) ((size_t)HCA_ENCODED_COUNT * (frames))      /* numbers of its entries */

/* What hca_list_summary delivers; each 0 for no frames. */
enum hca_summary {
    HCA_SUMMARY_LEVEL = 0,      /* the highest level, 0 to 511 */
    HCA_SUMMARY_PAIRS = 1,      /* the most pairs removed in a frame, 0 to 63 */
    HCA_SUMMARY_BITS = 2,       /* the total of bits */
    HCA_SUMMARY_COUNT = 3       /* how many numbers it delivers */
};

/* Refusals. "Beside" is what answer[0] then holds. Bits are counted from the frame's first bit, which is 0.
   After 1 to 4 and from 15 on every buffer but answer is as it was. After 5 to 14 the written buffers are zero over the
   elements that the layout asks for (the stage's five, the reader's factors, side and codes, the writer's frame),
   so no half of a frame can be taken for a whole one.
   The stereo stage refuses in the order 1, 2, 3, 4, 17, 5, 7 and leaves spectra and intensities as mixed after 5 and 7.
   A line's 18 comes between 1 and 2 and changes nothing; what its frames leave is said at hca_encode_line and
   hca_encode_stereo_line.
   The stage refuses in the order 1, 2, 3, 4, 5, 7, the writer 1, 2, 15, 7, the reader 1, 2, 8, 9, then the first fault in bit
   order, 14 last, the file header's writer 1, 2, 16, its reader 2, 26, 27, 28, 29. The list's writer refuses in the order 2, 21,
   its reader 19, 20, 2, 21, the lookup 19, 20, 21, 31, the summary 19, 20, 21. 6 and 10 are withdrawn and come from no call. A later
   version may add further numbers. */
enum hca_refusal {
    HCA_OK = 0,             /* delivered */
    HCA_BAD_LAYOUT = 1,     /* layout outside its limits, a wrong pair of resolutions or a mode above 1 among them, under five
                               numbers, or a kind missing or above 2; beside: 0 */
    HCA_SHORT_BUFFER = 2,   /* a buffer has too few elements for the layout; beside: 0 */
    HCA_BAD_INTENSITY = 3,  /* a secondary's intensity is above 15; beside: index of the first in intensities */
    HCA_BAD_SPECTRUM = 4,   /* a spectrum value is NaN or infinite, in any band; beside: index of the first in spectra */
    HCA_NO_LEVEL = 5,       /* no level fits, even with bands removed: raise the frame size; beside: pairs removed */
    HCA_TOO_LONG = 7,       /* the fields end past bit 8(F - 2); beside: the bits that all fields need.
                               hca_write_record: a frame of (bits + 7) / 8 + 2 bytes has room for this record.
                               hca_encode_frame: of the level found at this size; a larger frame is searched anew. */
    HCA_WRONG_CHECK = 8,    /* the check is wrong: damaged bytes, or another frame size; beside: 0 */
    HCA_WRONG_SYNC = 9,     /* the frame does not begin with FF FF; beside: 0 */
    HCA_BAD_WIDTH = 11,     /* width of the deltas is 7, or not the one that the writer chooses; beside: bit of the width */
    HCA_BAD_FACTOR = 12,    /* an escape was needless, or a factor falls outside 0..63; beside: bit of the field */
    HCA_PAST_END = 13,      /* a field would pass bit 8(F - 2); beside: the field's first bit */
    HCA_FILL_NOT_ZERO = 14, /* the fill before the check holds a 1; beside: its bit */
    HCA_NOT_LEGAL = 15,     /* the record has a value out of range, or not 0 where nothing is written; beside: 0 */
    HCA_BAD_HEADER = 16,    /* more than eight channels, or a rate, count, padding or loop point that the file header has no
                               room for */
    HCA_TOO_LOUD = 17,      /* hca_encode_stereo_frame, hca_encode_stereo_line: a spectrum's magnitude is above 65,536, in any
                               band; beside: 0 */
    HCA_BAD_BATCH = 18,     /* a line of more than 65,535 frames, or a count of its tally above 2^63; beside: 0 */
    HCA_BAD_LIST_MARK = 19, /* a list under 9 bytes, or with another mark or version; beside: 0 */
    HCA_BAD_LIST_LENGTH = 20, /* a list's length is not 9 + 8 x its count, in 64 bits; a longer slice too; beside: 0 */
    HCA_BAD_ENTRY = 21,     /* in any entry a level above 511, a boundary above 127 or more than 63 pairs; beside: 0 */
    HCA_NOT_WAVE = 22,      /* under 44 bytes, or no RIFF at 0 or no WAVE at 8; beside: 0 */
    HCA_NO_DATA = 23,       /* no data chunk found, or one whose size is 0; beside: 0 */
    HCA_BAD_DEPTH = 24,     /* samples of other than 16, 24 or 32 bits; beside: 0 */
    HCA_NOT_FINITE = 25,    /* a 32-bit float sample is NaN or infinite; beside: 0 */
    HCA_WRONG_HEADER_CHECK = 26, /* bytes 94 and 95 are not the check of the 94 before them: damaged, or no header; beside: 0 */
    HCA_WRONG_HEADER_NAME = 27, /* a chunk's name or the version is another than the writer writes, a masked name too; beside: 0 */
    HCA_BAD_HEADER_FIELD = 28,  /* a field that the writer writes so for no layout and stream; beside: 0 */
    HCA_HEADER_NOT_ZERO = 29,   /* a byte is not 0 where the writer stores nothing; beside: 0 */
    HCA_TOO_MANY = 30,      /* more than 16,777,216 whole samples; beside: 0 */
    HCA_NO_FRAME = 31       /* a lookup not below the count, of a good list; beside: 0 */
};

/* A short English text for a call's result, never null: of a number that this header does not know, that. */
static inline const char *hca_refusal_text(uint32_t refusal)
{
    switch (refusal) {
    case HCA_OK: return "delivered";
    case HCA_BAD_LAYOUT:
        return "the layout is outside its limits: five numbers, of them 1 to 16 channels, a total of 1 to 128 bands, base + stereo at "
               "most total, a frame size of 8 to 65,535, further resolutions within 1 to 15, the lowest first, and a mode of 0 or 1; and for "
               "each channel a kind of 0 to 2";
    case HCA_SHORT_BUFFER:
        return "a lent buffer is too short: look at each length, also at those of record, stream, tally, note and answer; "
               "the table of lengths in hca_frame.h has what each call needs";
    case HCA_BAD_INTENSITY: return "a secondary's intensity is above 15";
    case HCA_BAD_SPECTRUM: return "a spectrum value is NaN or infinite";
    case HCA_NO_LEVEL: return "no noise level fits, even with bands removed: raise the frame size";
    case HCA_TOO_LONG: return "the fields do not fit the frame; beside it stand the bits that they need";
    case HCA_WRONG_CHECK: return "the frame's check is wrong";
    case HCA_WRONG_SYNC: return "the frame does not begin with FF FF";
    case HCA_BAD_WIDTH: return "a width is not the one that the writer chooses";
    case HCA_BAD_FACTOR: return "a scale factor is out of range or escaped without need";
    case HCA_PAST_END: return "a field would pass the end of the fields";
    case HCA_FILL_NOT_ZERO: return "the fill holds a 1";
    case HCA_NOT_LEGAL: return "the record is not legal";
    case HCA_BAD_HEADER: return "more than eight channels, or a rate, count, padding or loop point that does not fit the file header";
    case HCA_TOO_LOUD: return "a spectrum's magnitude is above 65,536";
    case HCA_BAD_BATCH: return "a line has more than 65,535 frames, or a count of its tally is above 2^63";
    case HCA_BAD_LIST_MARK: return "no list: under 9 bytes, or another mark or version";
    case HCA_BAD_LIST_LENGTH: return "the list's length does not match its frame count";
    case HCA_BAD_ENTRY: return "an entry of the list has a level above 511, a boundary above 127 or more than 63 pairs";
    case HCA_NOT_WAVE: return "the file is no RIFF/WAVE file, or shorter than 44 bytes";
    case HCA_NO_DATA: return "the file has no data chunk, or an empty one";
    case HCA_BAD_DEPTH: return "samples have neither 16, 24 nor 32 bits";
    case HCA_NOT_FINITE: return "a float sample is NaN or infinite";
    case HCA_WRONG_HEADER_CHECK: return "the header's check is wrong: damaged bytes, or no HCA file";
    case HCA_WRONG_HEADER_NAME: return "a name or the version of the header is another than the writer writes";
    case HCA_BAD_HEADER_FIELD: return "a field of the header is one that the writer never writes";
    case HCA_HEADER_NOT_ZERO: return "the header is not 0 where the writer stores nothing";
    case HCA_TOO_MANY: return "the file has more than 16,777,216 samples";
    case HCA_NO_FRAME: return "the list has no frame of this number";
    default: return "a refusal that this header does not know";
    }
}

/* The frame stage: encodes one frame. Refuses with 1, 2, 3, 4, 5 or 7.
   hca_read_frame hands back the stage's record: with HCA_MODE_HELD always, with HCA_MODE_RUST but where a code is one past
   its range. There a code can be 3, 5 or 6 at the upper clip and resolution 2, 4 or 5, which gets no bits, as in the published
   encoder. */
uint32_t hca_encode_frame(
    const uint32_t *layout, size_t layout_len,          /* read: 5 to 8 numbers, see enum hca_layout */
    const uint8_t *kinds, size_t kinds_len,             /* read: C bytes, see enum hca_kind */
    const float *spectra, size_t spectra_len,           /* read: C x 1,024 by channel, subframe, band; all finite */
    const uint8_t *intensities, size_t intensities_len, /* read: C x 8 by channel, subframe; 0 to 15 for a secondary,
                                                           not looked at for others */
    float *scaled, size_t scaled_len,                   /* written: C x 1,024 by channel, BAND, subframe; magnitudes
                                                           below 1, zero past a channel's coded bands */
    int32_t *codes, size_t codes_len,                   /* written: C x 1,024 by channel, subframe, band */
    uint8_t *factors, size_t factors_len,               /* written: C x 128 by channel, band; 0 to 63 */
    uint8_t *side, size_t side_len,                     /* written: C x 8; a secondary's intensities, else the scales of
                                                           the HFR groups (0 to 63), then zeros */
    uint8_t *frame, size_t frame_len,                   /* written: F bytes */
    uint32_t *answer, size_t answer_len);               /* written: 4 places or more, see enum hca_encoded */

/* The stereo stage: mixes the pairs of one frame's unmixed spectra as the published encoder does, then encodes it as
   hca_encode_frame would what is mixed. Each primary that has a channel after it is mixed with that one, whatever its
   kind, in the bands base to total - 1: the primary gets the mixed values, the other +0.0 and eight intensities. With no
   stereo bands nothing is mixed. Mixed spectra go to hca_encode_frame: mixed again they would be another sound.
   Refuses with 1, 2, 3, 4, 17, 5 or 7, in this order. 3 is judged on the intensities as lent, even where a pair would
   write over them; 17 whatever the layout. After 1 to 4 and 17 every buffer but answer is as it was. After 5 and 7 the
   five written buffers are zero over the elements that the layout asks for, and spectra and intensities stay as mixed. */
uint32_t hca_encode_stereo_frame(
    const uint32_t *layout, size_t layout_len,          /* read: 5 to 8 numbers, see enum hca_layout */
    const uint8_t *kinds, size_t kinds_len,             /* read: C bytes, see enum hca_kind */
    float *spectra, size_t spectra_len,                 /* read and written: C x 1,024 by channel, subframe, band; all
                                                           finite, magnitudes up to 65,536; left as mixed */
    uint8_t *intensities, size_t intensities_len,       /* read and written: C x 8 by channel, subframe; 0 to 15 for a
                                                           secondary; those that a pair writes are 0 to 13, the others
                                                           stay as lent */
    float *scaled, size_t scaled_len,                   /* written: as of hca_encode_frame, and so are those that follow */
    int32_t *codes, size_t codes_len,
    uint8_t *factors, size_t factors_len,
    uint8_t *side, size_t side_len,
    uint8_t *frame, size_t frame_len,
    uint32_t *answer, size_t answer_len);               /* written: 4 places or more, see enum hca_encoded */

/* A whole line: count frames of one layout, tried in their order, each as hca_encode_frame would make it. Pairs must be mixed
   already, as for that call: unmixed spectra go to hca_encode_stereo_line.
   Refuses with 1, 18, 2, which change nothing but answer[0], or with the first frame's 3, 4, 5 or 7. Frame k's part of a
   buffer is the k-th of count equal parts: spectra k x C x 1,024, intensities k x C x 8, frames k x F, answers k x 4.
   At a refusal of frame k the frames before it stand: their bytes, answers and counts. Frame k's bytes are as lent after 3
   and 4 and zero after 5 and 7; its answers and all that is behind it are as lent. The four work buffers are those of the
   last frame tried: after 3 and 4 as after frame k - 1, after 5 and 7 zero. With count 0 nothing changes and the call
   delivers; 1, 18 and 2 are judged first, and the work buffers still need one frame's length. */
uint32_t hca_encode_line(
    const uint32_t *layout, size_t layout_len,          /* read: 5 to 8 numbers, see enum hca_layout */
    const uint8_t *kinds, size_t kinds_len,             /* read: C bytes, see enum hca_kind */
    size_t count,                                       /* frames: 0 to 65,535 */
    const float *spectra, size_t spectra_len,           /* read: count x C x 1,024 by frame, channel, subframe, band */
    const uint8_t *intensities, size_t intensities_len, /* read: count x C x 8 by frame, channel, subframe */
    float *scaled, size_t scaled_len,                   /* written: C x 1,024, the last frame's */
    int32_t *codes, size_t codes_len,                   /* written: C x 1,024, the last frame's */
    uint8_t *factors, size_t factors_len,               /* written: C x 128, the last frame's */
    uint8_t *side, size_t side_len,                     /* written: C x 8, the last frame's */
    uint8_t *frames, size_t frames_len,                 /* written: count x F bytes */
    uint32_t *answers, size_t answers_len,              /* written: count x 4 of the delivered frames, see enum hca_encoded */
    uint64_t *tally, size_t tally_len,                  /* read and written: 3 counts, see enum hca_tally; fewer are refusal
                                                           2, after 18 by the counts that are there */
    uint32_t *answer, size_t answer_len);               /* written at a refusal: 4 places or more, see enum hca_line_answer */

/* A whole line from unmixed spectra: count frames of one layout, tried in their order, each as hca_encode_stereo_frame would
   make it. Parts, refusals, answers, tally and work buffers are those of hca_encode_line, and 17 is among the first frame's
   refusals, between 4 and 5: it keeps all, as 3 and 4 do. Spectra and intensities of delivered frames are left as mixed, and so
   are those of a frame that is refused with 5 or 7; those of one that is refused with 3, 4 or 17, and of all later frames, are as
   lent. What is left as mixed is not to be passed again: mixed again it would be another sound. */
uint32_t hca_encode_stereo_line(
    const uint32_t *layout, size_t layout_len,          /* read: 5 to 8 numbers, see enum hca_layout */
    const uint8_t *kinds, size_t kinds_len,             /* read: C bytes, see enum hca_kind */
    size_t count,                                       /* frames: 0 to 65,535 */
    float *spectra, size_t spectra_len,                 /* read and written: count x C x 1,024 by frame, channel, subframe,
                                                           band; magnitudes up to 65,536; left as mixed */
    uint8_t *intensities, size_t intensities_len,       /* read and written: count x C x 8 by frame, channel, subframe */
    float *scaled, size_t scaled_len,                   /* written: as of hca_encode_line, and so are those that follow */
    int32_t *codes, size_t codes_len,
    uint8_t *factors, size_t factors_len,
    uint8_t *side, size_t side_len,
    uint8_t *frames, size_t frames_len,
    uint32_t *answers, size_t answers_len,
    uint64_t *tally, size_t tally_len,                  /* read and written: 3 counts, see enum hca_tally */
    uint32_t *answer, size_t answer_len);               /* written at a refusal: 4 places or more, see enum hca_line_answer */

/* The record writer: writes the one frame of a legal record. Refuses with 1, 2, 15 or 7.
   Legal: level 0..511; boundary 0..127; factors and HFR scales 0..63; intensities 0..15; codes within the range of their
   resolution; everything that a frame does not carry (past the coded bands, past the groups, codes at resolution 0) is
   0. At level 0 the boundary changes no resolution, but it is a field of its own: another boundary, another frame. */
uint32_t hca_write_record(
    const uint32_t *layout, size_t layout_len,          /* read: 5 to 8 numbers */
    const uint8_t *kinds, size_t kinds_len,             /* read: C bytes */
    const uint32_t *record, size_t record_len,          /* read: 2 numbers: level, boundary */
    const uint8_t *factors, size_t factors_len,         /* read: C x 128 by channel, band */
    const uint8_t *side, size_t side_len,               /* read: C x 8 */
    const int32_t *codes, size_t codes_len,             /* read: C x 1,024 by channel, subframe, band */
    uint8_t *frame, size_t frame_len,                   /* written: F bytes */
    uint32_t *answer, size_t answer_len);               /* written: 4 places or more, see enum hca_record */

/* The strict reader: accepts exactly the frames that hca_write_record writes, and hands their record back.
   Frames are plain here: an encrypted one has to be decrypted, and its check mended, first. A frame is read with the minimum
   and the maximum that it was made with: with others it is refused, or means something else. The mode makes no difference.
   Refuses with 1, 2, 8, 9 or 11 to 14. */
uint32_t hca_read_frame(
    const uint32_t *layout, size_t layout_len,          /* read: 5 to 8 numbers */
    const uint8_t *kinds, size_t kinds_len,             /* read: C bytes */
    const uint8_t *frame, size_t frame_len,             /* read: F bytes */
    uint8_t *factors, size_t factors_len,               /* written: C x 128 by channel, band */
    uint8_t *side, size_t side_len,                     /* written: C x 8 */
    int32_t *codes, size_t codes_len,                   /* written: C x 1,024 by channel, subframe, band */
    uint32_t *answer, size_t answer_len);               /* written: 4 places or more, see enum hca_record */

/* The file header: the 96 bytes in front of a file's frames, version 0x0200, unencrypted. Refuses with 1, 2 or 16; there is no
   answer, since nothing is delivered beside the bytes and 0 stands beside each refusal.
   The layout's minimum and maximum stand at 30 and 31; its mode is not written.
   Loop points are samples of the input; the header has them moved by the encoder's delay of 128. A start after the end, or a
   loop past the frames, is written as it is given.
   A header carries no kinds: decoders derive them from the channels, their configuration and the stereo bands, so frames of
   other kinds decode to something else. */
uint32_t hca_write_header(
    const uint32_t *layout, size_t layout_len,          /* read: 5 to 8 numbers; at most 8 channels */
    const uint8_t *kinds, size_t kinds_len,             /* read: C bytes; judged as in every call, and not written */
    const uint64_t *stream, size_t stream_len,          /* read: 3 numbers, see enum hca_stream */
    const uint64_t *points, size_t points_len,          /* read: none (no loop), or 2 numbers: the loop's start and end, each up
                                                           to 4,294,967,167; later ones are not looked at. Exactly one is
                                                           refusal 2 */
    uint8_t *header, size_t header_len);                /* written: 96 bytes, HCA_HEADER_SIZE */

/* The file header back: accepts exactly what hca_write_header writes, byte for byte, and hands back what it was made from, but for the
   kinds, which no header carries. Looks at the first 96 bytes; the frames may follow. Refuses with 2, 26, 27, 28 or 29, in this order and
   each in a pass over the whole header: 2 for fewer than 96 bytes or a layout or an answer with too few places, 26 for the check, 27
   for names and version, 28 for fields, judged against one another too, 29 for what the writer leaves 0. At a refusal layout stays as it
   was, and answer but for answer[0], which is 0; an answer of fewer than 8 places stays as it was.
   The seven numbers are those that hca_read_frame takes, with kinds of the caller's: 1 to 8 channels, and never refusal 1. Decoders
   derive the kinds as is said at hca_write_header. */
uint32_t hca_read_header(
    const uint8_t *header, size_t header_len,           /* read: 96 bytes, HCA_HEADER_SIZE; a whole file may be lent */
    uint32_t *layout, size_t layout_len,                /* written: 7 numbers, HCA_LAYOUT_FULL_COUNT, see enum hca_layout; those behind
                                                           them stay as they were */
    uint32_t *answer, size_t answer_len);               /* written: 8 places or more, HCA_FILE_COUNT, see enum hca_file */

/* The WAV reader: a take's samples, exact, and their level note. Refuses with 2, 22, 23, 24, 30, 2 or 25 in this order: a
   note or an answer with too few places comes first. At a refusal samples and note stay as they were.
   Samples of 16 bits are divided by 32,768, those of 24 by 8,388,608; 32 bits are floats, bit by bit. A file without a fmt
   chunk before its data has 2 channels, 44,100 Hz, 16 bits. Neither the RIFF size nor the format tag nor the block align is
   looked at, so 32-bit integers are read as floats. Samples that the file's end cuts are dropped: a count of 0 is delivered,
   with a note of 0 and 0. wav_len / 2 places in samples always suffice. */
uint32_t hca_read_wav(
    const uint8_t *wav, size_t wav_len,                 /* read: the whole file */
    float *samples, size_t samples_len,                 /* written: the count's samples, channels interleaved as in the file */
    float *note, size_t note_len,                       /* written: 2 places, see enum hca_note */
    uint32_t *answer, size_t answer_len);               /* written: 4 places or more, see enum hca_take */

/* The list's writer. Refuses with 2 or 21; there is no answer, since nothing is delivered beside the bytes and 0 stands beside
   each refusal. What hca_encode_frame answers is never refused with 21. */
uint32_t hca_list_write(
    uint32_t frames,                                    /* n, any; 0 is a list of nine bytes */
    const uint32_t *entries, size_t entries_len,        /* read: 4n numbers, see enum hca_encoded; those behind them are not
                                                           looked at. Levels up to 511, boundaries to 127, pairs to 63 */
    uint8_t *list, size_t list_len);                    /* written: 9 + 8n bytes, HCA_LIST_SIZE(n) */

/* The list's reader: accepts exactly the lists that hca_list_write writes. Refuses with 2 (a short answer), 19, 20, 2 or 21. */
uint32_t hca_list_read(
    const uint8_t *list, size_t list_len,               /* read: the whole list, and no byte more */
    uint32_t *entries, size_t entries_len,              /* written: 4n numbers; n is at most (list_len - 9) / 8 */
    uint32_t *answer, size_t answer_len);               /* written: 4 places or more; answer[0] is n */

/* One entry of a list, by the frame's number; the first is 0. The whole list is judged first: an entry past a limit, wherever it
   stands, is 21. Refuses with 2, 19, 20, 21 or 31. */
uint32_t hca_list_lookup(
    const uint8_t *list, size_t list_len,               /* read: the whole list, and no byte more */
    uint32_t frame,                                     /* below the list's count */
    uint32_t *answer, size_t answer_len);               /* written: 4 places or more, see enum hca_encoded */

/* A list's summary. Refuses with 2, 19, 20 or 21. */
uint32_t hca_list_summary(
    const uint8_t *list, size_t list_len,               /* read: the whole list, and no byte more */
    uint64_t *answer, size_t answer_len);               /* written: 3 places or more, of 64 bits, see enum hca_summary */

/* The check of any run of bytes: CRC16, polynomial 8005, start 0, high bit first. Over a frame's first F - 2 bytes it
   is what stands in the last two, high byte first; over a whole good frame it is 0. Never refuses; of no bytes it is 0. */
uint16_t hca_checksum(const uint8_t *bytes, size_t bytes_len);

/* The version of the library that is linked, counted as HCA_VERSION_NUMBER, which it equals where header and library belong together.
   Versions before 0.2.0 do not have it. */
uint32_t hca_version(void);

#ifdef __cplusplus
}
#endif

#endif
