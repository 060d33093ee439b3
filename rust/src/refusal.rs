//! Why a call delivered nothing.
use std::fmt;

/// A refusal: document 01's number and the number beside it.
#[derive(Clone, Copy, Debug, PartialEq, Eq, Hash)]
#[non_exhaustive]
pub struct Refusal {
    /// See the constants; [`kind`](Refusal::kind) names it.
    pub number: u32,
    /// An index, a bit, a count of pairs or of bits, as the number has it; else 0.
    pub place: u32,
}

/// The numbers by name, as in `include/hca_frame.h`.
#[rustfmt::skip]
impl Refusal {
    /// The layout is outside its limits. An [`Encoder`](crate::Encoder) never gives it: its layout was checked.
    pub const BAD_LAYOUT: u32 = 1;
    /// A buffer has too few elements for the layout.
    pub const SHORT_BUFFER: u32 = 2;
    /// A secondary's intensity is above 15; `place` is its index.
    pub const BAD_INTENSITY: u32 = 3;
    /// A spectrum value is NaN or infinite; `place` is its index.
    pub const BAD_SPECTRUM: u32 = 4;
    /// No noise level fits, even with bands removed; `place` is how many pairs were.
    pub const NO_LEVEL: u32 = 5;
    /// The fields end past the payload; `place` is the bits that all fields need.
    pub const TOO_LONG: u32 = 7;
    /// The frame's check is wrong.
    pub const WRONG_CHECK: u32 = 8;
    /// The frame does not begin with FFFF.
    pub const WRONG_SYNC: u32 = 9;
    /// A width is not the one that the writer chooses; `place` is the field's bit, as in all that follow.
    pub const BAD_WIDTH: u32 = 11;
    /// An escape was needless, or a factor lies outside 0..63.
    pub const BAD_FACTOR: u32 = 12;
    /// A field would pass the payload's end.
    pub const PAST_END: u32 = 13;
    /// The fill holds a 1.
    pub const FILL_NOT_ZERO: u32 = 14;
    /// The record is not legal; `place` is 0.
    pub const NOT_LEGAL: u32 = 15;
    /// More channels than a file header has, or a number that does not fit its field; `place` is 0.
    pub const BAD_HEADER: u32 = 16;
    /// A magnitude of unmixed spectra is above 65,536; `place` is 0.
    pub const TOO_LOUD: u32 = 17;
    /// A line has more than 65,535 frames, or a count of its tally is above 2^63; `place` is 0.
    pub const BAD_BATCH: u32 = 18;
    /// Under 9 bytes, or no list's mark and version; `place` is 0, as in all of a list's.
    pub const BAD_LIST_MARK: u32 = 19;
    /// A list's length does not match its count.
    pub const BAD_LIST_LENGTH: u32 = 20;
    /// An entry of a list has a level above 511, a boundary above 127 or more than 63 pairs.
    pub const BAD_ENTRY: u32 = 21;
    /// No RIFF/WAVE file, or under 44 bytes; `place` is 0, as in all of a WAV file's.
    pub const NOT_WAVE: u32 = 22;
    /// The file has no data chunk, or an empty one.
    pub const NO_DATA: u32 = 23;
    /// Samples have neither 16, 24 nor 32 bits.
    pub const BAD_DEPTH: u32 = 24;
    /// A float sample is NaN or infinite.
    pub const NOT_FINITE: u32 = 25;
    /// The check of a file header is wrong: damaged bytes, or no header; `place` is 0, as in all of a header's.
    pub const WRONG_HEADER_CHECK: u32 = 26;
    /// A chunk's name or the version is another than the writer writes.
    pub const WRONG_HEADER_NAME: u32 = 27;
    /// A field of a header that the writer writes so for no layout and stream.
    pub const BAD_HEADER_FIELD: u32 = 28;
    /// A header is not 0 where the writer stores nothing.
    pub const HEADER_NOT_ZERO: u32 = 29;
    /// The file has more than 16,777,216 whole samples.
    pub const TOO_MANY: u32 = 30;
    /// A lookup of a frame that the list does not have.
    pub const NO_FRAME: u32 = 31;
}

/// What a refusal is about: its number by a name that a `match` can use.
///
/// ```
/// use hca_frame::{read_frame, Kind, Layout, RefusalKind};
///
/// let layout = Layout::builder().channel(Kind::Discrete).bands(1, 0, 1).frame_size(8).build()?;
/// match read_frame(&layout, &[1; 8]).unwrap_err().kind() {
///     RefusalKind::WrongCheck => println!("the bytes were damaged"),
///     other => panic!("{other:?}"),
/// }
/// # Ok::<(), hca_frame::LayoutError>(())
/// ```
#[derive(Clone, Copy, Debug, PartialEq, Eq, Hash)]
#[non_exhaustive]
#[rustfmt::skip]
pub enum RefusalKind {
    /// [`Refusal::BAD_LAYOUT`].
    BadLayout,
    /// [`Refusal::SHORT_BUFFER`].
    ShortBuffer,
    /// [`Refusal::BAD_INTENSITY`].
    BadIntensity,
    /// [`Refusal::BAD_SPECTRUM`].
    BadSpectrum,
    /// [`Refusal::NO_LEVEL`].
    NoLevel,
    /// [`Refusal::TOO_LONG`].
    TooLong,
    /// [`Refusal::WRONG_CHECK`].
    WrongCheck,
    /// [`Refusal::WRONG_SYNC`].
    WrongSync,
    /// [`Refusal::BAD_WIDTH`].
    BadWidth,
    /// [`Refusal::BAD_FACTOR`].
    BadFactor,
    /// [`Refusal::PAST_END`].
    PastEnd,
    /// [`Refusal::FILL_NOT_ZERO`].
    FillNotZero,
    /// [`Refusal::NOT_LEGAL`].
    NotLegal,
    /// [`Refusal::BAD_HEADER`].
    BadHeader,
    /// [`Refusal::TOO_LOUD`].
    TooLoud,
    /// [`Refusal::BAD_BATCH`].
    BadBatch,
    /// [`Refusal::BAD_LIST_MARK`].
    BadListMark,
    /// [`Refusal::BAD_LIST_LENGTH`].
    BadListLength,
    /// [`Refusal::BAD_ENTRY`].
    BadEntry,
    /// [`Refusal::NOT_WAVE`].
    NotWave,
    /// [`Refusal::NO_DATA`].
    NoData,
    /// [`Refusal::BAD_DEPTH`].
    BadDepth,
    /// [`Refusal::NOT_FINITE`].
    NotFinite,
    /// [`Refusal::WRONG_HEADER_CHECK`].
    WrongHeaderCheck,
    /// [`Refusal::WRONG_HEADER_NAME`].
    WrongHeaderName,
    /// [`Refusal::BAD_HEADER_FIELD`].
    BadHeaderField,
    /// [`Refusal::HEADER_NOT_ZERO`].
    HeaderNotZero,
    /// [`Refusal::TOO_MANY`].
    TooMany,
    /// [`Refusal::NO_FRAME`].
    NoFrame,
    /// A number that this crate has no name for. A later version may have one: match it by `_`.
    Unknown,
}

impl Refusal {
    /// A refusal of this number, with what stands beside it.
    pub const fn new(number: u32, place: u32) -> Self {
        Refusal { number, place }
    }

    /// What the number stands for.
    #[rustfmt::skip]
    pub fn kind(&self) -> RefusalKind {
        match self.number {
            Self::BAD_LAYOUT => RefusalKind::BadLayout,
            Self::SHORT_BUFFER => RefusalKind::ShortBuffer,
            Self::BAD_INTENSITY => RefusalKind::BadIntensity,
            Self::BAD_SPECTRUM => RefusalKind::BadSpectrum,
            Self::NO_LEVEL => RefusalKind::NoLevel,
            Self::TOO_LONG => RefusalKind::TooLong,
            Self::WRONG_CHECK => RefusalKind::WrongCheck,
            Self::WRONG_SYNC => RefusalKind::WrongSync,
            Self::BAD_WIDTH => RefusalKind::BadWidth,
            Self::BAD_FACTOR => RefusalKind::BadFactor,
            Self::PAST_END => RefusalKind::PastEnd,
            Self::FILL_NOT_ZERO => RefusalKind::FillNotZero,
            Self::NOT_LEGAL => RefusalKind::NotLegal,
            Self::BAD_HEADER => RefusalKind::BadHeader,
            Self::TOO_LOUD => RefusalKind::TooLoud,
            Self::BAD_BATCH => RefusalKind::BadBatch,
            Self::BAD_LIST_MARK => RefusalKind::BadListMark,
            Self::BAD_LIST_LENGTH => RefusalKind::BadListLength,
            Self::BAD_ENTRY => RefusalKind::BadEntry,
            Self::NOT_WAVE => RefusalKind::NotWave,
            Self::NO_DATA => RefusalKind::NoData,
            Self::BAD_DEPTH => RefusalKind::BadDepth,
            Self::NOT_FINITE => RefusalKind::NotFinite,
            Self::WRONG_HEADER_CHECK => RefusalKind::WrongHeaderCheck,
            Self::WRONG_HEADER_NAME => RefusalKind::WrongHeaderName,
            Self::BAD_HEADER_FIELD => RefusalKind::BadHeaderField,
            Self::HEADER_NOT_ZERO => RefusalKind::HeaderNotZero,
            Self::TOO_MANY => RefusalKind::TooMany,
            Self::NO_FRAME => RefusalKind::NoFrame,
            _ => RefusalKind::Unknown,
        }
    }
}

impl fmt::Display for Refusal {
    fn fmt(&self, f: &mut fmt::Formatter<'_>) -> fmt::Result {
        let at = self.place;
        write!(f, "refusal {}: ", self.number)?;
        match self.number {
            Self::BAD_LAYOUT => write!(f, "the layout is outside the limits; Layout::builder names the one that is broken"),
            Self::SHORT_BUFFER => write!(f, "a lent buffer is too short; the call's own page has the length of each"),
            Self::BAD_INTENSITY => write!(f, "intensity {at} of a secondary channel is above 15"),
            Self::BAD_SPECTRUM => write!(f, "spectrum {at} is NaN or infinite"),
            Self::NO_LEVEL => write!(f, "no noise level fits, even with {at} pairs of bands removed; raise the frame size"),
            Self::TOO_LONG => write!(f, "the fields need {at} bits, more than the frame has before its check"),
            Self::WRONG_CHECK => write!(f, "the frame's check is wrong: the bytes were damaged, or the frame size is another"),
            Self::WRONG_SYNC => write!(f, "the frame does not begin with FFFF"),
            Self::BAD_WIDTH => write!(f, "the width at bit {at} is not the one that the writer chooses"),
            Self::BAD_FACTOR => write!(f, "the delta at bit {at} is a needless escape or leads outside 0..63"),
            Self::PAST_END => write!(f, "the field at bit {at} would pass the payload's end"),
            Self::FILL_NOT_ZERO => write!(f, "the fill holds a 1 at bit {at}"),
            Self::NOT_LEGAL => write!(f, "the record is not legal: a value is out of range, or not 0 where nothing is written"),
            Self::BAD_HEADER => {
                write!(f, "more than eight channels, or a rate, count, padding or loop point that does not fit the file header")
            }
            Self::TOO_LOUD => write!(f, "a spectrum's magnitude is above 65,536"),
            Self::BAD_BATCH => write!(f, "the line has more than 65,535 frames, or a count of its tally is above 2^63"),
            Self::BAD_LIST_MARK => write!(f, "no list: under 9 bytes, or another mark or version"),
            Self::BAD_LIST_LENGTH => write!(f, "the list's length does not match its frame count"),
            Self::BAD_ENTRY => {
                write!(f, "an entry of the list has a level above 511, a boundary above 127 or more than 63 pairs")
            }
            Self::NOT_WAVE => write!(f, "the file is no RIFF/WAVE file, or shorter than 44 bytes"),
            Self::NO_DATA => write!(f, "the file has no data chunk, or an empty one"),
            Self::BAD_DEPTH => write!(f, "samples have neither 16, 24 nor 32 bits"),
            Self::NOT_FINITE => write!(f, "a float sample is NaN or infinite"),
            Self::WRONG_HEADER_CHECK => write!(f, "the header's check is wrong: the bytes were damaged, or are no header"),
            Self::WRONG_HEADER_NAME => write!(f, "a name or the version of the header is another than the writer writes"),
            Self::BAD_HEADER_FIELD => write!(f, "a field of the header is one that the writer never writes"),
            Self::HEADER_NOT_ZERO => write!(f, "the header is not 0 where the writer stores nothing"),
            Self::TOO_MANY => write!(f, "the file has more than 16,777,216 samples"),
            Self::NO_FRAME => write!(f, "the list has no frame of this number"),
            _ => write!(f, "unknown to this crate, with {at} beside it"),
        }
    }
}

impl std::error::Error for Refusal {}
