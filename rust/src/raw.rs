//! The C interface as it is: every slice goes over as pointer and length, the
//! library itself judges layouts and lengths, and refuses what it cannot use.
//!
//! `layout` is channels, base, stereo, total, frame size, the lowest and the
//! highest resolution, 1 and 15 where they are missing, and the mode (0 the
//! Rust's, 1 held), 0 where it is missing; `kinds` has one byte a
//! channel (0 discrete, 1 primary, 2 secondary). Each call returns the refusal
//! number, 0 where it delivered; `answer` takes the delivered numbers, or at
//! `[0]` the number beside a refusal.

mod file_header;
mod frame;
mod line;
mod list;
mod record;
mod stereo;
mod version;
mod wav;

pub use file_header::{read_header, write_header};
pub use frame::{checksum, encode_frame};
pub(crate) use line::numbers_of;
pub use line::{encode_line, encode_stereo_line};
pub use list::{list_lookup, list_read, list_summary, list_write};
pub use record::{read_frame, write_record};
pub use stereo::encode_stereo_frame;
pub use version::version;
pub use wav::read_wav;
