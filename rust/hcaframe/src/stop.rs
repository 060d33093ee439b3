//! Why a call ends before its work is done.
use std::ffi::OsStr;
use std::fmt::Write;
use std::io;
use std::os::unix::ffi::OsStrExt;

/// A status that is not 0, and the lines that go to standard error.
#[derive(Debug)]
pub struct Stop {
    pub status: u8,
    pub text: String,
}

impl Stop {
    /// A frame, a record, a header, a WAV file or a list was refused; the lines are whole.
    pub fn refused(text: String) -> Stop {
        Stop { status: 1, text }
    }

    /// The words or a file were wrong: a line behind the program's name.
    pub fn wrong(text: impl std::fmt::Display) -> Stop {
        Stop { status: 2, text: format!("hcaframe: {text}\n") }
    }

    /// A call of the system failed; the subject is a file, or what was done.
    pub fn failed(subject: impl std::fmt::Display, error: &io::Error) -> Stop {
        Stop::wrong(format_args!("{subject}: {}", reason(error)))
    }
}

/// A word or a name as it is printed: control characters and bytes that are no text are escaped, so that it stays on its line.
pub fn shown(word: impl AsRef<OsStr>) -> String {
    let mut rest = word.as_ref().as_bytes();
    let mut text = String::new();
    while !rest.is_empty() {
        let (good, bad) = match std::str::from_utf8(rest) {
            Ok(all) => (all, 0),
            Err(error) => {
                let end = error.valid_up_to();
                let good = std::str::from_utf8(&rest[..end]).unwrap_or_default();
                (good, error.error_len().unwrap_or(rest.len() - end))
            }
        };
        for letter in good.chars() {
            match letter {
                control if control.is_control() => text.extend(control.escape_default()),
                other => text.push(other),
            }
        }
        let end = good.len() + bad;
        for byte in &rest[good.len()..end] {
            let _ = write!(text, "\\x{byte:02x}");
        }
        rest = &rest[end..];
    }
    text
}

/// What the system says of an error, without its number.
pub fn reason(error: &io::Error) -> String {
    let text = error.to_string();
    match text.find(" (os error ") {
        Some(end) => text[..end].to_string(),
        None => text,
    }
}

/// The error that reading or writing a closed descriptor gives: EBADF has this number on every Linux.
pub fn bad_descriptor() -> io::Error {
    io::Error::from_raw_os_error(9)
}

/// Writes to standard error; where that fails there is nobody to tell.
pub fn complain(text: &str) {
    let _ = io::Write::write_all(&mut io::stderr(), text.as_bytes());
}

#[cfg(test)]
mod tests {
    use super::*;

    #[test]
    fn names_stay_on_their_line() {
        assert_eq!(shown("plain.hca"), "plain.hca");
        assert_eq!(shown("two\nlines\x1b[2J"), "two\\nlines\\u{1b}[2J");
        assert_eq!(shown("Stra\u{df}e"), "Stra\u{df}e");
        assert_eq!(shown(OsStr::from_bytes(b"a\xffb\x80")), "a\\xffb\\x80");
        assert_eq!(shown(OsStr::from_bytes(b"cut\xc3")), "cut\\xc3");
    }

    #[test]
    fn reasons_have_no_number() {
        assert_eq!(reason(&bad_descriptor()), "Bad file descriptor");
        assert_eq!(reason(&io::Error::new(io::ErrorKind::Other, "plain")), "plain");
    }
}
