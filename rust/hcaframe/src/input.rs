//! Inputs: opened, measured, and read a block at a time.
use crate::identity::{is_kept, standard_input, Identity};
use crate::stop::{shown, Stop};
use std::ffi::{OsStr, OsString};
use std::fs::File;
use std::io::{self, Read, Seek, SeekFrom};
use std::os::unix::fs::FileExt;

/// An open input.
#[derive(Debug)]
pub struct Input {
    path: OsString,
    pub file: File,
    pub identity: Identity,
    /// Its bytes, where they are known before they are read: of a file that is given by its name.
    pub length: Option<u64>,
}

/// Does the name stand for standard input or output?
pub fn is_standard(path: &OsStr) -> bool {
    path == "-"
}

/// Opens an input; - is standard input, as a stream of any length.
pub fn open(path: &OsStr) -> Result<Input, Stop> {
    let failed = |error: io::Error| Stop::failed(if is_standard(path) { "standard input".into() } else { shown(path) }, &error);
    let file = if is_standard(path) { standard_input() } else { File::open(path) }.map_err(failed)?;
    let about = file.metadata().map_err(failed)?;
    if about.is_dir() {
        // EISDIR, as a read of it would say
        return Err(failed(io::Error::from_raw_os_error(21)));
    }
    let mut input = Input { path: path.to_owned(), file, identity: Identity::of(&about), length: None };
    if !is_standard(path) && is_kept(&about) {
        let end = input.file.seek(SeekFrom::End(0)).map_err(failed)?;
        input.file.rewind().map_err(failed)?;
        // the system's own files say 0, whatever they hold
        input.length = Some(end).filter(|&n| n != 0);
    }
    Ok(input)
}

impl Input {
    /// What it is called in a message.
    pub fn shown(&self) -> String {
        match is_standard(&self.path) {
            true => "the input".to_string(),
            false => shown(&self.path),
        }
    }

    /// Ends the call where the file is a whole HCA file. A stream is told by its first frame.
    pub fn holds_frames(&self) -> Result<(), Stop> {
        let mut head = [0; 8];
        match self.length {
            Some(_) if self.file.read_exact_at(&mut head, 0).is_ok() => not_whole_hca(&shown(&self.path), &head),
            _ => Ok(()),
        }
    }
}

/// These bytes do not begin a whole HCA file, with the letters HCA and a zero, or the call ends. A frame begins with FFFF.
pub fn not_whole_hca(name: &str, head: &[u8]) -> Result<(), Stop> {
    if !head.starts_with(b"HCA\0") || head.len() < 8 {
        return Ok(());
    }
    let n = u32::from(u16::from_be_bytes([head[6], head[7]]));
    Err(Stop::wrong(format_args!(
        "{name} is a whole HCA file, with a header of {n} bytes; --frames takes the frames alone.\n\
         hcaframe: read and check take the whole file by --hca FILE, and hcaframe inspect --in FILE tells its layout;\n\
         hcaframe: tail -c +{} FILE takes the frames out.",
        n + 1
    )))
}

/// Reads until the buffer is full or the input ends; says how many bytes were read.
pub fn fill(file: &File, buffer: &mut [u8]) -> io::Result<usize> {
    let (n, result) = fill_part(file, buffer);
    result.map(|()| n)
}

/// The same, with the bytes from before a failure.
fn fill_part(mut file: &File, buffer: &mut [u8]) -> (usize, io::Result<()>) {
    let mut done = 0;
    while done < buffer.len() {
        match file.read(&mut buffer[done..]) {
            Ok(0) => break,
            Ok(n) => done += n,
            Err(error) if error.kind() == io::ErrorKind::Interrupted => {}
            Err(error) => return (done, Err(error)),
        }
    }
    (done, Ok(()))
}

/// What follows the blocks that were read.
pub enum Rest {
    /// More, or the end.
    Unknown,
    End,
    /// The input ended so many bytes after the last whole block.
    Cut(usize),
    /// The file has a block more than it had when it was opened.
    Grown,
    Failed(io::Error),
}

/// An input of blocks, one for each frame.
pub struct Blocks {
    pub input: Input,
    pub size: usize,
    /// As many as the file had when it was opened.
    pub known: Option<u64>,
    /// Said by a header, and not by the file's length.
    pub is_counted: bool,
    /// As many as were read.
    pub done: u64,
}

impl Blocks {
    /// The length, where it is known, must be one of whole blocks.
    pub fn new(input: Input, size: usize) -> Result<Blocks, Stop> {
        let known = input.length.map(|n| n / size as u64);
        if let Some(n) = input.length.filter(|n| n % size as u64 != 0) {
            return Err(Stop::wrong(format_args!(
                "{}: {n} bytes are no whole number of frames of {size} bytes; bytes over: {}",
                input.shown(),
                n % size as u64
            )));
        }
        Ok(Blocks { input, size, known, is_counted: false, done: 0 })
    }

    /// Those behind a header that has been read: exactly as many as it says.
    pub fn counted(input: Input, size: usize, count: u64) -> Blocks {
        Blocks { input, size, known: Some(count), is_counted: true, done: 0 }
    }

    /// Reads as many blocks as the buffer has room for; says how many, and what follows them.
    pub fn read(&mut self, buffer: &mut [u8]) -> (usize, Rest) {
        let room = (buffer.len() / self.size) as u64;
        let count = self.known.map_or(room, |all| room.min(all - self.done)) as usize;
        if count == 0 {
            return (0, self.behind_all());
        }
        let (n, result) = fill_part(&self.input.file, &mut buffer[..count * self.size]);
        let whole = n / self.size;
        self.done += whole as u64;
        let rest = match (result, n % self.size) {
            (Err(error), _) => Rest::Failed(error),
            _ if whole == count => Rest::Unknown,
            (Ok(()), 0) => Rest::End,
            (Ok(()), over) => Rest::Cut(over),
        };
        (whole, rest)
    }

    /// What stands behind the last block of a file of known length.
    fn behind_all(&self) -> Rest {
        match fill(&self.input.file, &mut [0]) {
            Ok(0) => Rest::End,
            Ok(_) => Rest::Grown,
            Err(error) => Rest::Failed(error),
        }
    }

    /// Whether there is more to read; or why the input cannot be taken.
    pub fn goes_on(&self, rest: Rest) -> Result<bool, Stop> {
        let name = self.input.shown();
        match (rest, self.known) {
            (Rest::Unknown, _) => Ok(true),
            (Rest::End, None) => Ok(false),
            (Rest::End, Some(all)) if self.done == all => Ok(false),
            (Rest::End | Rest::Cut(_) | Rest::Grown, Some(all)) if self.is_counted => Err(Stop::wrong(format_args!(
                "{name}: its header counts {all} frames of {} bytes, and it has another size",
                self.size
            ))),
            (Rest::End | Rest::Cut(_), Some(all)) => {
                Err(Stop::wrong(format_args!("{name}: {} of {all} frames; it became shorter while it was read", self.done)))
            }
            (Rest::Grown, all) => {
                let all = all.unwrap_or(self.done);
                Err(Stop::wrong(format_args!("{name}: more than {all} frames; it became longer while it was read")))
            }
            (Rest::Cut(n), None) => {
                Err(Stop::wrong(format_args!("the input ends within frame {}; bytes of it: {n} of {}", self.done, self.size)))
            }
            (Rest::Failed(error), _) => Err(unread(&error)),
        }
    }

    /// An input without a frame is mostly a producer that failed.
    pub fn has_frames(&self, may_be_empty: bool) -> Result<(), Stop> {
        match self.done {
            0 if !may_be_empty => {
                Err(Stop::wrong(format_args!("{} has no frames; where that is meant, say --allow-empty", self.input.shown())))
            }
            _ => Ok(()),
        }
    }

    /// Is nothing left to be read?
    pub fn is_at_end(&self) -> bool {
        matches!(self.behind_all(), Rest::End)
    }
}

/// Of an input that could not be read.
pub fn unread(error: &io::Error) -> Stop {
    Stop::failed("reading", error)
}
