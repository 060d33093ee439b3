//! Which file a name or a descriptor stands for, and whether standard input and output are there.
use crate::stop::bad_descriptor;
use std::fs::{self, File, Metadata};
use std::io::{self, Read, Write};
use std::os::fd::AsFd;
use std::os::unix::fs::{FileTypeExt, MetadataExt};

/// A file's device and its number there: the same for every name that the file has.
#[derive(Clone, Copy, Debug, PartialEq, Eq)]
pub struct Identity {
    device: u64,
    number: u64,
}

impl Identity {
    pub fn of(file: &Metadata) -> Identity {
        Identity { device: file.dev(), number: file.ino() }
    }
}

/// Does writing to one of its descriptors change what another one reads? Not of a pipe, a terminal and the like.
pub fn is_kept(file: &Metadata) -> bool {
    file.is_file() || file.file_type().is_block_device()
}

/// Is it the null device? Where the caller closed one of the descriptors 0 to 2, Rust's start-up has opened that device in its place,
/// for reading and writing, so that no file gets the number. As an input or an output it counts as closed if it is open both ways.
fn is_null(file: &File) -> bool {
    let (Ok(this), Ok(null)) = (file.metadata(), fs::metadata("/dev/null")) else {
        return false;
    };
    this.file_type().is_char_device() && this.rdev() == null.rdev()
}

/// Standard input, unless it is closed. What is read here is read from where it stands.
pub fn standard_input() -> io::Result<File> {
    let file = File::from(io::stdin().as_fd().try_clone_to_owned()?);
    if is_null(&file) && (&file).write(&[]).is_ok() {
        return Err(bad_descriptor());
    }
    Ok(file)
}

/// Standard output, unless it is closed.
pub fn standard_output() -> io::Result<File> {
    let file = File::from(io::stdout().as_fd().try_clone_to_owned()?);
    if is_null(&file) && (&file).read(&mut [0]).is_ok() {
        return Err(bad_descriptor());
    }
    Ok(file)
}

/// The file that standard output is, where it is one that an input or an output could be too.
pub fn standard_output_file() -> Option<Identity> {
    let about = standard_output().ok()?.metadata().ok()?;
    is_kept(&about).then(|| Identity::of(&about))
}
