//! Outputs: whole or not there. One is written under another name in its folder, and takes its own when it is done.
use crate::identity::{standard_output, Identity};
use crate::input::is_standard;
use crate::options::Name;
use crate::stop::{shown, Stop};
use std::ffi::{OsStr, OsString};
use std::fs::{self, File, OpenOptions};
use std::io::{self, BufWriter, Write};
use std::os::unix::ffi::{OsStrExt, OsStringExt};
use std::path::{Path, PathBuf};
use std::process;

/// The longest name that a file has on Linux.
const LONGEST_NAME: usize = 255;

/// An output that is begun. One that is dropped never was, unless it is standard output.
pub struct Output {
    path: OsString,
    file: BufWriter<File>,
    /// Where it stands until it is whole; none of standard output.
    temporary: Option<Temporary>,
}

struct Temporary {
    path: PathBuf,
    number: u32,
    identity: Identity,
    is_placed: bool,
}

/// What stands under an output's name, as far as that is no fault.
pub enum Target {
    /// No file stands there.
    New,
    /// A regular file, which may be replaced.
    Old(Identity),
}

fn refused(name: Name, path: &OsStr, fault: &str) -> Stop {
    Stop::wrong(format_args!("{}: {} {fault}", name.word(), shown(path)))
}

/// Looks at what stands under the name: the output may take a regular file's place, and nothing else's.
pub fn target(name: Name, path: &OsStr) -> Result<Target, Stop> {
    let failed = |error: io::Error| Stop::failed(shown(path), &error);
    let about = match fs::symlink_metadata(path) {
        // a name that ends with a slash is a folder's, and there is none
        Err(error) if error.kind() == io::ErrorKind::NotFound && !path.as_bytes().ends_with(b"/") => return Ok(Target::New),
        Err(error) => return Err(failed(error)),
        Ok(about) => about,
    };
    if about.is_symlink() {
        return Err(refused(name, path, "is a symbolic link: name the file that it leads to"));
    }
    if about.is_dir() {
        return Err(refused(name, path, "is a folder"));
    }
    if !about.is_file() {
        return Err(refused(name, path, "is no regular file"));
    }
    // one that its owner protects from writing stays
    OpenOptions::new().read(true).write(true).open(path).map_err(failed)?;
    Ok(Target::Old(Identity::of(&about)))
}

/// The folder, with the slash behind it, and the name there.
fn split(path: &OsStr) -> (&[u8], &[u8]) {
    let bytes = path.as_bytes();
    bytes.split_at(bytes.iter().rposition(|&b| b == b'/').map_or(0, |i| i + 1))
}

fn folder(path: &OsStr) -> Option<Identity> {
    let folder = match split(path).0 {
        b"" => OsStr::new("."),
        folder => OsStr::from_bytes(folder),
    };
    fs::metadata(folder).ok().map(|about| Identity::of(&about))
}

/// The longest that a temporary name's end can be: its number has up to ten digits.
const LONGEST_END: usize = ".tmp-4294967295".len();

/// Is there no room behind the name?
fn is_cut(path: &OsStr) -> bool {
    LONGEST_NAME - LONGEST_END < split(path).1.len()
}

/// The name that a file has while it is written: with the number behind it, and cut where it would be too long.
fn temporary_name(path: &OsStr, number: u32) -> PathBuf {
    let (folder, name) = split(path);
    let kept = &name[..name.len().min(LONGEST_NAME - LONGEST_END)];
    PathBuf::from(OsString::from_vec([folder, kept, format!(".tmp-{number}").as_bytes()].concat()))
}

/// What stands before the end of a temporary name of the file.
pub fn temporary_stem(name: &OsStr) -> OsString {
    let bytes = name.as_bytes();
    OsStr::from_bytes(&bytes[..bytes.len().min(LONGEST_NAME - LONGEST_END)]).to_owned()
}

/// The stem of a temporary name; none of another name.
pub fn temporary_of(name: &OsStr) -> Option<OsString> {
    const MARK: &[u8] = b".tmp-";
    let bytes = name.as_bytes();
    let digits = bytes.iter().rev().take_while(|b| b.is_ascii_digit()).count();
    let stem = bytes[..bytes.len() - digits].strip_suffix(MARK).filter(|_| (1..=10).contains(&digits))?;
    Some(OsStr::from_bytes(stem).to_owned())
}

/// Makes a file that was not there before: one with the process's number, or the next that is free.
fn create(path: &OsStr) -> io::Result<(File, Temporary)> {
    let mut number = process::id();
    loop {
        let name = temporary_name(path, number);
        match OpenOptions::new().write(true).create_new(true).open(&name) {
            Ok(file) => {
                let identity = Identity::of(&file.metadata()?);
                return Ok((file, Temporary { path: name, number, identity, is_placed: false }));
            }
            Err(error) if error.kind() == io::ErrorKind::AlreadyExists => number = number.wrapping_add(1),
            Err(error) => return Err(error),
        }
    }
}

impl Output {
    /// Begins the output; its target was looked at before.
    pub fn begin(path: &OsStr) -> Result<Output, Stop> {
        let (file, temporary) = if is_standard(path) {
            (standard_output().map_err(|error| Stop::failed("standard output", &error))?, None)
        } else {
            let (file, temporary) = create(path).map_err(|error| Stop::failed(shown(path), &error))?;
            (file, Some(temporary))
        };
        Ok(Output { path: path.to_owned(), file: BufWriter::with_capacity(1 << 16, file), temporary })
    }

    pub fn is_standard(&self) -> bool {
        self.temporary.is_none()
    }

    /// Would the other output be the same file, under a name that is not there yet? The temporary file tells, whatever the letters are;
    /// of names that were cut for it, the folder and the letters.
    pub fn is_named(&self, other: &OsStr) -> bool {
        let Some(temporary) = &self.temporary else {
            return false;
        };
        if is_cut(&self.path) || is_cut(other) {
            return split(&self.path).1 == split(other).1 && folder(&self.path) == folder(other);
        }
        let about = fs::symlink_metadata(temporary_name(other, temporary.number));
        about.is_ok_and(|about| Identity::of(&about) == temporary.identity)
    }

    pub fn put(&mut self, bytes: &[u8]) -> Result<(), Stop> {
        self.file.write_all(bytes).map_err(|error| self.unwritten(&error))
    }

    /// A writer for what is made in small parts; its fault is told by [`unwritten`](Output::unwritten).
    pub fn writer(&mut self) -> &mut impl Write {
        &mut self.file
    }

    /// No output has its name before all are written, so none is whole then.
    pub fn unwritten(&self, error: &io::Error) -> Stop {
        let mut stop = match self.is_standard() {
            true => Stop::failed("writing", error),
            false => Stop::failed(format_args!("writing {}", shown(&self.path)), error),
        };
        stop.text += "hcaframe: no file is whole\n";
        stop
    }

    /// All that was put is written, and on the disk if it is a file.
    fn settle(&mut self) -> Result<(), Stop> {
        let written = self.file.flush().and_then(|()| match self.temporary {
            Some(_) => self.file.get_ref().sync_all(),
            None => Ok(()),
        });
        written.map_err(|error| self.unwritten(&error))
    }

    /// Gives the file its name.
    fn place(&mut self) -> Result<(), Stop> {
        if let Some(temporary) = &mut self.temporary {
            fs::rename(&temporary.path, Path::new(&self.path)).map_err(|error| Stop::failed(shown(&self.path), &error))?;
            temporary.is_placed = true;
        }
        Ok(())
    }
}

impl Drop for Temporary {
    fn drop(&mut self) {
        if !self.is_placed {
            let _ = fs::remove_file(&self.path);
        }
    }
}

/// Ends the outputs: all are on the disk before the first takes its name. Says the names of the files that are whole now.
pub fn end(mut outputs: Vec<Output>) -> Result<Vec<String>, Stop> {
    let mut whole = Vec::new();
    let settled = outputs.iter_mut().try_for_each(Output::settle);
    let ended = settled.and_then(|()| {
        outputs.iter_mut().try_for_each(|output| {
            output.place()?;
            if !output.is_standard() {
                whole.push(shown(&output.path));
            }
            Ok(())
        })
    });
    match ended {
        Ok(()) => Ok(whole),
        Err(mut stop) => {
            stop.text += &told_whole(&whole);
            Err(stop)
        }
    }
}

/// The lines that name the files that are whole.
pub fn told_whole(whole: &[String]) -> String {
    whole.iter().map(|path| format!("hcaframe: {path} is whole\n")).collect()
}

#[cfg(test)]
mod tests {
    use super::*;

    #[test]
    fn temporary_names_fit_their_folder() {
        assert_eq!(temporary_name(OsStr::new("in/x.hca"), 7), Path::new("in/x.hca.tmp-7"));
        let long = format!("in/{}", "x".repeat(255));
        let name = temporary_name(OsStr::new(&long), 4_294_967_295);
        assert_eq!(name.file_name().unwrap().len(), 255);
        assert!(name.to_str().unwrap().ends_with("x.tmp-4294967295"));
        assert_eq!(temporary_of(name.file_name().unwrap()).unwrap(), temporary_stem(OsStr::new(&long[3..])));
    }

    #[test]
    fn temporary_names_are_known() {
        let stem = |name: &str| temporary_of(OsStr::new(name)).map(|stem| stem.into_string().unwrap());
        assert_eq!(stem("x.hca.tmp-7").as_deref(), Some("x.hca"));
        assert_eq!(stem("x.hca.tmp-4294967295").as_deref(), Some("x.hca"));
        for name in ["x.hca", "x.hca.tmp-", "x.hca.tmp-7a", "x.hca.tmp", "tmp-7", "x.hca.tmp-42949672950"] {
            assert_eq!(stem(name), None, "{name}");
        }
    }
}
