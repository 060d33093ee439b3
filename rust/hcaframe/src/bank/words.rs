//! With which words the files of a bank were made. Each call adds a line for every take that it made, once its files are there, to a file of its own
//! in the output folder, and writes that file anew at its end. A line holds for the two files that it was written of and for no others: it
//! has their times and lengths. So a line that is cut, lost or old does no harm; its take is made again.
use crate::output::{self, Output};
use crate::stop::{reason, shown, Stop};
use std::collections::BTreeMap;
use std::fmt::Write as _;
use std::fs::{self, File, Metadata, OpenOptions};
use std::io::{self, Read, Seek, SeekFrom, Write};
use std::os::unix::ffi::OsStrExt;
use std::os::unix::fs::MetadataExt;
use std::path::{Path, PathBuf};

/// Of the words file without parts.
const NAME: &str = "bank";
const END: &str = ".words";

/// A file's time of change and its length, as a line has them.
pub fn stamp(file: &Metadata) -> String {
    format!("{}.{:09}+{}", file.mtime(), file.mtime_nsec(), file.len())
}

/// A name in a line: what could end the line or its field is escaped, each name in its own way.
fn escaped(name: &Path) -> String {
    let mut text = String::new();
    for &byte in name.as_os_str().as_bytes() {
        match byte {
            b'\\' | 0..=0x1F | 0x7F.. => {
                let _ = write!(text, "\\x{byte:02x}");
            }
            plain => text.push(plain.into()),
        }
    }
    text
}

/// What stands in a line beside the name.
#[derive(Clone, Debug, PartialEq, Eq)]
struct Line {
    stamps: [String; 2],
    words: String,
}

impl Line {
    fn text(&self, name: &str) -> String {
        format!("{}\t{}\t{}\t{name}\n", self.stamps[0], self.stamps[1], self.words)
    }
}

fn parsed(line: &str) -> Option<(String, Line)> {
    let mut fields = line.split('\t');
    let [hca, list, words, name] = [fields.next()?, fields.next()?, fields.next()?, fields.next()?];
    let line = Line { stamps: [hca.to_string(), list.to_string()], words: words.to_string() };
    fields.next().is_none().then(|| (name.to_string(), line))
}

/// How the two files of a take were made, as far as a line tells.
#[derive(Debug, PartialEq, Eq)]
pub enum Before {
    Same,
    Other(String),
    Unknown,
}

/// What is known before the work, and the file that the work's lines go to.
pub struct Words {
    words: String,
    path: PathBuf,
    known: BTreeMap<String, Vec<Line>>,
    own: BTreeMap<String, Line>,
    file: File,
    is_changed: bool,
}

impl Words {
    /// Reads every words file of the folder, and opens the one of this part.
    pub fn open(folder: &Path, words: String, (part, of): (u64, u64)) -> Result<Words, Stop> {
        let name = if of == 1 { format!("{NAME}{END}") } else { format!("{NAME}-{part}-of-{of}{END}") };
        let path = folder.join(name);
        let failed = |error: io::Error| Stop::failed(shown(&path), &error);
        let mut known: BTreeMap<String, Vec<Line>> = BTreeMap::new();
        for other in files(folder).map_err(|error| Stop::failed(shown(folder), &error))? {
            for (name, line) in lines(&other).map_err(|error| Stop::failed(shown(&other), &error))? {
                known.entry(name).or_default().push(line);
            }
        }
        let own = match path.exists() {
            true => lines(&path).map_err(failed)?.into_iter().collect(),
            false => BTreeMap::new(),
        };
        let file = append_to(&path).map_err(failed)?;
        Ok(Words { words, path, known, own, file, is_changed: false })
    }

    /// How the files with these stamps were made.
    pub fn before(&self, name: &Path, stamps: &[String; 2]) -> Before {
        let lines = self.known.get(&escaped(name)).map_or(&[][..], |lines| lines);
        match lines.iter().rev().find(|line| line.stamps == *stamps) {
            None => Before::Unknown,
            Some(line) if line.words == self.words => Before::Same,
            Some(line) => Before::Other(line.words.clone()),
        }
    }

    /// The take's files were made with this call's words.
    pub fn add(&mut self, name: &Path, stamps: [String; 2]) -> Result<(), Stop> {
        let (name, line) = (escaped(name), Line { stamps, words: self.words.clone() });
        let written = self.file.write_all(line.text(&name).as_bytes());
        self.own.insert(name, line);
        self.is_changed = true;
        written.map_err(|error| Stop::wrong(format_args!("writing {}: {}", shown(&self.path), reason(&error))))
    }

    /// One line a take, by name, in the place of all that was added.
    pub fn end(self) -> Result<(), Stop> {
        if !self.is_changed {
            return Ok(());
        }
        let mut output = Output::begin(self.path.as_os_str())?;
        for (name, line) in &self.own {
            output.put(line.text(name).as_bytes())?;
        }
        output::end(vec![output]).map(|_| ())
    }

    pub fn path(&self) -> &Path {
        &self.path
    }
}

/// A line that was cut gets its end, so that the next one is whole.
fn append_to(path: &Path) -> io::Result<File> {
    let mut file = OpenOptions::new().read(true).append(true).create(true).open(path)?;
    let mut last = [b'\n'];
    if 0 < file.seek(SeekFrom::End(0))? {
        file.seek(SeekFrom::End(-1))?;
        file.read_exact(&mut last)?;
    }
    if last != *b"\n" {
        file.write_all(b"\n")?;
    }
    Ok(file)
}

/// Is it the name of a words file?
pub fn is_words_file(name: &[u8]) -> bool {
    name.starts_with(NAME.as_bytes()) && name.ends_with(END.as_bytes())
}

fn files(folder: &Path) -> io::Result<Vec<PathBuf>> {
    let mut files = Vec::new();
    for entry in fs::read_dir(folder)? {
        let entry = entry?;
        if is_words_file(entry.file_name().as_bytes()) && entry.file_type()?.is_file() {
            files.push(entry.path());
        }
    }
    Ok(files)
}

fn lines(path: &Path) -> io::Result<Vec<(String, Line)>> {
    let text = String::from_utf8_lossy(&fs::read(path)?).into_owned();
    Ok(text.lines().filter_map(parsed).collect())
}

#[cfg(test)]
mod tests {
    use super::*;
    use std::ffi::OsStr;

    #[test]
    fn names_are_told_apart() {
        let name = |bytes: &[u8]| escaped(Path::new(OsStr::from_bytes(bytes)));
        assert_eq!(name(b"sub/a b.wav"), "sub/a b.wav");
        assert_eq!(name(b"a\tb\nc\\x09"), "a\\x09b\\x0ac\\x5cx09");
        assert_eq!(name("\u{e4}".as_bytes()), "\\xc3\\xa4");
    }

    #[test]
    fn lines_are_read_back() {
        let line = Line { stamps: ["1.000000002+3".into(), "4.000000005+6".into()], words: "hcaframe 0 --bitrate 9".into() };
        let text = line.text("x/a.wav");
        assert_eq!(parsed(text.trim_end()), Some(("x/a.wav".to_string(), line)));
        assert_eq!(parsed("1.000000002+3\t4.0000"), None);
        assert_eq!(parsed(""), None);
        assert_eq!(parsed("a\tb\tc\td\te"), None);
    }

    #[test]
    fn names_of_words_files() {
        assert!(is_words_file(b"bank.words") && is_words_file(b"bank-2-of-3.words"));
        assert!(!is_words_file(b"bank.words.tmp-7") && !is_words_file(b"my.words"));
    }
}
