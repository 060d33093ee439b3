//! The words of the command line and of a layout file, taken into options.
use crate::help::usage;
use crate::input::{open, Input};
use crate::options::{Command, Name, Need, Use, Value, OPTIONS};
use crate::stop::{shown, Stop};
use hca_frame::{Kind, Mode};
use std::ffi::{OsStr, OsString};
use std::io::{self, BufRead, BufReader, Read};
use std::os::unix::ffi::OsStrExt;

/// An option's value.
#[derive(Clone, Debug)]
enum Given {
    Flag,
    Number(u64),
    Kinds(Vec<Kind>),
    Mode(Mode),
    File(OsString),
    Folder(OsString),
    /// A part, and of how many.
    Shard(u64, u64),
}

/// What the words say.
#[derive(Debug)]
pub struct Options {
    pub command: Command,
    values: Vec<Option<Given>>,
    /// Stays open, so that no output can take its place unseen.
    pub layout_file: Option<Input>,
}

impl Options {
    pub fn is_given(&self, name: Name) -> bool {
        self.values[name as usize].is_some()
    }

    /// The number that an option has.
    pub fn number(&self, name: Name) -> Option<u64> {
        match self.values[name as usize] {
            Some(Given::Number(n)) => Some(n),
            _ => None,
        }
    }

    /// The file that an option names.
    pub fn file(&self, name: Name) -> Option<&OsStr> {
        match &self.values[name as usize] {
            Some(Given::File(path)) => Some(path),
            _ => None,
        }
    }

    /// The folder that an option names.
    pub fn folder(&self, name: Name) -> &OsStr {
        match &self.values[name as usize] {
            Some(Given::Folder(path)) => path,
            _ => OsStr::new("."),
        }
    }

    /// The part that is asked for, from 1 on, and the number of parts.
    pub fn shard(&self) -> (u64, u64) {
        match self.values[Name::Shard as usize] {
            Some(Given::Shard(part, of)) => (part, of),
            _ => (1, 1),
        }
    }

    pub fn kinds(&self) -> &[Kind] {
        match &self.values[Name::Kinds as usize] {
            Some(Given::Kinds(kinds)) => kinds,
            _ => &[],
        }
    }

    /// What becomes of a code past its range.
    pub fn mode(&self) -> Mode {
        match self.values[Name::Mode as usize] {
            Some(Given::Mode(mode)) => mode,
            _ => Mode::Rust,
        }
    }

    /// The files that are given, with their options, in the order of the table.
    pub fn files(&self) -> impl Iterator<Item = (Name, &OsStr)> {
        OPTIONS.iter().filter_map(|row| self.file(row.name).map(|path| (row.name, path)))
    }

    /// Does the option name a file that is written?
    pub fn is_output(&self, name: Name) -> bool {
        name.of_command(self.command).is_some_and(|one| one.value == Value::Output)
    }

    /// A fault of an option, with how the command is called.
    pub fn fault(&self, name: Name, fault: &str) -> Stop {
        Stop::wrong(format_args!("{}{fault}\n{}", name.word(), usage(Some(self.command)).trim_end()))
    }
}

/// Does a word stand where an option would, and ask for help? An option's value does not.
pub fn asks_for_help(command: Option<Command>, words: &[OsString]) -> bool {
    let mut is_value = false;
    for word in words {
        let word = word.as_bytes();
        if !is_value && (word == b"--help" || word == b"-h") {
            return true;
        }
        is_value = !is_value && command.is_some_and(|command| takes_next(command, word));
    }
    false
}

/// Is the next word this option's value?
fn takes_next(command: Command, word: &[u8]) -> bool {
    let value = Name::of(word).and_then(|name| name.of_command(command)).map(|one| one.value);
    value.is_some_and(|value| value != Value::Nothing)
}

/// One parser takes the words of the command line and those of a layout file.
struct Parser {
    options: Options,
    /// The option whose value is the next word.
    waiting: Option<Name>,
    /// The layout file, and the line of the word at hand.
    place: Option<(String, u64)>,
}

/// The words of a command, from wherever they come.
pub fn parse(command: Command, words: &[OsString]) -> Result<Options, Stop> {
    let values = OPTIONS.iter().map(|_| None).collect();
    let mut parser = Parser { options: Options { command, values, layout_file: None }, waiting: None, place: None };
    for word in words {
        parser.take_word(word)?;
    }
    parser.close()?;
    if let Some(path) = parser.options.file(Name::Layout).map(OsStr::to_owned) {
        parser.take_file(&path)?;
    }
    let options = parser.options;
    complete(&options)?;
    Ok(options)
}

impl Parser {
    fn refuse(&self, text: String) -> Stop {
        let place = self.place.as_ref().map_or(String::new(), |(path, line)| format!("{path}, line {line}: "));
        Stop::wrong(format_args!("{place}{text}\n{}", usage(Some(self.options.command)).trim_end()))
    }

    fn refuse_value(&self, name: Name, word: &OsStr, fault: &str) -> Stop {
        self.refuse(format!("{}: {}{fault}", name.word(), shown(word)))
    }

    fn take_word(&mut self, word: &OsStr) -> Result<(), Stop> {
        match self.waiting.take() {
            Some(name) => self.take_value(name, word),
            None => self.take_option(word),
        }
    }

    /// How the option of this name is taken here. A layout file has the words of a layout alone.
    fn use_of(&self, word: &OsStr) -> Result<(Name, &'static Use), Stop> {
        let refuse = |fault: &str| Err(self.refuse(format!("{}{fault}", shown(word))));
        let Some(name) = Name::of(word.as_bytes()) else {
            return refuse(" is an unknown word");
        };
        let Some(one) = name.of_command(self.options.command).filter(|_| self.place.is_none() || name.is_of_layout()) else {
            return refuse(" is not for this command or this file");
        };
        if self.options.is_given(name) {
            return refuse(" is given twice");
        }
        Ok((name, one))
    }

    /// An option, with the value that stands behind its =, or that comes next.
    fn take_option(&mut self, word: &OsStr) -> Result<(), Stop> {
        let bytes = word.as_bytes();
        if let Some(name) = self.options.command.bare().filter(|_| !bytes.starts_with(b"-") || bytes == b"-") {
            return match self.options.is_given(name) {
                true => Err(self.refuse(format!("{} is a second file", shown(word)))),
                false => self.take_value(name, word),
            };
        }
        let end = bytes.iter().position(|&b| b == b'=').unwrap_or(bytes.len());
        let (name, one) = self.use_of(OsStr::from_bytes(&bytes[..end]))?;
        if end < bytes.len() {
            return self.take_value(name, OsStr::from_bytes(&bytes[end + 1..]));
        }
        match one.value {
            Value::Nothing => self.options.values[name as usize] = Some(Given::Flag),
            _ => self.waiting = Some(name),
        }
        Ok(())
    }

    fn take_value(&mut self, name: Name, word: &OsStr) -> Result<(), Stop> {
        let value = name.of_command(self.options.command).map_or(Value::Nothing, |one| one.value);
        let given = match value {
            Value::Number => match spelt_number(word.as_bytes()) {
                Some(n) => Given::Number(n),
                None => return Err(self.refuse_value(name, word, " is not a number of up to eighteen digits")),
            },
            Value::Kinds => match spelt_kinds(word.as_bytes()) {
                Ok(kinds) => Given::Kinds(kinds),
                Err(fault) => return Err(self.refuse_value(name, word, fault)),
            },
            Value::Mode => match word.as_bytes() {
                b"rust" => Given::Mode(Mode::Rust),
                b"held" => Given::Mode(Mode::Held),
                _ => return Err(self.refuse_value(name, word, " is no mode; the modes are rust and held")),
            },
            Value::Shard => match spelt_shard(word.as_bytes()) {
                Some((part, of)) => Given::Shard(part, of),
                None => return Err(self.refuse_value(name, word, " is not K/N with K from 1 to N")),
            },
            Value::Nothing => return Err(self.refuse(format!("{} has no value", name.word()))),
            Value::Folder if word.is_empty() => return Err(self.refuse(format!("{} names no folder", name.word()))),
            Value::Folder => Given::Folder(word.to_owned()),
            Value::Input | Value::Output if word.is_empty() => {
                return Err(self.refuse(format!("{} names no file", name.word())));
            }
            Value::Input | Value::Output => Given::File(word.to_owned()),
        };
        self.options.values[name as usize] = Some(given);
        Ok(())
    }

    /// Nothing may wait for its value.
    fn close(&mut self) -> Result<(), Stop> {
        match self.waiting {
            Some(name) => Err(self.refuse(format!("{}: its value is missing", name.word()))),
            None => Ok(()),
        }
    }

    /// The lines of a layout file. One that begins with # is a comment.
    fn take_file(&mut self, path: &OsStr) -> Result<(), Stop> {
        let input = open(path)?;
        let mut lines = BufReader::new(&input.file);
        let mut line = Vec::new();
        for number in 1.. {
            line.clear();
            let n = next_line(&mut lines, &mut line).map_err(|error| Stop::failed(shown(path), &error))?;
            if n == 0 {
                break;
            }
            if line[0] != b'#' {
                self.take_line(path, number, line.strip_suffix(b"\n").unwrap_or(&line))?;
            }
        }
        self.close()?;
        self.place = None;
        self.options.layout_file = Some(input);
        Ok(())
    }

    fn take_line(&mut self, path: &OsStr, number: u64, line: &[u8]) -> Result<(), Stop> {
        for word in line.split(|b| b" \t\r".contains(b)).filter(|word| !word.is_empty()) {
            self.place = Some((shown(path), number));
            self.take_word(OsStr::from_bytes(word))?;
        }
        Ok(())
    }
}

/// No line of a layout is as long as this: what has such a line is another file, or never ends.
const LONGEST_LINE: u64 = 65_536;

fn next_line(lines: &mut impl BufRead, line: &mut Vec<u8>) -> io::Result<usize> {
    let n = lines.take(LONGEST_LINE).read_until(b'\n', line)?;
    if n as u64 == LONGEST_LINE {
        return Err(io::Error::new(io::ErrorKind::InvalidData, "it has a line of 65536 bytes, so it is no layout"));
    }
    Ok(n)
}

/// The number that a word spells in decimal digits, below 10^18.
fn spelt_number(word: &[u8]) -> Option<u64> {
    if word.is_empty() {
        return None;
    }
    word.iter().try_fold(0_u64, |n, b| match b {
        b'0'..=b'9' if n < 100_000_000_000_000_000 => Some(10 * n + u64::from(b - b'0')),
        _ => None,
    })
}

/// K/N, with K from 1 to N.
fn spelt_shard(word: &[u8]) -> Option<(u64, u64)> {
    let at = word.iter().position(|&b| b == b'/')?;
    let (part, of) = (spelt_number(&word[..at])?, spelt_number(&word[at + 1..])?);
    (1..=of).contains(&part).then_some((part, of))
}

/// A letter a channel; or what is wrong with them.
fn spelt_kinds(word: &[u8]) -> Result<Vec<Kind>, &'static str> {
    let kind = |letter: &u8| match letter {
        b'D' => Some(Kind::Discrete),
        b'P' => Some(Kind::StereoPrimary),
        b'S' => Some(Kind::StereoSecondary),
        _ => None,
    };
    let Some(kinds) = word.iter().map(kind).collect::<Option<Vec<Kind>>>() else {
        return Err(" has another letter than D, P and S");
    };
    match kinds.len() {
        0 => Err("it has no letter"),
        1..=16 => Ok(kinds),
        _ => Err(" has more than 16 letters"),
    }
}

/// Everything that the command needs must be there, and nothing without what belongs to it.
fn complete(options: &Options) -> Result<(), Stop> {
    let is_whole = options.is_given(Name::Hca);
    for row in &OPTIONS {
        if is_whole && row.name.is_in_header() && options.is_given(row.name) {
            return Err(options.fault(row.name, " is given, and --hca in its place too"));
        }
        let is_needed = row.name.of_command(options.command).is_some_and(|one| one.need == Need::Needed);
        let is_needed = is_needed && !(is_whole && row.name.is_of_layout());
        if is_needed && !options.is_given(row.name) {
            let is_bare = row.name.is_of_layout() && !options.is_given(Name::Layout);
            let more = if is_bare { "; a file with the words of a layout is --layout FILE" } else { "" };
            return Err(options.fault(row.name, &format!(" is missing{more}")));
        }
    }
    OPTIONS.iter().try_for_each(|row| belongs(options, row.name))
}

/// Of an option that depends on another one.
fn belongs(options: &Options, name: Name) -> Result<(), Stop> {
    let need = name.of_command(options.command).map(|one| one.need);
    match need {
        Some(Need::Either(other)) => match (options.is_given(name), options.is_given(other)) {
            (true, true) => Err(options.fault(name, &format!(" is given, and {} in its place too", other.word()))),
            (false, false) => Err(options.fault(name, &format!(" is missing, or {} in its place", other.word()))),
            _ => Ok(()),
        },
        Some(Need::With(other)) if options.is_given(name) && !options.is_given(other) => {
            Err(options.fault(name, &format!(" is given without {}", other.word())))
        }
        _ => Ok(()),
    }
}

#[cfg(test)]
mod tests {
    use super::*;

    fn words(text: &str) -> Vec<OsString> {
        text.split(' ').map(OsString::from).collect()
    }

    #[test]
    fn numbers_of_eighteen_digits() {
        assert_eq!(spelt_number(b"0"), Some(0));
        assert_eq!(spelt_number(b"00000000000000000000000417"), Some(417));
        assert_eq!(spelt_number(b"999999999999999999"), Some(999_999_999_999_999_999));
        for word in [&b""[..], b"-1", b"+1", b"4x", b"1000000000000000000"] {
            assert_eq!(spelt_number(word), None);
        }
    }

    #[test]
    fn parts() {
        assert_eq!(spelt_shard(b"2/3"), Some((2, 3)));
        assert_eq!(spelt_shard(b"1/1"), Some((1, 1)));
        for word in [&b"0/3"[..], b"4/3", b"3", b"/3", b"1/", b"1/2/3", b"-1/3", b"1/0"] {
            assert_eq!(spelt_shard(word), None);
        }
    }

    #[test]
    fn a_take_without_its_word() {
        let parsed = |line: &str| parse(Command::Convert, &words(line));
        let file = |line: &str| parsed(line).unwrap().file(Name::In).map(OsStr::to_owned);
        assert_eq!(file("x.wav --bitrate 48000 --out y").unwrap(), "x.wav");
        assert_eq!(file("--bitrate 48000 --out=y -").unwrap(), "-");
        assert_eq!(file("--in --x --bitrate 48000 --out y").unwrap(), "--x");
        assert!(parsed("x.wav z.wav --bitrate 48000 --out y")
            .unwrap_err()
            .text
            .starts_with("hcaframe: z.wav is a second file\n"));
        assert!(parsed("-x --bitrate 48000 --out y").unwrap_err().text.starts_with("hcaframe: -x is an unknown word\n"));
    }

    #[test]
    fn help_is_no_value() {
        let asks = |text: &str| asks_for_help(Some(Command::Encode), &words(text));
        assert!(asks("--quiet -h"));
        assert!(asks("--loud --help"));
        assert!(asks("--spectra x -h"));
        assert!(!asks("--spectra -h"));
        assert!(!asks("--spectra --help --out -h"));
        assert!(!asks("--spectra=-h"));
        assert!(asks_for_help(None, &words("mix -h")));
    }

    #[test]
    fn one_of_two_and_both_of_two() {
        let text = |command, line: &str| parse(command, &words(line)).unwrap_err().text;
        let layout = "--kinds D --base 1 --stereo 0 --total 1 --frame-size 8";
        assert!(text(Command::Encode, &format!("{layout} --out x")).starts_with("hcaframe: --spectra is missing, or --unmixed"));
        let header = format!("{layout} --rate 1 --count 1 --padding 0 --out x");
        assert!(parse(Command::Header, &words(&header)).is_ok());
        let one = format!("{header} --loop-end 0");
        assert!(text(Command::Header, &one).starts_with("hcaframe: --loop-end is given without --loop-start\nusage: "));
        let other = format!("{header} --unchecked");
        assert!(text(Command::Header, &other).starts_with("hcaframe: --unchecked is given without --frames\n"));
    }
}
