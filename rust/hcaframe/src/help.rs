//! How each command is called and what it takes, made from the table of options.
use crate::options::{Command, Name, Need, Row, Use, Value, OPTIONS};
use std::fmt::Write;

/// What all commands do, in short.
const COMMANDS: &str = "\
encode makes frames from spectra, read tells what frames hold, write makes frames from records,
check tells which frames are good, header makes the header of an HCA file or the whole file, inspect tells what a header says,
wav reads a WAV file, list tells what a list of frames holds, convert makes an HCA file of a WAV file, bank makes one of
each WAV file in a folder. More: hcaframe COMMAND --help; hcaframe --version
";

const LAYOUT: &str = "\
LAYOUT is --kinds PS --base 40 --stereo 60 --total 117 --frame-size 512:
  --kinds       a letter a channel, 1 to 16 of them: D discrete, P stereo primary, S stereo secondary
  --base, --stereo, --total   counts of bands; total is 1 to 128, base and stereo together at most total
  --frame-size  bytes of a frame, 8 to 65535
  --minimum, --maximum   the lowest and the highest resolution of a band that is not silent, within 1 to 15; 1 and 15 where
                they are not given. They say how coarsely and how finely a band may be coded; frames are read with the two
                that they were made with, and the header of a file carries them
  --mode        rust: frames byte for byte as the published encoder makes them, the default; held: below resolution 8 no code
                leaves its range, so that every frame is read back as it was meant. No frame and no header says which; frames
                of either are read and written with either
or --layout FILE, a text file with these words; a line that begins with # is a comment.
";

/// Of the files of every command, and of the status.
const FILES: &str = "\
Every option is --option VALUE or --option=VALUE; --quiet has no value and keeps standard output empty.
- as FILE is standard input or output. With - as the output, the text goes to standard error, and what was written
before a refusal stays written.
An output is a new file or takes the place of a regular file, never of a link, a folder or a device, and none of the
call's files may be another one of them. It is written as FILE.tmp-NUMBER, the process's or the next free one, and takes
its name, with the mode of a new file, when it is whole. A run that is ended from outside can leave FILE.tmp-NUMBER behind.
Status: 0 all is well, 1 a frame, a record, a header, a WAV file or a list was refused, 2 the words or a file were wrong.
A closed pipe ends the text, not the work. Where standard output is full or closed, the status is 2, and what is whole is said.
";

/// What is proved of a conversion and what is not is said here and nowhere else in the help.
const CONVERT: &str = "\
Makes the HCA file of a WAV file. The word --in may be left out. The published encoder chooses the layout for the bit rate.
Proved: reading the WAV file, mixing pairs, each frame, the header and the list are calls of the proved library. Not proved:
the layout's choice, the number of frames and the MDCT, which are taken from the published encoder's source; runs show that with
resolutions 1 to 15 and the mode rust, which are its own, the file is that of its encode_wav_to_hca, byte for byte. What it takes
and convert refuses: samples that are NaN or infinite (refusal 25), of other depths than 16, 24 and 32 bits (24), more than
16777216 of them (30), and a loop that does not lie within the take (status 2). Samples beyond -1 and 1 are clipped, as there; so
refusal 17 does not come. Not here: a cipher.
";

const BANK: &str = "\
Makes the HCA file and the list of each take in a folder, by what convert does and with the same bytes, whatever the jobs.
A take that is refused is told with its reason, and the others go on. One is skipped whose files are newer than it and were made
with the same words, as bank.words in the output folder says; so a run that was cut off goes on, and what it left behind of its
own takes is removed. Links to folders are not followed. Two runs at a time share a folder by --shard, and not without it.
The end tells takes done, skipped and refused, their frames, bytes and highest level, and those of which bands were removed.
";

/// What a command does.
fn purpose(command: Command) -> &'static str {
    match command {
        Command::Encode => {
            "Makes frames from spectra, and tells each frame's level, boundary, pairs of bands removed and bits.\n"
        }
        Command::Read => {
            "Reads frames strictly and tells what each holds: level, boundary, bits, factors, side values, codes.\n"
        }
        Command::Write => "Writes records as frames, and tells each frame's level, boundary and bits.\n",
        Command::Check => "Reads every frame strictly and tells which are good. It writes no file.\n",
        Command::Header => {
            "Makes the header of an HCA file, 96 bytes; with --frames the whole file. A header has at most 8 channels. It carries\n\
             no kinds: decoders derive them, so the layout's kinds are D for one channel; with stereo bands PS, PSD, PSPS, PSDPS,\n\
             PSDDPS, PSDDPSD and PSDDPSPS for 2 to 8 channels; without them D for each.\n"
        }
        Command::Inspect => {
            "Reads the header of an HCA file strictly and tells its fields, a loop as frames and as samples of the input. Taken is\n\
             what hcaframe header and convert write, and nothing else. A header carries no kinds; those that decoders derive are told.\n"
        }
        Command::Wav => {
            "Reads a WAV file of up to 1073741824 bytes and tells its channels, rate, depth and samples, and the peak and the mean\n\
             of the magnitudes of all samples: six decimals, rounded, and the float's pattern in hex.\n"
        }
        Command::Convert => CONVERT,
        Command::Bank => BANK,
        Command::List => {
            "Tells the numbers of each frame that a list holds, and the highest level, the most pairs removed and all bits.\n"
        }
    }
}

/// An option with the word for its value.
fn call(row: &Row, one: &Use) -> String {
    match one.value {
        Value::Nothing => row.word.to_string(),
        Value::Number => format!("{} N", row.word),
        Value::Shard => format!("{} K/N", row.word),
        Value::Folder => format!("{} FOLDER", row.word),
        Value::Kinds => format!("{} KINDS", row.word),
        Value::Mode => format!("{} rust|held", row.word),
        Value::Input | Value::Output => format!("{} FILE", row.word),
    }
}

/// The option that belongs to this one in the same way, as this one to it.
fn partner(command: Command, name: Name) -> Option<Name> {
    let other_of = |name: Name| match name.of_command(command)?.need {
        Need::Either(other) | Need::With(other) => Some(other),
        _ => None,
    };
    other_of(name).filter(|&other| other_of(other) == Some(name))
}

fn called(command: Command, name: Name) -> Option<String> {
    name.of_command(command).map(|one| call(&OPTIONS[name as usize], one))
}

/// The options that may stand beside this one alone.
fn beside(command: Command, name: Name) -> Vec<Name> {
    OPTIONS
        .iter()
        .filter(|row| row.of(command).is_some_and(|one| one.need == Need::With(name)))
        .filter(|row| partner(command, row.name).is_none())
        .map(|row| row.name)
        .collect()
}

/// One option of the usage line; none where another one brings it along.
fn piece(command: Command, row: &Row, one: &Use) -> Option<String> {
    let this = call(row, one);
    if let Some(other) = partner(command, row.name) {
        let both = (this, called(command, other)?);
        let is_first = (row.name as usize) < other as usize;
        return is_first.then(|| match one.need {
            Need::Either(_) => format!("({} | {})", both.0, both.1),
            _ => format!("[{} {}]", both.0, both.1),
        });
    }
    match one.need {
        Need::Needed => Some(this),
        Need::With(_) | Need::Either(_) => None,
        Need::Optional => {
            let inner = beside(command, row.name).into_iter().filter_map(|name| called(command, name));
            Some(format!("[{this}{}]", inner.map(|call| format!(" [{call}]")).collect::<String>()))
        }
    }
}

/// Is the option told of by the word LAYOUT?
fn is_in_layout(command: Command, name: Name) -> bool {
    command.takes_layout() && (name.is_of_layout() || name == Name::Layout)
}

impl Row {
    fn of(&self, command: Command) -> Option<&'static Use> {
        self.name.of_command(command)
    }
}

/// The line that says how a command is called.
pub fn usage(command: Option<Command>) -> String {
    let Some(command) = command else {
        let words: Vec<&str> = Command::ALL.iter().map(|command| command.word()).collect();
        return format!("usage: hcaframe {} .. ; hcaframe --help\n", words.join(" | "));
    };
    let mut line = format!("usage: hcaframe {}", command.word());
    let is_whole = Name::Hca.of_command(command).is_some();
    if is_whole {
        line.push_str(" (LAYOUT --frames FILE | --hca FILE [--kinds KINDS])");
    } else if command.takes_layout() {
        line.push_str(" LAYOUT");
    }
    if let Some(name) = command.bare() {
        let _ = write!(line, " [{}] FILE", name.word());
    }
    let is_said = |name| {
        is_in_layout(command, name) || command.bare() == Some(name) || (is_whole && [Name::Frames, Name::Hca].contains(&name))
    };
    for row in OPTIONS.iter().filter(|row| !is_said(row.name)) {
        if let Some(text) = row.of(command).and_then(|one| piece(command, row, one)) {
            let _ = write!(line, " {text}");
        }
    }
    line + "\n"
}

/// The lines of one option.
fn described(command: Command, row: &Row) -> String {
    let Some(one) = row.of(command).filter(|one| !one.help.is_empty()) else {
        return String::new();
    };
    let text = one.help.replace('\n', "\n                ");
    match partner(command, row.name).filter(|_| matches!(one.need, Need::With(_))) {
        Some(other) => format!("  {}, {}   {text}\n", row.word, other.word()),
        None => format!("  {:<13} {text}\n", row.word),
    }
}

/// The lines of every option of a command, one that stands beside another directly behind it.
fn descriptions(command: Command) -> String {
    let mut text = String::new();
    for row in OPTIONS.iter().filter(|row| !is_in_layout(command, row.name)) {
        let Some(one) = row.of(command) else { continue };
        if matches!(one.need, Need::With(_)) && partner(command, row.name).is_none() {
            continue;
        }
        text += &described(command, row);
        for name in beside(command, row.name) {
            text += &described(command, &OPTIONS[name as usize]);
        }
    }
    text
}

/// All that `--help` says, of one command or of all.
pub fn help(command: Option<Command>) -> String {
    let mut text = match command {
        Some(one) => usage(command) + purpose(one) + &descriptions(one),
        None => Command::ALL.iter().map(|&one| usage(Some(one))).collect::<String>() + COMMANDS,
    };
    if command.map_or(true, Command::takes_layout) {
        text += LAYOUT;
    }
    text + FILES
}

#[cfg(test)]
mod tests {
    use super::*;

    #[test]
    fn usages() {
        let all: String = Command::ALL.iter().map(|&command| usage(Some(command))).collect();
        let expected = "\
usage: hcaframe encode LAYOUT (--spectra FILE | --unmixed FILE) [--intensities FILE] --out FILE [--list FILE] [--allow-empty] [--quiet]
usage: hcaframe read (LAYOUT --frames FILE | --hca FILE [--kinds KINDS]) [--records FILE] [--allow-empty] [--quiet]
usage: hcaframe write LAYOUT --records FILE --out FILE [--allow-empty] [--quiet]
usage: hcaframe check (LAYOUT --frames FILE | --hca FILE [--kinds KINDS]) [--allow-empty] [--quiet]
usage: hcaframe header LAYOUT --rate N --count N --padding N [--loop-start N --loop-end N] [--any-kinds] \
[--frames FILE [--unchecked]] --out FILE [--quiet]
usage: hcaframe inspect [--kinds KINDS --layout-out FILE] [--mode rust|held] --in FILE [--quiet]
usage: hcaframe wav --in FILE [--samples FILE] [--quiet]
usage: hcaframe list --list FILE [--frame N] [--svg FILE [--frame-size N]] [--quiet]
usage: hcaframe convert [--in] FILE --bitrate N [--minimum N] [--maximum N] [--mode rust|held] [--loop-start N --loop-end N] \
--out FILE [--list FILE] [--quiet]
usage: hcaframe bank --bitrate N [--minimum N] [--maximum N] [--mode rust|held] --in FOLDER --out FOLDER [--jobs N] [--shard K/N] \
[--report FILE] [--force] [--quiet]
";
        assert_eq!(all, expected);
    }

    #[test]
    fn lines_of_the_help() {
        let text = help(Some(Command::Header));
        assert!(
            text.contains("\n  --loop-start, --loop-end   the loop in samples, at most 4294967167; both or none\n"),
            "{text}"
        );
        assert!(!text.contains("  --loop-end "));
        assert!(text.contains("\n  --frames      the frames behind the header"));
        let text = help(Some(Command::List));
        assert!(text.find("--svg ").unwrap() < text.find("  --frame-size  bytes of a frame, 8 to 65535\n").unwrap());
        assert!(!text.contains("LAYOUT"));
    }
}
