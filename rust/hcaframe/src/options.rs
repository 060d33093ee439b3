//! The commands and their options. One table: the parser and the help are both made from it.
use Command::{Bank, Check, Convert, Encode, Header, Inspect, List, Read, Wav, Write};
use Need::{Either, Needed, Optional, With};
use Value::{Folder, Input, Kinds, Nothing, Number, Output, Shard};

/// What the first word asks for.
#[derive(Clone, Copy, Debug, PartialEq, Eq)]
pub enum Command {
    Encode,
    Read,
    Write,
    Check,
    Header,
    Inspect,
    Wav,
    List,
    Convert,
    Bank,
}

impl Command {
    pub const ALL: [Command; 10] = [Encode, Read, Write, Check, Header, Inspect, Wav, List, Convert, Bank];

    pub fn word(self) -> &'static str {
        match self {
            Encode => "encode",
            Read => "read",
            Write => "write",
            Check => "check",
            Header => "header",
            Inspect => "inspect",
            Wav => "wav",
            List => "list",
            Convert => "convert",
            Bank => "bank",
        }
    }

    pub fn of(word: &[u8]) -> Option<Command> {
        Command::ALL.into_iter().find(|command| command.word().as_bytes() == word)
    }

    /// Is a layout among its words?
    pub fn takes_layout(self) -> bool {
        Name::Layout.of_command(self).is_some()
    }

    /// The option whose value may stand without its word.
    pub fn bare(self) -> Option<Name> {
        match self {
            Convert => Some(Name::In),
            _ => None,
        }
    }
}

/// The options by name, in the order of the table.
#[derive(Clone, Copy, Debug, PartialEq, Eq)]
pub enum Name {
    Kinds,
    Base,
    Stereo,
    Total,
    FrameSize,
    Layout,
    LayoutOut,
    Spectra,
    Unmixed,
    Intensities,
    Rate,
    Count,
    Padding,
    Bitrate,
    Minimum,
    Maximum,
    Mode,
    LoopStart,
    LoopEnd,
    AnyKinds,
    In,
    Samples,
    Frames,
    Hca,
    Unchecked,
    Records,
    Out,
    List,
    Frame,
    Svg,
    Jobs,
    Shard,
    Report,
    Force,
    AllowEmpty,
    Quiet,
}

/// What stands behind an option.
#[derive(Clone, Copy, Debug, PartialEq, Eq)]
pub enum Value {
    Nothing,
    Number,
    Kinds,
    /// rust or held.
    Mode,
    /// A file that is read.
    Input,
    /// A file that is written.
    Output,
    Folder,
    /// K/N, a part of N.
    Shard,
}

/// Whether a command must be given an option.
#[derive(Clone, Copy, Debug, PartialEq, Eq)]
pub enum Need {
    Needed,
    Optional,
    /// This one or the other, and not both.
    Either(Name),
    /// Only beside the other.
    With(Name),
}

/// An option as some commands take it, with the line that their help has for it.
pub struct Use {
    pub by: &'static [Command],
    pub value: Value,
    pub need: Need,
    pub help: &'static str,
}

pub struct Row {
    pub name: Name,
    pub word: &'static str,
    pub uses: &'static [Use],
}

const fn taken(by: &'static [Command], value: Value, need: Need, help: &'static str) -> Use {
    Use { by, value, need, help }
}

const fn row(name: Name, word: &'static str, uses: &'static [Use]) -> Row {
    Row { name, word, uses }
}

/// The commands over a layout's frames.
const FRAMES: &[Command] = &[Encode, Read, Write, Check, Header];

// The words of a layout have a text of their own in the help.
#[rustfmt::skip]
pub const OPTIONS: [Row; 36] = [
    row(Name::Kinds, "--kinds", &[
        taken(FRAMES, Kinds, Needed, ""),
        taken(&[Inspect], Kinds, With(Name::LayoutOut),
            "a letter a channel, and the file that takes them with the header's numbers, as the words of a layout"),
    ]),
    row(Name::Base, "--base", &[taken(FRAMES, Number, Needed, "")]),
    row(Name::Stereo, "--stereo", &[taken(FRAMES, Number, Needed, "")]),
    row(Name::Total, "--total", &[taken(FRAMES, Number, Needed, "")]),
    row(Name::FrameSize, "--frame-size", &[
        taken(FRAMES, Number, Needed, ""),
        taken(&[List], Number, With(Name::Svg), "bytes of a frame, 8 to 65535"),
    ]),
    row(Name::Layout, "--layout", &[taken(FRAMES, Input, Optional, "")]),
    row(Name::LayoutOut, "--layout-out", &[taken(&[Inspect], Output, With(Name::Kinds), "")]),
    row(Name::Spectra, "--spectra", &[
        taken(&[Encode], Input, Either(Name::Unmixed),
            "f32, low byte first, frame after frame: channel, subframe, band (channels x 8 x 128)"),
    ]),
    row(Name::Unmixed, "--unmixed", &[
        taken(&[Encode], Input, Either(Name::Spectra),
            "in place of --spectra: the same before the stereo step, which mixes each pair and makes its intensities"),
    ]),
    row(Name::Intensities, "--intensities", &[
        taken(&[Encode], Input, Optional,
            "8 bytes a channel, frame after frame; needed if a channel is S and the spectra are mixed"),
    ]),
    row(Name::Rate, "--rate", &[taken(&[Header], Number, Needed, "samples a second, 1 to 8388607")]),
    row(Name::Count, "--count", &[taken(&[Header], Number, Needed, "frames, at most 4294967295")]),
    row(Name::Padding, "--padding", &[
        taken(&[Header], Number, Needed, "samples that fill the last frame, at most 65535: of a take of n samples a channel\n\
            frames x 1024 - 128 - n, with (n + 128) / 1024 frames, rounded up"),
    ]),
    row(Name::Bitrate, "--bitrate", &[taken(&[Convert, Bank], Number, Needed, "bits a second, 1000 to 4294967295")]),
    row(Name::Minimum, "--minimum", &[
        taken(FRAMES, Number, Optional, ""),
        taken(&[Convert, Bank], Number, Optional, "the lowest resolution of a band that is not silent, 1 to --maximum; 1 where it is not given"),
    ]),
    row(Name::Maximum, "--maximum", &[
        taken(FRAMES, Number, Optional, ""),
        taken(&[Convert, Bank], Number, Optional, "the highest resolution, --minimum to 15; 15 where it is not given. The header carries both"),
    ]),
    row(Name::Mode, "--mode", &[
        taken(FRAMES, Value::Mode, Optional, ""),
        taken(&[Inspect], Value::Mode, Optional, "the mode for --layout-out, rust or held; a header does not say it"),
        taken(&[Convert, Bank], Value::Mode, Optional,
            "rust: bytes as of the published encoder, the default; held: no code leaves its range, so that frames decode as they were\n\
             meant. The file does not say which"),
    ]),
    row(Name::LoopStart, "--loop-start", &[
        taken(&[Header], Number, With(Name::LoopEnd), "the loop in samples, at most 4294967167; both or none"),
        taken(&[Convert], Number, With(Name::LoopEnd), "the loop's first sample, and the one behind its last; both or none"),
    ]),
    row(Name::LoopEnd, "--loop-end", &[taken(&[Header, Convert], Number, With(Name::LoopStart), "")]),
    row(Name::AnyKinds, "--any-kinds", &[
        taken(&[Header], Nothing, Optional, "a layout whose kinds are not those that decoders derive is no fault"),
    ]),
    row(Name::In, "--in", &[
        taken(&[Wav, Convert], Input, Needed, "a WAV file with samples of 16, 24 or 32 bits; those of 32 bits are floats"),
        taken(&[Inspect], Input, Needed, "an HCA file, or its header alone; what follows the first 96 bytes is not looked at"),
        taken(&[Bank], Folder, Needed, "each file below it whose name ends with .wav, in letters of any case, is a take"),
    ]),
    row(Name::Samples, "--samples", &[
        taken(&[Wav], Output, Optional, "the samples in the file's order: f32, low byte first"),
    ]),
    row(Name::Frames, "--frames", &[
        taken(&[Read, Check], Input, Either(Name::Hca), "frames, one after the other"),
        taken(&[Header], Input, Optional,
            "the frames behind the header, one after the other, as many as --count says; each is read strictly"),
    ]),
    row(Name::Hca, "--hca", &[
        taken(&[Read, Check], Input, Either(Name::Frames),
            "in place of LAYOUT and --frames: a whole HCA file, its header and exactly the frames that it counts. Of the layout's\n\
             words --kinds alone is taken; without it the kinds are those that decoders derive"),
    ]),
    row(Name::Unchecked, "--unchecked", &[
        taken(&[Header], Nothing, With(Name::Frames), "the frames are not read, but taken as they stand"),
    ]),
    row(Name::Records, "--records", &[
        taken(&[Read], Output, Optional,
            "the records: level and boundary (u32, low byte first), factors (channels x 128 bytes),\n\
             side values (channels x 8 bytes), codes (channels x 1,024 i32); only if every frame is good"),
        taken(&[Write], Input, Needed, "records as hcaframe read writes them"),
    ]),
    row(Name::Out, "--out", &[
        taken(&[Encode], Output, Needed, "the frames, one after the other; written only if every frame is made"),
        taken(&[Write], Output, Needed, "the frames, one after the other; written only if every record is legal and fits"),
        taken(&[Header], Output, Needed, "the header, or header and frames as one file"),
        taken(&[Convert], Output, Needed, "the HCA file; written only if every frame is made"),
        taken(&[Bank], Folder, Needed, "NAME.hca and NAME.list of each take NAME.wav, in the same subfolder; made where it is not there"),
    ]),
    row(Name::List, "--list", &[
        taken(&[Encode, Convert], Output, Optional, "a list with the numbers of each frame; written only if every frame is made"),
        taken(&[List], Input, Needed, "a list as hcaframe encode writes it"),
    ]),
    row(Name::Frame, "--frame", &[taken(&[List], Number, Optional, "this frame alone; the first is 0")]),
    row(Name::Svg, "--svg", &[
        taken(&[List], Output, Optional,
            "a picture: the level of each frame, the pairs removed, and the bits where --frame-size is given"),
    ]),
    row(Name::Jobs, "--jobs", &[taken(&[Bank], Number, Optional, "takes reckoned at a time, 1 to 1024; else as many as there are processors")]),
    row(Name::Shard, "--shard", &[
        taken(&[Bank], Shard, Optional, "the K-th of every N takes, by name, for K from 1 to N: N machines share a bank so"),
    ]),
    row(Name::Report, "--report", &[
        taken(&[Bank], Output, Optional, "a row a take, tab-separated: name, state, frames, bytes, highest level, pairs removed, text"),
    ]),
    row(Name::Force, "--force", &[taken(&[Bank], Nothing, Optional, "every take is made, also where its files are up to date")]),
    row(Name::AllowEmpty, "--allow-empty", &[
        taken(&[Encode, Read, Write, Check], Nothing, Optional, "an input without a frame is no fault"),
    ]),
    row(Name::Quiet, "--quiet", &[taken(&Command::ALL, Nothing, Optional, "")]),
];

impl Name {
    pub fn of(word: &[u8]) -> Option<Name> {
        OPTIONS.iter().find(|row| row.word.as_bytes() == word).map(|row| row.name)
    }

    pub fn word(self) -> &'static str {
        OPTIONS[self as usize].word
    }

    /// How the command takes it, if it does.
    pub fn of_command(self, command: Command) -> Option<&'static Use> {
        OPTIONS[self as usize].uses.iter().find(|one| one.by.contains(&command))
    }

    /// Is it said by the header of a whole HCA file?
    pub fn is_in_header(self) -> bool {
        self == Name::Layout || (self.is_of_layout() && !matches!(self, Name::Kinds | Name::Mode))
    }

    /// Is it of the eight that say a layout, and may stand in a layout file?
    pub fn is_of_layout(self) -> bool {
        let has_default = matches!(self, Name::Minimum | Name::Maximum | Name::Mode);
        has_default || matches!(self, Name::Kinds | Name::Base | Name::Stereo | Name::Total | Name::FrameSize)
    }
}

#[cfg(test)]
mod tests {
    use super::*;

    #[test]
    fn a_name_is_its_row() {
        for (i, row) in OPTIONS.iter().enumerate() {
            assert_eq!(row.name as usize, i);
            assert_eq!(Name::of(row.word.as_bytes()), Some(row.name));
        }
    }

    #[test]
    fn no_command_has_two_uses_of_one_option() {
        for row in &OPTIONS {
            for command in Command::ALL {
                assert!(row.uses.iter().filter(|one| one.by.contains(&command)).count() <= 1, "{}", row.word);
            }
        }
    }
}
