//! What a WAV file holds, and its samples as floats.
use crate::files::{Ended, Files};
use crate::input::{fill, unread, Input};
use crate::options::Name;
use crate::parse::Options;
use crate::report;
use crate::stop::{complain, Stop};
use crate::text::Text;
use crate::wav_chunks::data_of;
use hca_frame::{read_wav, Refusal, Take};
use std::io::{Read, Seek};

/// The one limit of the program's own: a file is read whole.
const LONGEST: u64 = 1 << 30;

/// The library judges the mark by as many bytes.
const MARK: usize = 44;

pub fn run(options: &Options, text: &mut Text) -> Result<Ended, Stop> {
    let mut files = Files::new(options, text);
    let mut input = files.input(Name::In)?.ok_or_else(|| Stop::wrong("no WAV file"))?;
    files.inputs_are_apart()?;
    files.output(Name::Samples)?;
    let mut outputs = files.outputs();
    let wav = content(&mut input)?;
    let result = read_wav(&wav);
    for note in notes(&wav) {
        complain(&format!("hcaframe: {note}\n"));
    }
    let take = result.map_err(refused)?;
    say_take(text, &take);
    if outputs.of(Name::Samples).is_some() {
        let bytes: Vec<u8> = take.samples.iter().flat_map(|sample| sample.to_le_bytes()).collect();
        outputs.put(Name::Samples, &bytes)?;
    }
    outputs.end(0)
}

fn refused(refusal: Refusal) -> Stop {
    Stop::refused(report::refused_file(refusal))
}

/// The whole file. It is judged by its mark before its size, and by its size before it is read.
pub fn content(input: &mut Input) -> Result<Vec<u8>, Stop> {
    let mut wav = vec![0; MARK];
    let n = fill(&input.file, &mut wav).map_err(|error| unread(&error))?;
    wav.truncate(n);
    if let Err(refusal) = read_wav(&wav) {
        if refusal.number == Refusal::NOT_WAVE {
            return Err(refused(refusal));
        }
    }
    let too_long = || Stop::wrong(format_args!("the WAV file has more than {LONGEST} bytes, the most that hcaframe takes"));
    let known = left(input);
    if known.is_some_and(|more| LONGEST < n as u64 + more) {
        return Err(too_long());
    }
    let room = known.unwrap_or(0) as usize;
    wav.try_reserve_exact(room).map_err(|_| Stop::wrong(format_args!("no memory for a WAV file of {} bytes", room + n)))?;
    (&input.file).take(LONGEST + 1 - n as u64).read_to_end(&mut wav).map_err(|error| unread(&error))?;
    match wav.len() as u64 <= LONGEST {
        true => Ok(wav),
        false => Err(too_long()),
    }
}

/// How many bytes a regular file has from here on, standard input too.
fn left(input: &mut Input) -> Option<u64> {
    let about = input.file.metadata().ok().filter(|about| about.is_file())?;
    about.len().checked_sub(input.file.stream_position().ok()?)
}

/// What the samples' numbers do not tell.
pub fn notes(wav: &[u8]) -> Vec<String> {
    let Some(data) = data_of(wav) else { return Vec::new() };
    let mut notes = Vec::new();
    if data.present < data.claimed {
        notes.push(format!("the data chunk claims {} bytes, and the file has {} of them", data.claimed, data.present));
    }
    if data.has_wide_integers {
        notes.push("the format tag says integers of 32 bits, and they are read as floats: convert to 24 bits".to_string());
    }
    notes
}

fn say_take(text: &mut Text, take: &Take) {
    text.say(format_args!(
        "channels {}\nrate {}\ndepth {}\nsamples {}\n",
        take.channels,
        take.rate,
        take.depth,
        take.samples.len()
    ));
    text.say(format_args!("peak {}\nmean {}\n", report::level(take.note.peak), report::level(take.note.mean)));
}
