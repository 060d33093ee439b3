//! Frames to what they hold, told in words and kept as records.
use crate::files::{Ended, Files};
use crate::input::{not_whole_hca, Blocks};
use crate::options::Name;
use crate::parse::Options;
use crate::progress::Progress;
use crate::stop::Stop;
use crate::text::Text;
use crate::{records, report};
use hca_frame::{read_frame_into, Layout, Record, Refusal};

/// The frames of a batch take about this many bytes.
const BATCH: usize = 1 << 16;

/// The input of frames, judged as far as it can be before it is read.
pub fn frames_of(files: &mut Files, layout: &Layout) -> Result<Blocks, Stop> {
    let input = files.input(Name::Frames)?.ok_or_else(|| Stop::wrong("no frames"))?;
    input.holds_frames()?;
    Blocks::new(input, layout.frame_size())
}

/// What the strict reader says of each frame, one after the other; the record holds what it holds.
pub fn each_frame(
    options: &Options,
    layout: &Layout,
    text: &mut Text,
    mut frames: Blocks,
    mut tell: impl FnMut(&mut Text, u64, Result<u32, Refusal>, &Record) -> Result<(), Stop>,
) -> Result<u64, Stop> {
    let mut progress = Progress::new(options, text, frames.known);
    let mut record = Record::silent(layout);
    let mut bytes = vec![0; (BATCH / frames.size).max(1) * frames.size];
    let mut done = 0;
    loop {
        let (count, rest) = frames.read(&mut bytes);
        for frame in bytes.chunks_exact(frames.size).take(count) {
            if done == 0 && !frames.is_counted {
                not_whole_hca("the input", frame)?;
            }
            tell(text, done, read_frame_into(layout, frame, &mut record), &record)?;
            done += 1;
        }
        text.flush();
        if !frames.goes_on(rest)? {
            frames.has_frames(options.is_given(Name::AllowEmpty))?;
            return Ok(done);
        }
        progress.at(done);
    }
}

pub fn run(options: &Options, layout: &Layout, text: &mut Text) -> Result<Ended, Stop> {
    let mut files = Files::new(options, text);
    let frames = frames_of(&mut files, layout)?;
    tell(options, layout, text, files, frames)
}

/// Tells what the frames hold, wherever they come from.
pub fn tell(options: &Options, layout: &Layout, text: &mut Text, mut files: Files, frames: Blocks) -> Result<Ended, Stop> {
    files.inputs_are_apart()?;
    files.output(Name::Records)?;
    let mut outputs = files.outputs();
    let mut bytes = Vec::new();
    let done = each_frame(options, layout, text, frames, |text, number, read, record| {
        let bits = read.map_err(|refusal| Stop::refused(report::refused_frame(number, refusal)))?;
        if text.is_heard() {
            report::frame(text, layout, number, record, bits);
        }
        bytes.clear();
        records::put(record, &mut bytes);
        outputs.put(Name::Records, &bytes)
    })?;
    report::total(text, layout, done);
    outputs.end(0)
}
