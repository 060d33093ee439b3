//! A whole HCA file: its header, and exactly the frames that it counts.
use super::{check, read};
use crate::files::{Ended, Files};
use crate::input::{fill, unread, Blocks, Input};
use crate::layout::{derived, derived_kinds, letters};
use crate::options::{Command, Name};
use crate::parse::Options;
use crate::report;
use crate::stop::{complain, Stop};
use crate::text::Text;
use hca_frame::{read_header, FileHeader, Layout, HEADER_SIZE};

pub fn run(options: &Options, text: &mut Text) -> Result<Ended, Stop> {
    let mut files = Files::new(options, text);
    let input = files.input(Name::Hca)?.ok_or_else(|| Stop::wrong("no HCA file"))?;
    let header = header_of(&input)?;
    let layout = layout_of(&header, options)?;
    has_its_size(&header, &input)?;
    let frames = Blocks::counted(input, header.frame_size(), header.frames().into());
    match options.command {
        Command::Read => read::tell(options, &layout, text, files, frames),
        _ => check::tell(options, &layout, text, files, frames),
    }
}

/// What the first 96 bytes say.
pub fn header_of(input: &Input) -> Result<FileHeader, Stop> {
    let mut header = [0; HEADER_SIZE];
    let n = fill(&input.file, &mut header).map_err(|error| unread(&error))?;
    read_header(&header[..n]).map_err(|refusal| match n {
        HEADER_SIZE => Stop::refused(report::refused_file(refusal)),
        _ => Stop::refused(format!("hcaframe: refusal {}: {n} bytes; a header has {HEADER_SIZE}\n", refusal.number)),
    })
}

/// The header's layout, with the kinds that are given, else with those that decoders derive.
pub fn layout_of(header: &FileHeader, options: &Options) -> Result<Layout, Stop> {
    let kinds = match options.is_given(Name::Kinds) {
        true => options.kinds().to_vec(),
        false => derived(header.channels(), header.stereo_bands()),
    };
    let layout = header
        .layout(&kinds, options.mode())
        .map_err(|error| Stop::wrong(format_args!("--kinds is {}: {error}", letters(&kinds))))?;
    let expected = derived_kinds(header.channels(), header.stereo_bands());
    if letters(&kinds) != expected {
        complain(&format!("hcaframe: --kinds is {}; of this header decoders derive {expected}\n", letters(&kinds)));
    }
    Ok(layout)
}

/// A file whose length is known has to be header and frames, and nothing else.
fn has_its_size(header: &FileHeader, input: &Input) -> Result<(), Stop> {
    let (count, size) = (u64::from(header.frames()), header.frame_size() as u64);
    let whole = HEADER_SIZE as u64 + count * size;
    match input.length {
        Some(n) if n != whole => Err(Stop::wrong(format_args!(
            "{}: {n} bytes; its header and {count} frames of {size} bytes make {whole}",
            input.shown()
        ))),
        _ => Ok(()),
    }
}
