//! What the list of a line's frames holds, in numbers and as a picture.
use crate::files::{Ended, Files};
use crate::input::{fill, unread, Input};
use crate::options::Name;
use crate::parse::Options;
use crate::picture;
use crate::report;
use crate::stop::Stop;
use crate::text::Text;
use hca_frame::{list_entry, list_summary, read_list, Delivered, Refusal};
use std::io::Read;

/// Mark, version and count.
const HEAD: usize = 9;

pub fn run(options: &Options, text: &mut Text) -> Result<Ended, Stop> {
    let mut files = Files::new(options, text);
    let input = files.input(Name::List)?.ok_or_else(|| Stop::wrong("no list"))?;
    files.inputs_are_apart()?;
    files.output(Name::Svg)?;
    let frame_size = options.number(Name::FrameSize);
    if let Some(n) = frame_size.filter(|n| !(8..=65_535).contains(n)) {
        return Err(Stop::wrong(format_args!("--frame-size is {n}; it is 8 to 65535")));
    }
    let mut outputs = files.outputs();
    let list = content(&input)?;
    let entries = read_list(&list).map_err(refused)?;
    match options.number(Name::Frame) {
        Some(frame) => say_frame(text, &list, frame)?,
        None => say_all(text, &list, &entries)?,
    }
    if let Some(output) = outputs.of(Name::Svg) {
        if let Err(error) = picture::draw(output.writer(), &entries, frame_size.unwrap_or(0)) {
            return Err(output.unwritten(&error));
        }
    }
    outputs.end(0)
}

fn refused(refusal: Refusal) -> Stop {
    Stop::refused(report::refused_file(refusal))
}

/// The whole file, as long as its mark and its length are a list's: one that is longer than its count says is not read to its end.
fn content(input: &Input) -> Result<Vec<u8>, Stop> {
    let mut list = vec![0; HEAD];
    let n = fill(&input.file, &mut list).map_err(|error| unread(&error))?;
    list.truncate(n);
    match list_summary(&list) {
        Err(refusal) if refusal.number == Refusal::BAD_LIST_MARK => return Err(refused(refusal)),
        _ => {}
    }
    let frames = u32::from_be_bytes([list[5], list[6], list[7], list[8]]);
    let length = HEAD as u64 + 8 * u64::from(frames);
    if input.length.is_some_and(|n| n != length) {
        return Err(refused(Refusal::new(Refusal::BAD_LIST_LENGTH, 0)));
    }
    (&input.file).take(length + 1 - HEAD as u64).read_to_end(&mut list).map_err(|error| unread(&error))?;
    Ok(list)
}

/// One frame alone. No list has a frame past those that 32 bits count.
fn say_frame(text: &mut Text, list: &[u8], frame: u64) -> Result<(), Stop> {
    let entry = list_entry(list, u32::try_from(frame).unwrap_or(u32::MAX)).map_err(refused)?;
    report::list_head(text);
    report::list_row(text, frame, &entry);
    Ok(())
}

fn say_all(text: &mut Text, list: &[u8], entries: &[Delivered]) -> Result<(), Stop> {
    let summary = list_summary(list).map_err(refused)?;
    report::list_head(text);
    for (frame, entry) in (0..).zip(entries) {
        report::list_row(text, frame, entry);
    }
    text.say(format_args!(
        "{} frames: highest level {}, most pairs removed {}, bits {}\n",
        entries.len(),
        summary.level,
        summary.pairs,
        summary.bits
    ));
    Ok(())
}
