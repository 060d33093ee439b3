//! A list drawn: levels as bars over time, removed pairs hanging below them in another colour, and the bits against their room where the
//! frame's size is known. Plain SVG, without a script.
use hca_frame::Delivered;
use std::io::{self, Write};

/// A long line's frames are gathered into so many columns, and a column shows the most of its frames.
const COLUMNS: usize = 1000;

/// Draws the list; a frame size of 0 stands for none.
pub fn draw(out: &mut impl Write, entries: &[Delivered], frame_size: u64) -> io::Result<()> {
    let level = most(entries, |entry| entry.level);
    // levels up to 256 are the stage's own; a list may have higher ones
    let top = if 256 < level { 512 } else { 256 };
    head(out, 0 < frame_size)?;
    title(out, entries.len(), level, most(entries, |entry| entry.pairs))?;
    levels(out, entries, top)?;
    ticks(out, entries.len())?;
    pairs(out, entries)?;
    if 0 < frame_size {
        bits(out, entries, frame_size)?;
    }
    end(out, entries.len())
}

fn most(entries: &[Delivered], value: impl Fn(&Delivered) -> u32) -> u32 {
    entries.iter().map(value).max().unwrap_or(0)
}

/// The value's share of the top, in thousandths, never above it.
fn thousandths(value: u32, top: u64) -> u64 {
    u64::from(value).min(top) * 1000 / top
}

/// The picture is lower where no bits are drawn.
fn head(out: &mut impl Write, has_bits: bool) -> io::Result<()> {
    let height = if has_bits { 616 } else { 466 };
    write!(
        out,
        "<?xml version='1.0' encoding='UTF-8'?>\n\
         <svg xmlns='http://www.w3.org/2000/svg' width='1200' height='{height}' viewBox='0 0 1200 {height}'>\n\
         <style>text {{ font: 13px sans-serif; fill: #333 }} .number {{ text-anchor: end }} \
         .worst {{ text-anchor: middle; fill: #a40000 }} text.tick {{ text-anchor: middle }}\n\
         .level {{ fill: #3465a4 }} .pairs {{ fill: #cc0000 }} .bits {{ fill: #4e9a06 }} line {{ stroke: #ccc }} \
         line.tick {{ stroke: #333 }}</style>\n\
         <rect width='1200' height='{height}' fill='#fff'/>\n"
    )
}

fn title(out: &mut impl Write, frames: usize, level: u32, pairs: u32) -> io::Result<()> {
    write!(
        out,
        "<text x='60' y='24'>Frames: {frames}. Highest level: {level}. Most pairs of bands removed: {pairs}.</text>\n\
         <text x='60' y='46'>Level of each frame: the higher, the coarser. The frames that were starved most have their number.</text>\n"
    )
}

/// A field has lines across it with their numbers on the left, and then its bars as a group.
fn levels(out: &mut impl Write, entries: &[Delivered], top: u64) -> io::Result<()> {
    write!(
        out,
        "<line x1='60' y1='80' x2='1160' y2='80'/><text class='number' x='52' y='84'>{top}</text>\n\
         <line x1='60' y1='200' x2='1160' y2='200'/><text class='number' x='52' y='204'>{}</text>\n\
         <line x1='60' y1='320' x2='1160' y2='320'/><text class='number' x='52' y='324'>0</text>\n\
         <g class='level' transform='translate(60 320) scale(0.11 -0.24)'>\n",
        top / 2
    )?;
    bars(out, entries, |entry| entry.level, top)?;
    writeln!(out, "</g>")?;
    worst(out, entries, top)
}

/// How far apart the ticks are: the least of 1, 2, 5, 10, 20, 50 and so on that makes them at most twelve.
fn step(frames: usize) -> usize {
    let mut steps = (0..10).flat_map(|power| [1, 2, 5].map(|digit| digit * 10_usize.pow(power)));
    steps.find(|&step| frames.div_ceil(step) <= 12).unwrap_or(frames)
}

/// The time axis between the levels and the pairs: ticks in the middle of their frame's bar, with its number.
fn ticks(out: &mut impl Write, frames: usize) -> io::Result<()> {
    for frame in (0..frames).step_by(step(frames)) {
        let x = middle(frame, frames);
        writeln!(
            out,
            "<line class='tick' x1='{x}' y1='320' x2='{x}' y2='326'/><text class='tick' x='{x}' y='339'>{frame}</text>"
        )?;
    }
    Ok(())
}

/// Where the middle of a frame's bar is: the fields are 1,100 wide from 60 on.
fn middle(frame: usize, frames: usize) -> usize {
    60 + (frame * 1100 + 550) / frames
}

fn pairs(out: &mut impl Write, entries: &[Delivered]) -> io::Result<()> {
    write!(
        out,
        "<line x1='60' y1='426' x2='1160' y2='426'/><text class='number' x='52' y='430'>63</text>\n\
         <g class='pairs' transform='translate(60 346) scale(0.11 0.08)'>\n"
    )?;
    bars(out, entries, |entry| entry.pairs, 63)?;
    write!(out, "</g>\n<text x='60' y='450'>Pairs of bands removed, downwards.</text>\n")
}

/// Of a frame's bytes all but the check can hold fields: 8(F - 2) bits.
fn bits(out: &mut impl Write, entries: &[Delivered], frame_size: u64) -> io::Result<()> {
    let room = 8 * (frame_size - 2);
    write!(
        out,
        "<line x1='60' y1='576' x2='1160' y2='576'/><text class='number' x='52' y='580'>0</text>\n\
         <line x1='60' y1='476' x2='1160' y2='476'/><text class='number' x='52' y='480'>{room}</text>\n\
         <g class='bits' transform='translate(60 576) scale(0.11 -0.1)'>\n"
    )?;
    bars(out, entries, |entry| entry.bits, room)?;
    write!(
        out,
        "</g>\n<text x='60' y='600'>Bits written, of the {room} that a frame of {frame_size} bytes has room for.</text>\n"
    )
}

/// First and last frame, and the picture's end.
fn end(out: &mut impl Write, frames: usize) -> io::Result<()> {
    match frames {
        0 => write!(out, "<text x='560' y='200'>no frames</text>\n</svg>\n"),
        _ => write!(out, "<text class='number' x='1160' y='450'>frames 0 to {}</text>\n</svg>\n", frames - 1),
    }
}

/// Bars of one value, in a field of 10,000 by 1,000; a height of 0 draws nothing. Column c ends where c + 1 begins.
fn bars(out: &mut impl Write, entries: &[Delivered], value: impl Fn(&Delivered) -> u32, top: u64) -> io::Result<()> {
    let frames = entries.len();
    let columns = frames.min(COLUMNS);
    for column in 0..columns {
        let part = &entries[column * frames / columns..(column + 1) * frames / columns];
        let height = thousandths(most(part, &value), top);
        if height == 0 {
            continue;
        }
        let x = column * 10_000 / columns;
        let width = (column + 1) * 10_000 / columns - x;
        // a tenth is left free between two bars
        writeln!(out, "<rect x='{x}' width='{}' height='{height}'/>", width - width / 10)?;
    }
    Ok(())
}

/// How badly a frame was starved: more pairs removed first, then the higher level.
fn want(entry: &Delivered) -> (u32, u32) {
    (entry.pairs, entry.level)
}

/// The most starved of the frames that are apart from those that are numbered, the first of several alike.
fn next_worst(entries: &[Delivered], numbered: &[usize], gap: usize) -> Option<usize> {
    let mut worst = None;
    let mut most = (0, 0);
    for (frame, entry) in entries.iter().enumerate() {
        if most < want(entry) && numbered.iter().all(|&other| gap <= frame.abs_diff(other)) {
            (worst, most) = (Some(frame), want(entry));
        }
    }
    worst
}

/// Up to eight frames by number, so far apart that their numbers do not run into one another, each over the middle of its bar.
fn worst(out: &mut impl Write, entries: &[Delivered], top: u64) -> io::Result<()> {
    let gap = entries.len() / 24 + 1;
    let mut numbered = Vec::new();
    while numbered.len() < 8 {
        let Some(frame) = next_worst(entries, &numbered, gap) else { break };
        // the field is 240 high from 320 up
        let x = middle(frame, entries.len());
        let height = thousandths(entries[frame].level, top) * 240 / 1000;
        writeln!(out, "<text class='worst' x='{x}' y='{}'>{frame}</text>", 314 - height)?;
        numbered.push(frame);
    }
    Ok(())
}

#[cfg(test)]
mod tests {
    use super::*;

    fn drawn(entries: &[Delivered], frame_size: u64) -> String {
        let mut out = Vec::new();
        draw(&mut out, entries, frame_size).unwrap();
        String::from_utf8(out).unwrap()
    }

    #[test]
    fn no_frames_and_three() {
        assert!(drawn(&[], 0).ends_with("<text x='560' y='200'>no frames</text>\n</svg>\n"));
        let entries = [[12, 40, 0, 1314], [254, 127, 63, u32::MAX], [511, 0, 7, 0]].map(Delivered::from);
        let picture = drawn(&entries, 200);
        assert!(picture.contains(">512</text>") && picture.contains(">1584</text>"));
        assert!(picture.contains("<text class='worst' x='610' y='195'>1</text>\n"), "{picture}");
    }

    #[test]
    fn ticks_of_the_frame_axis() {
        let told = |frames: usize| -> Vec<String> {
            let picture = drawn(&vec![Delivered::from([100, 0, 0, 1]); frames], 0);
            let texts = picture.lines().filter_map(|line| line.split_once("<text class='tick' ")?.1.split_once('>'));
            texts.map(|(_, rest)| rest.trim_end_matches("</text>").to_string()).collect()
        };
        assert_eq!(told(0), [""; 0]);
        assert_eq!(told(3), ["0", "1", "2"]);
        assert_eq!(told(47), ["0", "5", "10", "15", "20", "25", "30", "35", "40", "45"]);
        assert_eq!(told(70_000), ["0", "10000", "20000", "30000", "40000", "50000", "60000"]);
        assert_eq!((1..70_000_usize).map(|frames| frames.div_ceil(step(frames))).max(), Some(12));
        assert!(drawn(&[Delivered::default(); 2], 0).contains("<line class='tick' x1='335' y1='320' x2='335' y2='326'/>"));
    }

    #[test]
    fn a_long_line_has_a_thousand_columns() {
        let entries = vec![Delivered::from([100, 0, 0, 1]); 70_000];
        assert_eq!(drawn(&entries, 0).matches("<rect x=").count(), 1000);
    }
}
