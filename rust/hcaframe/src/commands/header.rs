//! The header of an HCA file, alone or in front of its frames.
use crate::files::{Ended, Files, Outputs};
use crate::input::{fill, not_whole_hca, unread, Input};
use crate::layout::{derived_kinds, letters};
use crate::options::Name;
use crate::parse::Options;
use crate::progress::Progress;
use crate::report;
use crate::stop::Stop;
use crate::text::Text;
use hca_frame::{read_frame_into, write_header, Layout, Record, Refusal, Stream, HEADER_SIZE};

/// Frames that are taken as they stand are copied in blocks of about this many bytes.
const BLOCK: usize = 1 << 16;

pub fn run(options: &Options, layout: &Layout, text: &mut Text) -> Result<Ended, Stop> {
    let mut files = Files::new(options, text);
    let frames = files.input(Name::Frames)?;
    frames.as_ref().map_or(Ok(()), Input::holds_frames)?;
    files.inputs_are_apart()?;
    files.output(Name::Out)?;
    let header = write_header(layout, &stream_of(options)).map_err(|refusal| outside(options, refusal))?;
    if !options.is_given(Name::AnyKinds) {
        has_derived_kinds(layout)?;
    }
    let mut outputs = files.outputs();
    let count = options.number(Name::Count).unwrap_or(0);
    let Some(frames) = frames else {
        outputs.put(Name::Out, &header)?;
        text.say(format_args!("header, {HEADER_SIZE} bytes\n"));
        return outputs.end(0);
    };
    let size = count * layout.frame_size() as u64;
    if let Some(n) = frames.length {
        counted(layout, count, n)?;
    }
    outputs.put(Name::Out, &header)?;
    let n = copy(options, layout, text, &frames, size, &mut outputs)?;
    counted(layout, count, n)?;
    text.say(format_args!("header and {count} frames, {} bytes\n", n + HEADER_SIZE as u64));
    outputs.end(0)
}

fn stream_of(options: &Options) -> Stream {
    let number = |name| options.number(name).unwrap_or(0);
    let mut stream = Stream::new(number(Name::Rate), number(Name::Count), number(Name::Padding));
    stream.loop_points = options.number(Name::LoopStart).zip(options.number(Name::LoopEnd));
    stream
}

/// The first number that does not fit, beside its refusal.
fn outside(options: &Options, refusal: Refusal) -> Stop {
    let channels = options.kinds().len();
    let limits = [
        (Name::Rate, 1, 8_388_607),
        (Name::Count, 0, 4_294_967_295),
        (Name::Padding, 0, 65_535),
        (Name::LoopStart, 0, 4_294_967_167),
        (Name::LoopEnd, 0, 4_294_967_167),
    ];
    let told = report::refusal(refusal);
    if channels > 8 {
        return Stop::wrong(format_args!("{told}: {channels} channels; there are 1 to 8"));
    }
    for (name, least, most) in limits {
        let n = options.number(name).unwrap_or(least);
        let word = name.word();
        match (least..=most).contains(&n) {
            true => {}
            false if least == 0 => return Stop::wrong(format_args!("{told}: {word} is {n}; it is at most {most}")),
            false => return Stop::wrong(format_args!("{told}: {word} is {n}; it is {least} to {most}")),
        }
    }
    Stop::wrong(told)
}

/// Frames of other kinds than a decoder derives have good checks, and decode to noise.
fn has_derived_kinds(layout: &Layout) -> Result<(), Stop> {
    let given = letters(layout.kinds());
    let derived = derived_kinds(layout.channels(), layout.stereo_bands());
    if given == derived {
        return Ok(());
    }
    Err(Stop::wrong(format_args!(
        "--kinds is {given}; a header carries no kinds, and with {} and --stereo {} decoders derive {derived};\n\
         hcaframe: frames of other kinds decode to noise. For who must there is --any-kinds.",
        if layout.channels() == 1 { "one channel".to_string() } else { format!("{} channels", layout.channels()) },
        layout.stereo_bands()
    )))
}

/// The frames have to be as many bytes as the header says.
fn counted(layout: &Layout, count: u64, n: u64) -> Result<(), Stop> {
    let size = layout.frame_size() as u64;
    match n == count * size {
        true => Ok(()),
        false => Err(Stop::wrong(format_args!(
            "the frames are {n} bytes; --count {count} and --frame-size {size} make {} bytes",
            count * size
        ))),
    }
}

/// Passes the frames on, up to as many bytes as are wanted; says how many there are.
fn copy(
    options: &Options,
    layout: &Layout,
    text: &Text,
    frames: &Input,
    wanted: u64,
    outputs: &mut Outputs,
) -> Result<u64, Stop> {
    let size = layout.frame_size();
    let is_read = !options.is_given(Name::Unchecked);
    let mut record = Record::silent(layout);
    let mut progress = Progress::new(options, text, options.number(Name::Count));
    let mut block = vec![0; (BLOCK / size).max(1) * size];
    let mut done = 0;
    loop {
        let n = fill(&frames.file, &mut block).map_err(|error| unread(&error))?;
        if done == 0 {
            not_whole_hca("the input", &block[..n])?;
        }
        if is_read {
            let first = done / size as u64;
            for (number, frame) in (first..).zip(block[..n].chunks_exact(size)) {
                read_frame_into(layout, frame, &mut record).map_err(|refusal| refused(number, refusal))?;
            }
        }
        // what is too much is counted, not kept
        let kept = (n as u64).min(wanted.saturating_sub(done)) as usize;
        outputs.put(Name::Out, &block[..kept])?;
        done += n as u64;
        if n < block.len() {
            return Ok(done);
        }
        progress.at(done / size as u64);
    }
}

/// Of a frame that the strict reader refuses.
fn refused(number: u64, refusal: Refusal) -> Stop {
    let frame = report::refused_frame(number, refusal);
    Stop::refused(format!("{frame}hcaframe: with --unchecked the frames are taken as they stand\n"))
}
