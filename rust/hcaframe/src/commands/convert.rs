//! A WAV file to an HCA file.
use crate::files::{Ended, Files};
use crate::layout::{letters, mode_words, resolution_words, resolutions_of};
use crate::options::Name;
use crate::parse::Options;
use crate::progress::Progress;
use crate::stop::{complain, Stop};
use crate::take::{bitrate_of, make};
use crate::text::Text;
use hca_convert::{Converted, Settings};
use hca_frame::list_summary;

pub fn run(options: &Options, text: &mut Text) -> Result<Ended, Stop> {
    let loop_points = options.number(Name::LoopStart).zip(options.number(Name::LoopEnd));
    let (bitrate, resolutions) = (bitrate_of(options)?, resolutions_of(options)?);
    let settings = Settings { bitrate, loop_points, resolutions, mode: options.mode() };
    let mut files = Files::new(options, text);
    let mut input = files.input(Name::In)?.ok_or_else(|| Stop::wrong("no WAV file"))?;
    files.inputs_are_apart()?;
    files.output(Name::Out)?;
    files.output(Name::List)?;
    let mut outputs = files.outputs();
    let mut progress = Progress::alone(options);
    let note = |note: &str| complain(&format!("hcaframe: {note}\n"));
    let (made, list) = make(&mut input, &settings, note, |done, all| progress.at_of(done as u64, all as u64))?;
    drop(progress);
    say(text, &made, &list);
    outputs.put(Name::Out, &made.file)?;
    outputs.put(Name::List, &list)?;
    outputs.end(0)
}

/// The layout as words that the other commands take, and the file's numbers.
fn say(text: &mut Text, made: &Converted, list: &[u8]) {
    let (layout, stream) = (&made.layout, &made.stream);
    let [_, base, stereo, total, size, minimum, maximum] = layout.numbers()[..7] else { return };
    let kinds = letters(layout.kinds());
    let limits = resolution_words(minimum, maximum) + mode_words(layout.mode());
    text.say(format_args!(
        "layout --kinds {kinds} --base {base} --stereo {stereo} --total {total} --frame-size {size}{limits}\n"
    ));
    text.say(format_args!("rate {}, padding {}\n", stream.rate, stream.padding));
    text.say(format_args!("{} frames, {} bytes\n", stream.frames, made.file.len()));
    if let Ok(all) = list_summary(list) {
        text.say(format_args!("highest level {}, most pairs removed {}, bits {}\n", all.level, all.pairs, all.bits));
    }
}
