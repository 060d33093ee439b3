//! Which frames are good. A refused one is counted, and the run goes on.
use super::read::{each_frame, frames_of};
use crate::files::{Ended, Files};
use crate::input::Blocks;
use crate::parse::Options;
use crate::report;
use crate::stop::Stop;
use crate::text::Text;
use hca_frame::Layout;

pub fn run(options: &Options, layout: &Layout, text: &mut Text) -> Result<Ended, Stop> {
    let mut files = Files::new(options, text);
    let frames = frames_of(&mut files, layout)?;
    tell(options, layout, text, files, frames)
}

/// Tells which of the frames are good, wherever they come from.
pub fn tell(options: &Options, layout: &Layout, text: &mut Text, mut files: Files, frames: Blocks) -> Result<Ended, Stop> {
    files.inputs_are_apart()?;
    let mut refused = 0;
    let done = each_frame(options, layout, text, frames, |text, number, read, _| {
        match read {
            Ok(_) => text.say(format_args!("frame {number}: good\n")),
            Err(refusal) => {
                refused += 1;
                text.say(format_args!("{}", report::refused_frame(number, refusal)));
            }
        }
        Ok(())
    })?;
    text.say(format_args!("{} good, {refused} refused\n", done - refused));
    files.outputs().end(u8::from(refused != 0))
}
