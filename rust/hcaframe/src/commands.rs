//! The commands, one a module.
mod bank;
mod check;
mod convert;
mod encode;
mod header;
mod inspect;
mod list;
mod read;
pub mod wav;
mod whole;
mod write;

use crate::files::{have_own_names, Ended};
use crate::layout::layout_of;
use crate::options::{Command, Name};
use crate::parse::Options;
use crate::stop::Stop;
use crate::text::Text;

/// Does what the options say, once the layout is within its limits and each file has a name of its own.
pub fn run(options: &Options, text: &mut Text) -> Result<Ended, Stop> {
    if !options.command.takes_layout() {
        have_own_names(options)?;
        return match options.command {
            Command::Inspect => inspect::run(options, text),
            Command::Wav => wav::run(options, text),
            Command::Convert => convert::run(options, text),
            Command::Bank => bank::run(options, text),
            _ => list::run(options, text),
        };
    }
    if options.is_given(Name::Hca) {
        have_own_names(options)?;
        return whole::run(options, text);
    }
    let layout = layout_of(options)?;
    have_own_names(options)?;
    match options.command {
        Command::Encode => encode::run(options, &layout, text),
        Command::Read => read::run(options, &layout, text),
        Command::Write => write::run(options, &layout, text),
        Command::Check => check::run(options, &layout, text),
        _ => header::run(options, &layout, text),
    }
}
