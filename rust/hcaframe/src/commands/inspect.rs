//! What the header of an HCA file says, as a table and as the words of a layout.
use super::whole::{header_of, layout_of};
use crate::files::{Ended, Files};
use crate::layout::{derived_kinds, letters, mode_words};
use crate::options::Name;
use crate::parse::Options;
use crate::stop::Stop;
use crate::text::Text;
use hca_frame::{FileHeader, Layout};

pub fn run(options: &Options, text: &mut Text) -> Result<Ended, Stop> {
    let mut files = Files::new(options, text);
    let input = files.input(Name::In)?.ok_or_else(|| Stop::wrong("no HCA file"))?;
    files.inputs_are_apart()?;
    files.output(Name::LayoutOut)?;
    let mut outputs = files.outputs();
    let header = header_of(&input)?;
    if options.is_given(Name::LayoutOut) {
        let layout = layout_of(&header, options)?;
        outputs.put(Name::LayoutOut, words(&layout).as_bytes())?;
    }
    say(text, &header);
    outputs.end(0)
}

/// A layout as a layout file has it.
fn words(layout: &Layout) -> String {
    format!(
        "--kinds {} --base {} --stereo {} --total {} --frame-size {} --minimum {} --maximum {}{}\n",
        letters(layout.kinds()),
        layout.base_bands(),
        layout.stereo_bands(),
        layout.total_bands(),
        layout.frame_size(),
        layout.minimum_resolution(),
        layout.maximum_resolution(),
        mode_words(layout.mode())
    )
}

fn say(text: &mut Text, header: &FileHeader) {
    let mut row = |name: &str, value: String| text.say(format_args!("{name:<14}{value}\n"));
    row("channels", header.channels().to_string());
    row("derived kinds", derived_kinds(header.channels(), header.stereo_bands()));
    row("base", header.base_bands().to_string());
    row("stereo", header.stereo_bands().to_string());
    row("total", header.total_bands().to_string());
    row("frame size", header.frame_size().to_string());
    row("minimum", header.minimum_resolution().to_string());
    row("maximum", header.maximum_resolution().to_string());
    row("rate", header.rate().to_string());
    row("frames", header.frames().to_string());
    row("padding", header.padding().to_string());
    let Some((frames, (start, end))) = header.loop_frames().zip(header.stream().loop_points) else {
        return row("loop", "none".to_string());
    };
    let first = format!("frame {}, delay {}", frames.frame, frames.delay);
    row("loop frames", format!("{first}; end frame {}, padding {}", frames.end_frame, frames.padding));
    row("loop samples", format!("{start} to {end}"));
}
