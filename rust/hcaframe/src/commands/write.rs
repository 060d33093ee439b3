//! Records to frames.
use crate::files::{Ended, Files};
use crate::input::Blocks;
use crate::options::Name;
use crate::parse::Options;
use crate::progress::Progress;
use crate::stop::Stop;
use crate::text::Text;
use crate::{records, report};
use hca_frame::{write_record_into, Layout, Record};

/// As many records are read at once.
const BATCH: usize = 16;

pub fn run(options: &Options, layout: &Layout, text: &mut Text) -> Result<Ended, Stop> {
    let mut files = Files::new(options, text);
    let input = files.input(Name::Records)?.ok_or_else(|| Stop::wrong("no records"))?;
    let mut blocks = Blocks::new(input, records::size(layout))?;
    files.inputs_are_apart()?;
    files.output(Name::Out)?;
    let mut outputs = files.outputs();
    let mut progress = Progress::new(options, text, blocks.known);
    let mut record = Record::silent(layout);
    let mut frame = vec![0; layout.frame_size()];
    let mut bytes = vec![0; BATCH * blocks.size];
    let mut done = 0;
    report::record_head(text);
    loop {
        let (count, rest) = blocks.read(&mut bytes);
        for block in bytes.chunks_exact(blocks.size).take(count) {
            records::take(block, &mut record);
            let bits = write_record_into(layout, &record, &mut frame)
                .map_err(|refusal| Stop::refused(report::refused_frame(done, refusal)))?;
            report::record_row(text, done, &record, bits);
            outputs.put(Name::Out, &frame)?;
            done += 1;
        }
        text.flush();
        if !blocks.goes_on(rest)? {
            break;
        }
        progress.at(done);
    }
    blocks.has_frames(options.is_given(Name::AllowEmpty))?;
    report::total(text, layout, done);
    outputs.end(0)
}
