//! Spectra to frames, with the list beside them where it is asked for.
use crate::files::{Ended, Files, Outputs};
use crate::input::{Blocks, Rest};
use crate::options::Name;
use crate::parse::Options;
use crate::progress::Progress;
use crate::report;
use crate::stop::Stop;
use crate::text::Text;
use hca_frame::{write_list, Delivered, Encoder, Kind, Layout, Refusal, Tally};

/// The spectra of a batch take about this many bytes; a frame's take 4,096 a channel.
const BATCH: usize = 1 << 21;

pub fn run(options: &Options, layout: &Layout, text: &mut Text) -> Result<Ended, Stop> {
    let is_unmixed = options.is_given(Name::Unmixed);
    if !is_unmixed && !options.is_given(Name::Intensities) && layout.kinds().contains(&Kind::StereoSecondary) {
        return Err(options.fault(Name::Intensities, " is missing, and a channel is S"));
    }
    let mut files = Files::new(options, text);
    let inputs = Inputs::open(&mut files, layout, if is_unmixed { Name::Unmixed } else { Name::Spectra })?;
    files.inputs_are_apart()?;
    files.output(Name::Out)?;
    if options.is_given(Name::List) {
        can_be_listed(inputs.spectra.known.unwrap_or(0))?;
    }
    files.output(Name::List)?;
    let progress = Progress::new(options, text, inputs.spectra.known);
    let is_listed = options.is_given(Name::List);
    let batch = Batch::new(layout, is_unmixed);
    let mut run = Run { inputs, outputs: files.outputs(), batch, text, progress, done: 0, entries: Vec::new(), is_listed };
    run.all(options.is_given(Name::AllowEmpty))?;
    run.end(layout)
}

/// A list counts its frames in 32 bits.
fn can_be_listed(frames: u64) -> Result<(), Stop> {
    match frames <= u64::from(u32::MAX) {
        true => Ok(()),
        false => Err(Stop::wrong("a list has at most 4294967295 frames, and the spectra have more")),
    }
}

struct Inputs {
    spectra: Blocks,
    intensities: Option<Blocks>,
}

impl Inputs {
    fn open(files: &mut Files, layout: &Layout, name: Name) -> Result<Inputs, Stop> {
        let spectra = files.input(name)?.ok_or_else(|| Stop::wrong("no spectra"))?;
        let spectra = Blocks::new(spectra, layout.channels() * 4096)?;
        let intensities = match files.input(Name::Intensities)? {
            Some(file) => Some(Blocks::new(file, layout.channels() * 8)?),
            None => None,
        };
        if let (Some(a), Some(b)) = (spectra.known, intensities.as_ref().and_then(|file| file.known)) {
            if a != b {
                return Err(Stop::wrong("the intensities are not of as many frames as the spectra"));
            }
        }
        Ok(Inputs { spectra, intensities })
    }

    /// What is behind the frames that were taken from both.
    fn go_on(&self, rest: Rest, behind_intensities: Option<Rest>) -> Result<bool, Stop> {
        if let (Some(file), Some(rest)) = (&self.intensities, behind_intensities) {
            if matches!(rest, Rest::End) {
                return Err(Stop::wrong("the intensities end before the spectra"));
            }
            file.goes_on(rest)?;
        }
        let is_more = self.spectra.goes_on(rest)?;
        if !is_more && self.intensities.as_ref().is_some_and(|file| !file.is_at_end()) {
            return Err(Stop::wrong("the spectra end before the intensities"));
        }
        Ok(is_more)
    }
}

/// The buffers of some frames, and the encoder.
struct Batch {
    encoder: Encoder,
    is_unmixed: bool,
    bytes: Vec<u8>,
    spectra: Vec<f32>,
    intensities: Vec<u8>,
    frames: Vec<u8>,
    answers: Vec<Delivered>,
}

impl Batch {
    fn new(layout: &Layout, is_unmixed: bool) -> Batch {
        let values = layout.channels() * 1024;
        let count = BATCH / (4 * values);
        Batch {
            encoder: Encoder::new(layout.clone()),
            is_unmixed,
            bytes: vec![0; count * 4 * values],
            spectra: vec![0.0; count * values],
            intensities: vec![0; count * layout.channels() * 8],
            frames: vec![0; count * layout.frame_size()],
            answers: vec![Delivered::default(); count],
        }
    }

    /// The next frames of the inputs: how many have both spectra and intensities, and what follows in each; none of intensities that
    /// were as many as the spectra.
    fn fill(&mut self, inputs: &mut Inputs) -> (usize, Rest, Option<Rest>) {
        let (count, rest) = inputs.spectra.read(&mut self.bytes);
        for (value, bytes) in self.spectra.iter_mut().zip(self.bytes.chunks_exact(4)) {
            *value = f32::from_le_bytes([bytes[0], bytes[1], bytes[2], bytes[3]]);
        }
        let Some(file) = inputs.intensities.as_mut().filter(|_| 0 < count) else {
            self.intensities.fill(0);
            return (count, rest, None);
        };
        let size = file.size;
        match file.read(&mut self.intensities[..count * size]) {
            (n, behind) if n < count => (n, rest, Some(behind)),
            _ => (count, rest, None),
        }
    }

    /// Encodes the first frames; says how many were made, and why the next one was refused.
    fn encode(&mut self, count: usize) -> (usize, Option<Refusal>) {
        let (spectra, intensities) = (&mut self.spectra, &mut self.intensities);
        let (frames, answers) = (&mut self.frames, &mut self.answers);
        let mut tally = Tally::default();
        let line = match self.is_unmixed {
            true => self.encoder.encode_stereo_line(count, spectra, intensities, frames, answers, &mut tally),
            false => self.encoder.encode_line(count, spectra, intensities, frames, answers, &mut tally),
        };
        match line {
            Ok(()) => (count, None),
            Err(no) => (no.frame.unwrap_or(0), Some(no.refusal)),
        }
    }
}

struct Run<'a> {
    inputs: Inputs,
    outputs: Outputs,
    batch: Batch,
    text: &'a mut Text,
    progress: Progress,
    done: u64,
    entries: Vec<Delivered>,
    is_listed: bool,
}

impl Run<'_> {
    fn all(&mut self, may_be_empty: bool) -> Result<(), Stop> {
        report::stage_head(self.text);
        loop {
            let (count, rest, behind_intensities) = self.batch.fill(&mut self.inputs);
            let (made, refusal) = self.batch.encode(count);
            self.keep(made)?;
            if let Some(refusal) = refusal {
                return Err(Stop::refused(report::refused_frame(self.done, refusal)));
            }
            if !self.inputs.go_on(rest, behind_intensities)? {
                return self.inputs.spectra.has_frames(may_be_empty);
            }
            self.progress.at(self.done);
        }
    }

    /// The frames that were made: their bytes, their lines and their numbers.
    fn keep(&mut self, made: usize) -> Result<(), Stop> {
        for done in &self.batch.answers[..made] {
            report::stage_row(self.text, self.done, done);
            if self.is_listed {
                self.entries.push(*done);
            }
            self.done += 1;
        }
        if self.is_listed {
            can_be_listed(self.done)?;
        }
        self.text.flush();
        let size = self.batch.encoder.layout().frame_size();
        self.outputs.put(Name::Out, &self.batch.frames[..made * size])
    }

    fn end(mut self, layout: &Layout) -> Result<Ended, Stop> {
        report::total(self.text, layout, self.done);
        if self.is_listed {
            let list = write_list(&self.entries).map_err(|no| Stop::refused(report::refused_file(no)))?;
            self.outputs.put(Name::List, &list)?;
        }
        self.outputs.end(0)
    }
}
