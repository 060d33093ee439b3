//! The six calls that take a layout, as one: what each leaves, all written buffers one after the other, the answer last.
use gen::records::{self, ReadCall, WriteCall};
use published::driver::{pattern_bytes, pattern_words, StageCall};
use published::header::HeaderCall;
use published::line::LineCall;
use published::stereo::StereoLent;

#[derive(Clone)]
pub enum Call {
    Stage(StageCall),
    Stereo(StageCall),
    Line(LineCall),
    Write(WriteCall),
    Read(ReadCall),
    Header(HeaderCall),
}

/// Buffers as bytes.
#[derive(Default)]
struct Bytes(Vec<u8>);

impl Bytes {
    fn words(mut self, words: impl IntoIterator<Item = u32>) -> Self {
        self.0.extend(words.into_iter().flat_map(u32::to_le_bytes));
        self
    }
    fn floats(self, floats: &[f32]) -> Self {
        self.words(floats.iter().map(|v| v.to_bits()))
    }
    fn codes(self, codes: &[i32]) -> Self {
        self.words(codes.iter().map(|&v| v as u32))
    }
    fn bytes(mut self, bytes: &[u8]) -> Self {
        self.0.extend(bytes);
        self
    }
}

impl Call {
    /// The calls of the reader or of the writer in a case.
    pub fn records(k: u64, read: bool) -> Vec<Call> {
        let one = |call| match call {
            records::Call::Read(call) if read => Some(Call::Read(call)),
            records::Call::Write(call) if !read => Some(Call::Write(call)),
            _ => None,
        };
        records::calls(1, k).into_iter().filter_map(one).take(8).collect()
    }

    pub fn name(&self) -> &'static str {
        match self {
            Call::Stage(_) => "stage",
            Call::Stereo(_) => "stereo",
            Call::Line(_) => "line",
            Call::Write(_) => "writer",
            Call::Read(_) => "reader",
            Call::Header(_) => "header",
        }
    }

    pub fn layout(&self) -> &Vec<u32> {
        match self {
            Call::Stage(call) | Call::Stereo(call) => &call.layout,
            Call::Line(call) => &call.layout,
            Call::Write(call) => &call.layout,
            Call::Read(call) => &call.layout,
            Call::Header(call) => &call.layout,
        }
    }

    fn set_layout(mut self, numbers: Vec<u32>) -> Call {
        match &mut self {
            Call::Stage(call) | Call::Stereo(call) => call.layout = numbers,
            Call::Line(call) => call.layout = numbers,
            Call::Write(call) => call.layout = numbers,
            Call::Read(call) => call.layout = numbers,
            Call::Header(call) => call.layout = numbers,
        }
        self
    }

    /// The same with these numbers behind the layout's fifth.
    pub fn with(&self, behind: &[u32]) -> Call {
        self.clone().set_layout([&self.layout()[..5], behind].concat())
    }

    /// The same with so many numbers of the layout.
    pub fn cut(&self, numbers: usize) -> Call {
        self.clone().set_layout(self.layout()[..numbers].to_vec())
    }

    /// Places of its answer.
    fn answer_length(&self) -> usize {
        match self {
            Call::Stage(call) | Call::Stereo(call) => call.lengths[5],
            Call::Line(call) => call.lengths[6],
            Call::Write(call) => call.lengths[1],
            Call::Read(call) => call.lengths[3],
            Call::Header(_) => 0,
        }
    }

    /// The answer in what a call left; zeros where it has fewer places.
    pub fn answer(&self, left: &[u8]) -> [u32; 4] {
        let places = &left[left.len() - 4 * self.answer_length()..];
        let mut words = places.chunks_exact(4).map(|b| u32::from_le_bytes(b.try_into().expect("four bytes")));
        std::array::from_fn(|_| words.next().unwrap_or(0))
    }

    /// Is all as it was lent, but for a 0 at the answer's first place? A short answer may have it or not.
    pub fn is_untouched(&self, left: &[u8]) -> bool {
        let lent = self.called(None).1;
        let mut refused = lent.clone();
        let at = lent.len() - 4 * self.answer_length();
        refused[at..].iter_mut().take(4).for_each(|byte| *byte = 0);
        left == refused || (self.answer_length() < 4 && left == lent)
    }

    /// Number and buffers, by the library or by the model.
    pub fn left(&self, model: bool) -> (u32, Vec<u8>) {
        self.called(Some(model))
    }

    /// Without a callee what is lent.
    fn called(&self, by: Option<bool>) -> (u32, Vec<u8>) {
        match self {
            Call::Stage(call) => stage(call, by),
            Call::Stereo(call) => stereo(call, by),
            Call::Line(call) => line(call, by),
            Call::Write(call) => write(call, by),
            Call::Read(call) => read(call, by),
            Call::Header(call) => header(call, by),
        }
    }
}

fn stage(call: &StageCall, by: Option<bool>) -> (u32, Vec<u8>) {
    let mut b = call.lent();
    let number = by.map_or(0, |model| {
        let f = if model { hca_model::encode_frame } else { hca_frame::raw::encode_frame };
        f(
            &call.layout,
            &call.kinds,
            &call.spectra,
            &call.intensities,
            &mut b.scaled,
            &mut b.codes,
            &mut b.factors,
            &mut b.side,
            &mut b.frame,
            &mut b.answer,
        )
    });
    let left = Bytes::default().floats(&b.scaled).codes(&b.codes).bytes(&b.factors).bytes(&b.side).bytes(&b.frame);
    (number, left.words(b.answer).0)
}

fn stereo(call: &StageCall, by: Option<bool>) -> (u32, Vec<u8>) {
    let StereoLent { mut spectra, mut intensities, stage: mut b } = StereoLent::of(call);
    let number = by.map_or(0, |model| {
        let f = if model { hca_model::encode_stereo_frame } else { hca_frame::raw::encode_stereo_frame };
        f(
            &call.layout,
            &call.kinds,
            &mut spectra,
            &mut intensities,
            &mut b.scaled,
            &mut b.codes,
            &mut b.factors,
            &mut b.side,
            &mut b.frame,
            &mut b.answer,
        )
    });
    let left = Bytes::default().floats(&spectra).bytes(&intensities).floats(&b.scaled).codes(&b.codes);
    (number, left.bytes(&b.factors).bytes(&b.side).bytes(&b.frame).words(b.answer).0)
}

fn line(call: &LineCall, by: Option<bool>) -> (u32, Vec<u8>) {
    let mut b = call.lent();
    let number = by.map_or(0, |model| {
        let f = if model { hca_model::encode_line } else { hca_frame::raw::encode_line };
        f(
            &call.layout,
            &call.kinds,
            call.count,
            &call.spectra,
            &call.intensities,
            &mut b.scaled,
            &mut b.codes,
            &mut b.factors,
            &mut b.side,
            &mut b.frames,
            &mut b.answers,
            &mut b.tally,
            &mut b.answer,
        )
    });
    let tally = b.tally.iter().flat_map(|&n| [n as u32, (n >> 32) as u32]);
    let left = Bytes::default().words(tally).floats(&b.scaled).codes(&b.codes).bytes(&b.factors).bytes(&b.side);
    (number, left.bytes(&b.frames).words(b.answers).words(b.answer).0)
}

fn write(call: &WriteCall, by: Option<bool>) -> (u32, Vec<u8>) {
    let mut frame = pattern_bytes(call.pattern, 4, call.lengths[0]);
    let mut answer = pattern_words(call.pattern, 5, call.lengths[1]);
    let number = by.map_or(0, |model| {
        let f = if model { hca_model::write_record } else { hca_frame::raw::write_record };
        f(&call.layout, &call.kinds, &call.record, &call.factors, &call.side, &call.codes, &mut frame, &mut answer)
    });
    (number, Bytes::default().bytes(&frame).words(answer).0)
}

fn read(call: &ReadCall, by: Option<bool>) -> (u32, Vec<u8>) {
    let (p, l) = (call.pattern, &call.lengths);
    let (mut factors, mut side) = (pattern_bytes(p, 2, l[0]), pattern_bytes(p, 3, l[1]));
    let mut codes: Vec<i32> = pattern_words(p, 1, l[2]).iter().map(|&w| w as i32).collect();
    let mut answer = pattern_words(p, 5, l[3]);
    let number = by.map_or(0, |model| {
        let f = if model { hca_model::read_frame } else { hca_frame::raw::read_frame };
        f(&call.layout, &call.kinds, &call.frame, &mut factors, &mut side, &mut codes, &mut answer)
    });
    (number, Bytes::default().bytes(&factors).bytes(&side).codes(&codes).words(answer).0)
}

fn header(call: &HeaderCall, by: Option<bool>) -> (u32, Vec<u8>) {
    let mut header = pattern_bytes(call.pattern, 4, call.length);
    let number = by.map_or(0, |model| {
        let f = if model { hca_model::write_header } else { compare::header::write_header };
        f(&call.layout, &call.kinds, &call.stream, &call.points, &mut header)
    });
    (number, header)
}
