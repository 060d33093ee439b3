//! A whole line in one call, and its list.
use hca_frame::{
    list_summary, read_list, write_list, Delivered, Encoder, Kind, Layout, LineRefusal, Refusal, RefusalKind, Tally,
};

// Five silent Discrete channels in eight bytes, three frames, with two more bytes and one more answer behind them.
struct Line {
    encoder: Encoder,
    spectra: Vec<f32>,
    frames: Vec<u8>,
    answers: Vec<Delivered>,
    tally: Tally,
}

const SILENT: [u8; 8] = [0xFF, 0xFF, 0, 0, 0, 0, 0, 0xD8];

impl Line {
    fn new() -> Self {
        let five = Layout::builder().channels(&[Kind::Discrete; 5]).bands(1, 0, 1).frame_size(8).build().unwrap();
        let tally = Tally::new(5, 6, 7);
        let answers = vec![Delivered::from([9; 4]); 4];
        Line { encoder: Encoder::new(five), spectra: vec![0.0; 3 * 5 * 1024], frames: vec![9; 26], answers, tally }
    }

    fn encode(&mut self, count: usize) -> Result<(), LineRefusal> {
        self.encoder.encode_line(count, &self.spectra, &[0; 120], &mut self.frames, &mut self.answers, &mut self.tally)
    }

    fn holds(&self, frames: &[[u8; 8]], tally: (u64, u64, u64), done: usize) {
        let bytes: Vec<u8> = frames.concat().into_iter().chain([9; 26].into_iter().skip(8 * frames.len())).collect();
        assert_eq!(self.frames, bytes);
        let answers: Vec<Delivered> = (0..4).map(|k| if k < done { [0, 0, 0, 47] } else { [9; 4] }.into()).collect();
        assert_eq!(self.answers, answers);
        assert_eq!((self.tally.frames, self.tally.bits, self.tally.pairs), tally);
    }
}

#[test]
fn a_line_of_three_silent_frames() {
    let mut line = Line::new();
    assert_eq!(line.encode(3), Ok(()));
    line.holds(&[SILENT; 3], (8, 147, 7), 3);
    assert_eq!(line.encoder.frame(), [0; 8]);
}

#[test]
fn a_line_stops_before_an_infinite_value() {
    let mut line = Line::new();
    line.spectra[5 * 1024 + 1024] = f32::INFINITY;
    let no = line.encode(3).unwrap_err();
    assert_eq!(no, LineRefusal { refusal: Refusal::new(4, 1024), frame: Some(1) });
    assert_eq!(no.to_string(), "frame 1: refusal 4: spectrum 1024 is NaN or infinite");
    line.holds(&[SILENT], (6, 53, 7), 1);
}

#[test]
fn a_line_stops_at_a_frame_without_level() {
    let mut line = Line::new();
    for i in (0..5 * 1024).step_by(128) {
        line.spectra[5 * 1024 + i] = 10.0;
    }
    let no = line.encode(3).unwrap_err();
    assert_eq!(no, LineRefusal { refusal: Refusal::new(5, 0), frame: Some(1) });
    line.holds(&[SILENT, [0; 8]], (6, 53, 7), 1);
    assert!(line.encoder.scaled().iter().all(|&x| x == 0.0));
}

#[test]
fn a_line_of_no_frames_changes_nothing() {
    let mut line = Line::new();
    assert_eq!(line.encode(0), Ok(()));
    line.holds(&[], (5, 6, 7), 0);
}

#[test]
fn a_line_is_judged_before_its_frames() {
    let refused = |no: Result<(), LineRefusal>| no.map_err(|no| (no.refusal.number, no.refusal.place, no.frame));
    let mut line = Line::new();
    line.spectra[0] = f32::NAN;
    assert_eq!(refused(line.encode(65_536)), Err((18, 0, None)));
    assert_eq!(refused(line.encode(65_535)), Err((2, 0, None)));
    assert_eq!(refused(line.encode(4)), Err((2, 0, None)));
    line.tally.pairs = (1 << 63) + 1;
    assert_eq!(refused(line.encode(0)), Err((18, 0, None)));
    line.holds(&[], (5, 6, (1 << 63) + 1), 0);
    line.tally.pairs = 1 << 63;
    assert_eq!(refused(line.encode(0)), Ok(()));
    assert_eq!(refused(line.encode(1)), Err((4, 0, Some(0))));
    line.holds(&[], (5, 6, 1 << 63), 0);
    let no = Refusal::new(18, 0);
    assert_eq!(no.kind(), RefusalKind::BadBatch);
    assert_eq!(no.to_string(), "refusal 18: the line has more than 65,535 frames, or a count of its tally is above 2^63");
}

#[test]
fn a_line_is_its_single_calls() {
    let l = Layout::builder().channel(Kind::Discrete).bands(30, 0, 60).frame_size(90).build().unwrap();
    let spectra: Vec<f32> = (0..4 * 1024).map(|i| ((i * 37 % 101) as f32 - 50.0) / (8 + 8 * (i % 128)) as f32).collect();
    let (mut frames, mut answers, mut tally) = (vec![0; 4 * 90], vec![Delivered::default(); 4], Tally::default());
    let mut whole = Encoder::new(l.clone());
    whole.encode_line(4, &spectra, &[0; 32], &mut frames, &mut answers, &mut tally).unwrap();
    let mut one = Encoder::new(l);
    let mut sum = Tally::default();
    for k in 0..4 {
        let done = one.encode_frame(&spectra[k * 1024..][..1024], &[0; 8]).unwrap();
        assert_eq!(one.frame(), &frames[k * 90..][..90]);
        assert_eq!(done, answers[k]);
        sum = Tally::new(sum.frames + 1, sum.bits + u64::from(done.bits), sum.pairs + u64::from(done.pairs));
    }
    assert_eq!(tally, sum);
    let list = write_list(&answers).unwrap();
    assert_eq!(read_list(&list).unwrap(), answers);
    assert_eq!(list_summary(&list).unwrap().bits, tally.bits);
    assert_eq!((whole.codes(), whole.side(), whole.factors()), (one.codes(), one.side(), one.factors()));
}

// Frame after frame of a pair that is mixed: what the single calls leave is left, spectra and intensities too.
fn stereo_line(loud: Option<usize>) -> (Result<(), LineRefusal>, usize) {
    let pair = [Kind::StereoPrimary, Kind::StereoSecondary];
    let l = Layout::builder().channels(&pair).bands(20, 20, 60).frame_size(120).build().unwrap();
    let mut spectra: Vec<f32> = (0..4 * 2048).map(|i| ((i * 37 % 101) as f32 - 50.0) / (8 + 8 * (i % 128)) as f32).collect();
    if let Some(k) = loud {
        spectra[k * 2048 + 2047] = 65_537.0;
    }
    let (mut line_spectra, mut line_intensities) = (spectra.clone(), vec![3; 4 * 16]);
    let (mut frames, mut answers, mut tally) = (vec![9; 4 * 120], vec![Delivered::default(); 4], Tally::default());
    let mut whole = Encoder::new(l.clone());
    let end = whole.encode_stereo_line(4, &mut line_spectra, &mut line_intensities, &mut frames, &mut answers, &mut tally);
    let (mut one, mut intensities, mut sum) = (Encoder::new(l), vec![3; 4 * 16], Tally::default());
    let mut done = 0;
    while done < 4 {
        let Ok(numbers) = one.encode_stereo_frame(&mut spectra[done * 2048..][..2048], &mut intensities[done * 16..][..16])
        else {
            break;
        };
        assert_eq!(one.frame(), &frames[done * 120..][..120]);
        assert_eq!(numbers, answers[done]);
        sum = Tally::new(sum.frames + 1, sum.bits + u64::from(numbers.bits), sum.pairs + u64::from(numbers.pairs));
        done += 1;
    }
    assert_eq!((tally, line_spectra, line_intensities), (sum, spectra, intensities));
    assert!(frames[done * 120..].iter().all(|&byte| byte == 9));
    (end, done)
}

#[test]
fn a_stereo_line_is_its_single_calls() {
    assert_eq!(stereo_line(None), (Ok(()), 4));
}

#[test]
fn a_stereo_line_stops_at_a_frame_that_is_too_loud() {
    let refusal = Refusal::new(Refusal::TOO_LOUD, 0);
    for k in 0..4 {
        assert_eq!(stereo_line(Some(k)), (Err(LineRefusal { refusal, frame: Some(k) }), k));
    }
}
