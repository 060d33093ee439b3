//! The library's header reader against the model, which guesses, writes and compares: number, layout and answer whole. Every accepted header
//! is written back by the library to the same bytes, and what the Rust wrote is read as what it was given. The published files have no
//! reader of headers.
use compare::front::{encoder_for, read_wav};
use compare::{differ, run, Options, Outcome};
use gen::header_back::{
    call, kind_of, looped, mend, twenty, under_pair, whole, BackCall, BANDS, DELAYS, FRAMES, KINDS, PADDINGS,
};
use published::driver::pattern_bytes;
use std::io::Cursor;

/// What a call left: number, layout, answer.
type Left = (u32, Vec<u32>, Vec<u32>);

fn left_by(call: &BackCall, model: bool) -> Left {
    let f = if model { hca_model::read_header } else { hca_frame::raw::read_header };
    let [mut layout, mut answer] = before(call);
    let number = f(&call.header, &mut layout, &mut answer);
    (number, layout, answer)
}

fn before(call: &BackCall) -> [Vec<u32>; 2] {
    let words = |salt, n: usize| {
        let bytes = pattern_bytes(call.pattern, salt, 4 * n);
        bytes.chunks_exact(4).map(|b| u32::from_le_bytes(b.try_into().expect("four"))).collect()
    };
    [words(1, call.places[0]), words(2, call.places[1])]
}

/// The points in samples, where there is a loop.
fn points_of(answer: &[u32]) -> Vec<u64> {
    let [looped, frame, delay, end, padding] = [3, 4, 5, 6, 7].map(|i| u64::from(answer[i]));
    match looped {
        0 => Vec::new(),
        _ => vec![1024 * frame + delay - 128, 1024 * (end + 1) - padding - 128],
    }
}

/// An accepted header, written by the library from what was handed out: with which number, and the bytes.
fn written_back((_, layout, answer): &Left, model: bool) -> (u32, [u8; 96]) {
    let f = if model { hca_model::write_header } else { compare::header::write_header };
    let mut header = [0x5A; 96];
    let stream = [0, 1, 2].map(|i| u64::from(answer[i]));
    (f(&layout[..7], &[0; 16], &stream, &points_of(answer), &mut header), header)
}

/// What the Rust was given, as the reader has to hand it out.
fn given(call: &BackCall, got: &Left) -> Option<String> {
    let from = call.from.as_ref()?;
    let defaults = [0, 0, 0, 0, 0, 1, 15];
    let layout: Vec<u32> = (0..7).map(|i| from.layout.get(i).copied().unwrap_or(defaults[i])).collect();
    let stream: Vec<u32> = from.stream[..3].iter().map(|&n| n as u32).collect();
    let points: Vec<u64> = if from.points.len() > 1 { from.points[..2].to_vec() } else { Vec::new() };
    let is_same = got.0 == 0 && got.1[..7] == layout && got.2[..3] == stream && points_of(&got.2) == points;
    (!is_same).then(|| format!("  written by the Rust from {from:?}\n  read as {got:?}\n"))
}

fn compared(call: &BackCall, model: bool) -> (u32, Option<String>) {
    let (expected, got) = (left_by(call, true), left_by(call, model));
    let lent = before(call);
    let mut text = String::new();
    if got.0 != expected.0 {
        text += &format!("  refusal number (0: delivered): expected {}, got {}\n", expected.0, got.0);
    }
    differ("layout", &lent[0], &expected.1, &got.1, &mut text);
    differ("answer", &lent[1], &expected.2, &got.2, &mut text);
    if got.0 == 0 && text.is_empty() {
        let (number, bytes) = written_back(&got, model);
        if number != 0 || bytes != call.header[..96] {
            text += &format!("  written back: {number}, {bytes:02x?}\n");
        }
    }
    text += &given(call, &got).unwrap_or_default();
    (expected.0, (!text.is_empty()).then(|| format!("  {call:?}\n{text}")))
}

fn named(number: u32) -> String {
    match number {
        0 => "accepted".to_string(),
        n => format!("refusal {n}"),
    }
}

/// A list of cases, all of them tried.
struct Listed {
    model: bool,
    good: bool,
}

impl Listed {
    fn run(&mut self, name: &str, calls: impl Iterator<Item = BackCall>) {
        let mut counts = std::collections::BTreeMap::new();
        let (mut all, mut differences) = (0, 0);
        for call in calls {
            let (number, difference) = compared(&call, self.model);
            all += 1;
            *counts.entry(named(number)).or_insert(0) += 1;
            if let Some(text) = difference {
                differences += 1;
                if self.good {
                    println!("FIRST DIFFERENCE, {name}:\n{text}");
                }
                self.good = false;
            }
        }
        let counts: Vec<String> = counts.iter().map(|(what, n)| format!("{what}: {n}")).collect();
        println!("{name}: {all} calls, {differences} with a difference ({})", counts.join(", "));
    }
}

/// The header with other bytes, the check mended.
fn changed(header: &[u8], bytes: &[(usize, u8)]) -> BackCall {
    let mut out = header.to_vec();
    bytes.iter().for_each(|&(at, byte)| out[at] = byte);
    mend(&mut out);
    whole(out)
}

/// Each of 94 bytes at every value.
fn each_byte(header: &[u8]) -> impl Iterator<Item = BackCall> + '_ {
    (0..94).flat_map(move |at| (0..=255).map(move |byte| changed(header, &[(at, byte)])))
}

fn loops(header: &[u8]) -> impl Iterator<Item = BackCall> + '_ {
    let ends = FRAMES.into_iter().flat_map(|frame| FRAMES.into_iter().map(move |end| (frame, end)));
    let rests = || DELAYS.into_iter().flat_map(|delay| PADDINGS.into_iter().map(move |padding| (delay, padding)));
    ends.flat_map(move |(frame, end)| rests().map(move |(d, p)| whole(looped(header, frame, d, end, p))))
}

fn bands(header: &[u8]) -> impl Iterator<Item = BackCall> + '_ {
    let triples = BANDS.into_iter().flat_map(|t| BANDS.into_iter().flat_map(move |b| BANDS.into_iter().map(move |s| [t, b, s])));
    // with every number of bands a group: also the one that a sum of eight bits would have
    triples.flat_map(move |[t, b, s]| (0..=32).map(move |g| changed(header, &[(34, t), (35, b), (36, s), (37, g)])))
}

fn lengths(header: &[u8]) -> Vec<BackCall> {
    let mut file = header.to_vec();
    file.extend([0xFF; 5000]);
    let mut all: Vec<BackCall> = [0, 1, 94, 95, 96, 97, file.len()].map(|n| whole(file[..n].to_vec())).to_vec();
    for places in (0..=9).flat_map(|l| (0..=10).map(move |a| [l, a])) {
        all.push(BackCall { places, ..whole(header.to_vec()) });
        all.push(BackCall { places, ..changed(header, &[(3, 1)]) });
    }
    all
}

/// The files that the Rust's `encode` writes of the sample lines, with and without a loop, lent whole.
fn sample_files() -> Result<Vec<BackCall>, String> {
    let mut all = Vec::new();
    for (name, bitrate) in [("line", 48_000), ("pair", 72_000)] {
        let wav = read_wav(&format!("{}/../../sample/{name}.wav", env!("CARGO_MANIFEST_DIR")))?;
        for points in [None, Some((0, 896)), Some((5_000, 40_000))] {
            let mut e = encoder_for(&wav, bitrate)?;
            (e.config.loop_start, e.config.loop_end) = (points.map(|p| p.0), points.map(|p| p.1));
            let mut file = Cursor::new(Vec::new());
            e.encode(&wav.samples, &mut file).map_err(|e| e.to_string())?;
            let call = whole(file.into_inner());
            let frames = (call.header.len() - 96) / e.frame_size as usize;
            let (number, layout, answer) = left_by(&call, false);
            if number != 0 || layout[4] != e.frame_size || answer[1] as usize != frames || answer[0] != wav.rate {
                return Err(format!("{name}: answered {number}, {layout:?}, {answer:?}"));
            }
            all.push(call);
        }
    }
    Ok(all)
}

/// All that the request lists; with few cases the bytes of two headers in place of twenty.
fn listed(is_whole: bool, model: bool) -> bool {
    let mut list = Listed { model, good: true };
    let twenty = twenty();
    let headers = if is_whole { &twenty[..] } else { &[twenty[0].clone(), twenty[19].clone()] };
    list.run("each of 94 bytes at every value", headers.iter().flat_map(|header| each_byte(header)));
    let (plain, turned) = (&twenty[0], &twenty[19]);
    let loop_or_none = |nth| [false, true].map(|is_looped| under_pair(nth, is_looped));
    list.run("written by the Rust under each pair", (0..120).flat_map(loop_or_none));
    list.run("loop numbers", loops(plain));
    list.run("pairs 0..17", (0..=17).flat_map(|a| (0..=17).map(move |b| changed(turned, &[(30, a), (31, b)]))));
    let most = if is_whole { 255 } else { 17 };
    list.run("channels and configurations", (0..=255).flat_map(|c| (0..=most).map(move |f| changed(plain, &[(12, c), (33, f)]))));
    list.run("bands, with 33 numbers a group", bands(plain));
    list.run("lengths", lengths(turned).into_iter());
    match sample_files() {
        Ok(calls) => list.run("files of the Rust's encode, lent whole", calls.into_iter()),
        Err(what) => {
            println!("SAMPLE LINES: {what}");
            list.good = false;
        }
    }
    list.good
}

fn main() {
    let o = Options::parse("compare-header-back", 100_000, 3_000);
    let mut good = run(&o, "compare-header-back", |k| {
        let (number, difference) = compared(&call(o.seed, k), o.model);
        Outcome { kind: KINDS[kind_of(k).0].0, counted: vec![named(number)], difference }
    });
    if o.only.is_none() {
        good &= listed(o.cases >= 100_000, o.model);
    }
    std::process::exit(if good { 0 } else { 1 });
}
