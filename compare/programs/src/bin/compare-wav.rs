//! The library's WAV reader against the Rust's own lines (samples, format, which files) and against the model in C++ (all of
//! it, the level note too), every slice whole. The Rust's unchanged function is held against its `encode` on the
//! library's samples.
use compare::{differ, run, Options, Outcome};
use gen::wav::{call, kind_of, long, take, KINDS};
use published::driver::pattern_words;
use published::hca::encoder::{encode_wav_to_hca, HcaEncoder, HcaEncoderConfig};
use published::wav::{by_rust, numbers, Heard, WavCall};
use std::io::Cursor;

type ReadWav = fn(&[u8], &mut [f32], &mut [f32], &mut [u32]) -> u32;

#[derive(Clone)]
struct Lent {
    samples: Vec<f32>,
    note: Vec<f32>,
    answer: Vec<u32>,
}

impl Lent {
    fn of(call: &WavCall) -> Self {
        let (p, l) = (call.pattern, &call.lengths);
        // never NaN, so that a copy keeps the bits
        let floats = |buffer, n| pattern_words(p, buffer, n).iter().map(|w| f32::from_bits(w & 0xBFFF_FFFF)).collect();
        Lent { samples: floats(0, l[0]), note: floats(9, l[1]), answer: pattern_words(p, 5, l[2]) }
    }

    fn read(&mut self, f: ReadWav, wav: &[u8]) -> u32 {
        f(wav, &mut self.samples, &mut self.note, &mut self.answer)
    }
}

/// What the Rust says of the answer: the number, and where it delivers format and samples.
fn against_rust(call: &WavCall, heard: &Heard, got: u32, g: &Lent, text: &mut String) {
    let may = numbers(call, heard);
    if !may.contains(&got) {
        text.push_str(&format!("  by the Rust: one of {may:?}, got {got}\n"));
    }
    let (0, Heard::Samples { samples, channels, rate, depth }) = (got, heard) else { return };
    let answer = [*channels, *rate, *depth, samples.len() as u32];
    if g.answer[..4] != answer {
        text.push_str(&format!("  by the Rust: {answer:?}, got {:?}\n", g.answer));
    } else {
        let got = &g.samples[..samples.len()];
        differ("samples by the Rust", got, samples, got, text);
    }
}

fn outcome(number: u32, heard: &Heard, answer: &[u32]) -> Vec<String> {
    let mut counted = match number {
        0 if answer[3] == 0 => vec!["delivered".to_string(), "(no sample)".to_string()],
        0 => vec!["delivered".to_string()],
        n => vec![format!("refusal {n}")],
    };
    counted.extend(matches!(heard, Heard::Panic).then(|| format!("(the Rust panics: {number})")));
    counted
}

fn compared(call: &WavCall, library: ReadWav) -> (Vec<String>, Option<String>) {
    let before = Lent::of(call);
    let (mut e, mut g) = (before.clone(), before.clone());
    let number = e.read(hca_model::read_wav, &call.wav);
    let got = g.read(library, &call.wav);
    let heard = by_rust(&call.wav);
    let mut text = String::new();
    if number != got {
        text.push_str(&format!("  refusal number (0: delivered): the model {number}, got {got}\n"));
    }
    differ("samples", &before.samples, &e.samples, &g.samples, &mut text);
    differ("note", &before.note, &e.note, &g.note, &mut text);
    differ("answer", &before.answer, &e.answer, &g.answer, &mut text);
    against_rust(call, &heard, got, &g, &mut text);
    (outcome(number, &heard, &e.answer), (!text.is_empty()).then_some(text))
}

fn hex(bytes: &[u8]) -> String {
    bytes.iter().map(|b| format!("{b:02x}")).collect()
}

/// Exactly 2^24 samples, and one more.
fn long_files(library: ReadWav) -> Result<(), String> {
    for (count, outcome) in [(1 << 24, "delivered"), ((1 << 24) + 1, "refusal 30")] {
        let call = WavCall { wav: long(count), lengths: [count, 2, 4], pattern: 24 };
        let (counted, difference) = compared(&call, library);
        match difference {
            Some(text) => return Err(format!("{count} samples:\n{text}")),
            None if counted != [outcome] => return Err(format!("{count} samples: {counted:?}, not {outcome}")),
            None => {}
        }
    }
    println!("2^24 samples are delivered, one more is refused");
    Ok(())
}

/// The Rust's whole function writes what its encoder writes of the library's samples, or fails as that does.
fn whole_function(seed: u64, files: u64, library: ReadWav) -> Result<(), String> {
    let (mut equal, mut failed) = (0, 0);
    for k in 0..files {
        let wav = take(seed, k);
        let mut lent = Lent::of(&WavCall { wav: Vec::new(), lengths: [wav.len() / 2, 2, 4], pattern: 1 });
        let number = lent.read(library, &wav);
        if number != 0 {
            return Err(format!("take {k}: refused with {number}"));
        }
        let [channels, rate, _, count] = lent.answer[..] else { unreachable!("four places") };
        let (mut theirs, mut ours) = (Cursor::new(Vec::new()), Cursor::new(Vec::new()));
        let a = encode_wav_to_hca(&wav, &mut theirs, None).map_err(|e| e.to_string());
        let b = HcaEncoder::new(HcaEncoderConfig::new(rate, channels))
            .and_then(|mut e| e.encode(&lent.samples[..count as usize], &mut ours))
            .map_err(|e| e.to_string());
        if a != b || theirs != ours {
            return Err(format!("take {k}: the Rust's function {a:?}, its encoder on the samples {b:?}, or other bytes"));
        }
        *if a.is_ok() { &mut equal } else { &mut failed } += 1;
    }
    println!("the Rust's whole function on {files} takes: {equal} files equal, {failed} refused alike");
    Ok(())
}

fn main() {
    let o = Options::parse("compare-wav", 100_000, 3_000);
    let library: ReadWav = if o.model { hca_model::read_wav } else { compare::wav::read_wav };
    let mut good = run(&o, "compare-wav", |k| {
        let call = call(o.seed, k);
        let (counted, difference) = compared(&call, library);
        let difference = difference
            .map(|text| format!("  file {}\n  lengths of samples, note, answer: {:?}\n{text}", hex(&call.wav), call.lengths));
        Outcome { kind: KINDS[kind_of(k).0].0, counted, difference }
    });
    if o.only.is_none() {
        if let Err(what) = long_files(library).and_then(|()| whole_function(o.seed, 300, library)) {
            println!("DIFFERENCE, {what}");
            good = false;
        }
    }
    std::process::exit(if good { 0 } else { 1 });
}
