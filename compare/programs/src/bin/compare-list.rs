//! The library's list calls against the model in C++, every slice whole. What is written is read back, entry by entry, and
//! what is accepted is written to the same bytes again. On the sample lines the list of the stage's answers is held
//! against the frames themselves, read strictly.
use compare::front::{encoder_for, read_wav, stage_calls};
use compare::{differ, run, Options, Outcome};
use gen::list::{calls, kind_of, legal, Call, KINDS};
use gen::rng::Rng;
use published::driver::{pattern, pattern_bytes, pattern_words, StageCall};

/// The four calls of one maker.
struct Maker {
    write: fn(u32, &[u32], &mut [u8]) -> u32,
    read: fn(&[u8], &mut [u32], &mut [u32]) -> u32,
    lookup: fn(&[u8], u32, &mut [u32]) -> u32,
    summary: fn(&[u8], &mut [u64]) -> u32,
}

const MODEL: Maker = Maker {
    write: hca_model::list_write,
    read: hca_model::list_read,
    lookup: hca_model::list_lookup,
    summary: hca_model::list_summary,
};

const LIBRARY: Maker = Maker {
    write: compare::list::list_write,
    read: compare::list::list_read,
    lookup: compare::list::list_lookup,
    summary: compare::list::list_summary,
};

fn pattern_longs(seed: u32, n: usize) -> Vec<u64> {
    (0..n).map(|i| u64::from(pattern(seed, 7, i)) << 32 | u64::from(pattern(seed, 8, i))).collect()
}

fn named(what: &str, number: u32) -> String {
    match number {
        0 => format!("{what} delivered"),
        n => format!("{what} {n}"),
    }
}

fn numbers_differ(expected: u32, got: u32, text: &mut String) {
    if expected != got {
        text.push_str(&format!("  refusal number (0: delivered): expected {expected}, got {got}\n"));
    }
}

fn write(by: &Maker, frames: u32, entries: &[u32], list: usize, p: u32, counted: &mut Vec<String>) -> String {
    let before = pattern_bytes(p, 4, list);
    let (mut e, mut g) = (before.clone(), before.clone());
    let number = (MODEL.write)(frames, entries, &mut e);
    let got = (by.write)(frames, entries, &mut g);
    counted.push(named("write", number));
    let mut text = String::new();
    numbers_differ(number, got, &mut text);
    differ("list", &before, &e, &g, &mut text);
    if got == 0 && text.is_empty() {
        let n = frames as usize;
        goes_back(by, &g[..9 + 8 * n], &entries[..4 * n], &mut text);
    }
    text
}

/// A written list gives its entries again: all together, one by one, and summed up.
fn goes_back(by: &Maker, list: &[u8], entries: &[u32], text: &mut String) {
    let n = entries.len() / 4;
    let mut read = vec![0; entries.len()];
    let mut answer = [0; 4];
    numbers_differ(0, (by.read)(list, &mut read, &mut answer), text);
    if read != entries || answer[0] as usize != n {
        text.push_str("  read back: other entries than were written\n");
    }
    let step = n.div_ceil(64).max(1);
    for i in (0..n).step_by(step).chain(n.checked_sub(1)) {
        numbers_differ(0, (by.lookup)(list, i as u32, &mut answer), text);
        if answer != entries[4 * i..4 * i + 4] {
            text.push_str(&format!("  lookup {i}: {answer:?}, written {:?}\n", &entries[4 * i..4 * i + 4]));
        }
    }
    let most = |field: usize| entries.iter().skip(field).step_by(4).copied().max().unwrap_or(0).into();
    let bits: u64 = entries.iter().skip(3).step_by(4).map(|&b| u64::from(b)).sum();
    let mut sums = [0; 3];
    numbers_differ(0, (by.summary)(list, &mut sums), text);
    if sums != [most(0), most(2), bits] {
        text.push_str(&format!("  summary {sums:?}\n"));
    }
}

fn read(by: &Maker, list: &[u8], entries: usize, answer: usize, p: u32, counted: &mut Vec<String>) -> String {
    let before = (pattern_words(p, 1, entries), pattern_words(p, 5, answer));
    let (mut e, mut g) = (before.clone(), before.clone());
    let number = (MODEL.read)(list, &mut e.0, &mut e.1);
    let got = (by.read)(list, &mut g.0, &mut g.1);
    counted.push(named("read", number));
    let mut text = String::new();
    numbers_differ(number, got, &mut text);
    differ("entries", &before.0, &e.0, &g.0, &mut text);
    differ("answer", &before.1, &e.1, &g.1, &mut text);
    if got == 0 && text.is_empty() {
        let mut again = vec![0x5A; list.len()];
        let frames = g.1[0];
        numbers_differ(0, (by.write)(frames, &g.0[..4 * frames as usize], &mut again), &mut text);
        differ("list written back", &vec![0x5A; list.len()], list, &again, &mut text);
    }
    text
}

fn lookup(by: &Maker, list: &[u8], frame: u32, answer: usize, p: u32, counted: &mut Vec<String>) -> String {
    let before = pattern_words(p, 5, answer);
    let (mut e, mut g) = (before.clone(), before.clone());
    let number = (MODEL.lookup)(list, frame, &mut e);
    let got = (by.lookup)(list, frame, &mut g);
    counted.push(named("lookup", number));
    let mut text = String::new();
    numbers_differ(number, got, &mut text);
    differ("answer", &before, &e, &g, &mut text);
    text
}

fn summary(by: &Maker, list: &[u8], answer: usize, p: u32, counted: &mut Vec<String>) -> String {
    let before = pattern_longs(p, answer);
    let (mut e, mut g) = (before.clone(), before.clone());
    let number = (MODEL.summary)(list, &mut e);
    let got = (by.summary)(list, &mut g);
    counted.push(named("summary", number));
    let mut text = String::new();
    numbers_differ(number, got, &mut text);
    differ("answer", &before, &e, &g, &mut text);
    text
}

fn compared(by: &Maker, call: &Call, p: u32, counted: &mut Vec<String>) -> Option<String> {
    let text = match call {
        Call::Write { frames, entries, list } => write(by, *frames, entries, *list, p, counted),
        Call::Read { list, entries, answer } => read(by, list, *entries, *answer, p, counted),
        Call::Lookup { list, frame, answer } => lookup(by, list, *frame, *answer, p, counted),
        Call::Summary { list, answer } => summary(by, list, *answer, p, counted),
    };
    (!text.is_empty()).then(|| format!("  {call:?}\n{text}"))
}

/// A list of 70,000 frames: its count needs more than 16 bits. And the largest sum that so many can have.
fn long_list(by: &Maker) -> Result<(), String> {
    let n = 70_000;
    let mut entries = legal(&mut Rng::of_case(1, n.into()), n);
    for _ in 0..2 {
        let text = write(by, n, &entries, 9 + 8 * n as usize, 1, &mut Vec::new());
        if !text.is_empty() {
            return Err(format!("{n} frames:\n{text}"));
        }
        entries.iter_mut().skip(3).step_by(4).for_each(|bits| *bits = u32::MAX);
    }
    println!("{n} frames: written, read back, looked up and summed");
    Ok(())
}

/// Encodes a frame and reads it strictly: the stage's answers, and whether the reader hands back the frame's own record, with
/// what it answers beside it.
fn frame_of(call: &StageCall, model: bool) -> Result<([u32; 4], bool, [u32; 4]), String> {
    let encode = if model { hca_model::encode_frame } else { hca_frame::raw::encode_frame };
    let read = if model { hca_model::read_frame } else { hca_frame::raw::read_frame };
    let mut b = call.lent();
    let number = encode(
        &call.layout,
        &call.kinds,
        &call.spectra,
        &call.intensities,
        &mut b.scaled,
        &mut b.codes,
        &mut b.factors,
        &mut b.side,
        &mut b.frame,
        &mut b.answer,
    );
    if number != 0 {
        return Err(format!("the stage refuses with {number}"));
    }
    let mut r = call.lent();
    let number = read(&call.layout, &call.kinds, &b.frame, &mut r.factors, &mut r.side, &mut r.codes, &mut r.answer);
    let own = number == 0 && (&r.factors, &r.side, &r.codes) == (&b.factors, &b.side, &b.codes);
    let four = |v: &[u32]| [v[0], v[1], v[2], v[3]];
    Ok((four(&b.answer), own, four(&r.answer)))
}

/// The stage's own answers of a sample line as a list: each entry beside its frame, read strictly.
fn sample_line(by: &Maker, name: &str, bitrate: u32, model: bool) -> Result<(), String> {
    let wav = read_wav(&format!("{}/../../sample/{name}.wav", env!("CARGO_MANIFEST_DIR")))?;
    let calls = stage_calls(&mut encoder_for(&wav, bitrate)?, &wav);
    let frames = calls.iter().map(|c| frame_of(c, model)).collect::<Result<Vec<_>, _>>()?;
    let entries: Vec<u32> = frames.iter().flat_map(|f| f.0).collect();
    let mut list = vec![0; 9 + 8 * calls.len()];
    let number = (by.write)(calls.len() as u32, &entries, &mut list);
    let mut text = String::new();
    numbers_differ(0, number, &mut text);
    goes_back(by, &list, &entries, &mut text);
    for (k, (stage, own, read)) in frames.iter().enumerate() {
        let mut entry = [0; 4];
        numbers_differ(0, (by.lookup)(&list, k as u32, &mut entry), &mut text);
        if entry != *stage || (*own && read[..3] != [entry[0], entry[1], entry[3]]) {
            text.push_str(&format!("  frame {k}: entry {entry:?}, stage {stage:?}, reader {:?}\n", &read[..3]));
        }
    }
    if !text.is_empty() {
        return Err(format!("{name}:\n{text}"));
    }
    let own = frames.iter().filter(|f| f.1).count();
    println!("{name}: {} frames of the stage; {own} read back as their own record, each as its entry says", calls.len());
    Ok(())
}

fn main() {
    let o = Options::parse("compare-list", 100_000, 3_000);
    let by = if o.model { &MODEL } else { &LIBRARY };
    let mut good = run(&o, "compare-list", |k| {
        let (calls, pattern) = calls(o.seed, k);
        let mut counted = Vec::new();
        let mut difference = None;
        for call in &calls {
            let d = compared(by, call, pattern, &mut counted);
            difference = difference.or(d);
        }
        Outcome { kind: KINDS[kind_of(k).0].0, counted, difference }
    });
    if o.only.is_none() {
        let rest = long_list(by)
            .and_then(|()| sample_line(by, "line", 48_000, o.model))
            .and_then(|()| sample_line(by, "pair", 72_000, o.model));
        if let Err(what) = rest {
            println!("DIFFERENCE, {what}");
            good = false;
        }
    }
    std::process::exit(if good { 0 } else { 1 });
}
