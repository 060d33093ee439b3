//! The library's strict reader, record writer and checksum against the model in
//! C++, every buffer whole. What the library's reader accepts, its writer has to
//! write to the same bytes again.
use compare::pairs::Met;
use compare::{differ, differ_answer, run, Options, Outcome};
use gen::records::{calls, heads, held, kind_of, limited, Call, ReadCall, WriteCall, KINDS};
use published::driver::{pattern_bytes, pattern_words};
use published::hca::decoder::crc16_checksum;

#[derive(Clone)]
struct Read {
    factors: Vec<u8>,
    side: Vec<u8>,
    codes: Vec<i32>,
    answer: Vec<u32>,
}

fn named(what: &str, number: u32) -> String {
    if number == 0 {
        format!("{what} delivered")
    } else {
        format!("{what} {number}")
    }
}

fn number_differs(expected: u32, got: u32, text: &mut String) {
    if expected != got {
        text.push_str(&format!("  refusal number (0: delivered): expected {expected}, got {got}\n"));
    }
}

fn read(call: &ReadCall, model: bool, met: &Met, counted: &mut Vec<String>) -> Option<String> {
    let (p, l) = (call.pattern, &call.lengths);
    let before = Read {
        factors: pattern_bytes(p, 2, l[0]),
        side: pattern_bytes(p, 3, l[1]),
        codes: pattern_words(p, 1, l[2]).iter().map(|&w| w as i32).collect(),
        answer: pattern_words(p, 5, l[3]),
    };
    let (mut e, mut g) = (before.clone(), before.clone());
    let number =
        hca_model::read_frame(&call.layout, &call.kinds, &call.frame, &mut e.factors, &mut e.side, &mut e.codes, &mut e.answer);
    let f = if model { hca_model::read_frame } else { hca_frame::raw::read_frame };
    let got = f(&call.layout, &call.kinds, &call.frame, &mut g.factors, &mut g.side, &mut g.codes, &mut g.answer);
    counted.push(named("read", number));
    let mut text = met.note(&call.layout, got).unwrap_or_default();
    number_differs(number, got, &mut text);
    differ_answer(&before.answer, &e.answer, &g.answer, &mut text);
    differ("factors", &before.factors, &e.factors, &g.factors, &mut text);
    differ("side", &before.side, &e.side, &g.side, &mut text);
    differ("codes", &before.codes, &e.codes, &g.codes, &mut text);
    if got == 0 && text.is_empty() {
        write_back(call, model, &g, &mut text);
    }
    (!text.is_empty()).then(|| {
        format!(
            "read_frame\n  layout (channels, base, stereo, total, frame, minimum, maximum, mode) {:?}, kinds {:?}\n  frame {}\n  lengths of factors, side, codes, answer: {:?}\n  model: {number} {:?}, library: {got} {:?}\n{text}",
            call.layout, call.kinds, hex(&call.frame), call.lengths, e.answer, g.answer
        )
    })
}

/// What was accepted is written again to the same bytes.
fn write_back(call: &ReadCall, model: bool, g: &Read, text: &mut String) {
    let size = call.layout[4] as usize;
    let mut frame = vec![0x5A; size];
    let mut answer = [0; 4];
    let f = if model { hca_model::write_record } else { hca_frame::raw::write_record };
    let number = f(&call.layout, &call.kinds, &g.answer[..2], &g.factors, &g.side, &g.codes, &mut frame, &mut answer);
    number_differs(0, number, text);
    differ("frame written back", &vec![0x5A; size], &call.frame[..size], &frame, text);
}

fn write(call: &WriteCall, model: bool, met: &Met, counted: &mut Vec<String>) -> Option<String> {
    let before = (pattern_bytes(call.pattern, 4, call.lengths[0]), pattern_words(call.pattern, 5, call.lengths[1]));
    let (mut e, mut g) = (before.clone(), before.clone());
    let number = hca_model::write_record(
        &call.layout,
        &call.kinds,
        &call.record,
        &call.factors,
        &call.side,
        &call.codes,
        &mut e.0,
        &mut e.1,
    );
    let f = if model { hca_model::write_record } else { hca_frame::raw::write_record };
    let got = f(&call.layout, &call.kinds, &call.record, &call.factors, &call.side, &call.codes, &mut g.0, &mut g.1);
    counted.push(named("write", number));
    let mut text = met.note(&call.layout, got).unwrap_or_default();
    number_differs(number, got, &mut text);
    differ_answer(&before.1, &e.1, &g.1, &mut text);
    differ("frame", &before.0, &e.0, &g.0, &mut text);
    if got == 7 && text.is_empty() {
        counted.push("write at the answered size".into());
        write_larger(call, model, g.1[0], &mut text);
    }
    (!text.is_empty()).then(|| {
        format!(
            "write_record\n  layout (channels, base, stereo, total, frame, minimum, maximum, mode) {:?}, kinds {:?}, level and boundary {:?}\n  factors {}\n  side {}\n  codes not zero (place: code) {}\n  lengths of frame, answer: {:?}\n  model: {number} {:?}, library: {got} {:?}\n{text}",
            call.layout, call.kinds, call.record, hex(&call.factors), hex(&call.side), sparse(&call.codes), call.lengths, e.1, g.1
        )
    })
}

/// At the size that refusal 7 answered the record is delivered with as many bits; a byte below it is refused again.
fn write_larger(call: &WriteCall, model: bool, bits: u32, text: &mut String) {
    let f = if model { hca_model::write_record } else { hca_frame::raw::write_record };
    let size = bits.div_ceil(8) + 2;
    for (size, expected, at) in [(size, 0, 2), (size - 1, 7, 0)] {
        let mut layout = call.layout.clone();
        layout[4] = size;
        let mut frame = vec![0x5A; size as usize];
        let mut answer = [0; 4];
        let number = f(&layout, &call.kinds, &call.record, &call.factors, &call.side, &call.codes, &mut frame, &mut answer);
        if (number, answer[at]) != (expected, bits) {
            text.push_str(&format!("  at {size} bytes: expected {expected} and {bits} bits, got {number} and {}\n", answer[at]));
        }
    }
}

fn check(bytes: &[u8], model: bool, counted: &mut Vec<String>) -> Option<String> {
    let expected = hca_model::checksum(bytes);
    let rust = crc16_checksum(bytes);
    let got = if model { expected } else { hca_frame::raw::checksum(bytes) };
    counted.push("checksum".into());
    (expected != got || rust != expected).then(|| {
        format!(
            "checksum of {} bytes {}\n  model {expected:04X}, the Rust {rust:04X}, library {got:04X}",
            bytes.len(),
            hex(bytes)
        )
    })
}

/// All 65,536 heads on one layout: each is read, level and boundary as put, and written back to the same bytes.
fn every_head(model: bool) -> bool {
    for (put, call) in heads() {
        let (mut factors, mut side, mut codes, mut answer) = ([0; 128], [0; 8], [0; 1024], [0; 4]);
        let f = if model { hca_model::read_frame } else { hca_frame::raw::read_frame };
        let number = f(&call.layout, &call.kinds, &call.frame, &mut factors, &mut side, &mut codes, &mut answer);
        if number != 0 || answer[..2] != put {
            println!("level and boundary {put:?} in {}: answered {number} {answer:?}", hex(&call.frame));
            return false;
        }
        if let Some(difference) = read(&call, model, &Met::default(), &mut Vec::new()) {
            println!("level and boundary {put:?}:\n{difference}");
            return false;
        }
    }
    println!("65536 heads on one layout: each read as put and written back to the same bytes");
    true
}

fn hex(bytes: &[u8]) -> String {
    bytes.iter().map(|b| format!("{b:02X}")).collect()
}

fn sparse(codes: &[i32]) -> String {
    codes.iter().enumerate().filter(|(_, &v)| v != 0).map(|(i, v)| format!("{i}:{v} ")).collect()
}

fn main() {
    let o = Options::parse("compare-records", 100_000, 3_000);
    let met = Met::default();
    let good = run(&o, "compare-records", |k| {
        let mut counted = Vec::new();
        let mut difference = None;
        let made = if o.held {
            held
        } else if o.pairs {
            limited
        } else {
            calls
        };
        for call in made(o.seed, k) {
            let d = match &call {
                Call::Read(c) => read(c, o.model, &met, &mut counted),
                Call::Write(c) => write(c, o.model, &met, &mut counted),
                Call::Check(b) => check(b, o.model, &mut counted),
            };
            difference = difference.or(d);
        }
        Outcome { kind: KINDS[kind_of(k).0].0, counted, difference }
    });
    let good = met.all(&o) && good;
    let good = (o.only.is_some() || o.pairs || o.held || every_head(o.model)) && good;
    std::process::exit(if good { 0 } else { 1 });
}
