//! Cases with a pair of limits (kinds 101 to 112), from the second copy of the Rust and from the model.
use crate::{header, line, stereo, write_of, File};
use gen::limits::{pair, WRONG};
use gen::records::{ReadCall, WriteCall};
use gen::speech;
use published::driver::StageCall;
use published::header::HeaderCall;
use published::line::LineCall;

pub fn limited(layout: &[u32], numbers: &[u32]) -> Vec<u32> {
    [layout, numbers].concat()
}

/// Two loud bands: a frame that is coarse at 1 and 15, and fine where the maximum is low.
fn loud(numbers: &[u32]) -> StageCall {
    let mut call = StageCall::exact(&[0], 2, 0, 2, 17);
    (call.spectra[0], call.spectra[1], call.spectra[129]) = (1.0, 1.0, f32::from_bits(0xBD16_778F));
    call.layout = limited(&call.layout, numbers);
    call
}

/// The frame of `loud` at 1 and 15.
const COARSE: [u8; 17] = [0xFF, 0xFF, 0x56, 0x81, 0x3B, 0xB8, 0xE0, 0, 0, 0, 0, 0, 0, 0, 0, 0xE0, 0x26];

fn read(numbers: &[u32]) -> ReadCall {
    ReadCall {
        layout: limited(&[1, 2, 0, 2, 17], numbers),
        kinds: vec![0],
        frame: COARSE.to_vec(),
        lengths: [128, 8, 1024, 4],
        pattern: 0,
    }
}

/// A band of factor 1 at level 0, whose resolution on the curve is 15, with this code.
fn write(code: i32, numbers: &[u32]) -> WriteCall {
    let call = StageCall::exact(&[0], 1, 0, 1, 20);
    let mut record = write_of(&call, &call.lent());
    (record.record, record.side, record.layout) = (vec![0, 0], vec![0; 8], limited(&call.layout, numbers));
    (record.factors, record.codes) = (vec![0; 128], vec![0; 1024]);
    (record.factors[0], record.codes[128]) = (1, code);
    record
}

fn head(numbers: &[u32]) -> HeaderCall {
    let layout = limited(&[2, 52, 52, 128, 417], numbers);
    HeaderCall { layout, kinds: vec![1, 2], stream: vec![44_100, 40, 832], points: vec![5_000, 40_000], length: 96, pattern: 0 }
}

fn mixed(numbers: &[u32]) -> StageCall {
    let mut call = StageCall::exact(&[1, 2], 1, 2, 4, 60);
    for b in 0..4 {
        (call.spectra[b], call.spectra[1024 + b]) = (1.0 / (b + 1) as f32, -0.25);
    }
    call.layout = limited(&call.layout, numbers);
    call
}

fn several(numbers: &[u32]) -> LineCall {
    let mut call = LineCall::of(&[loud(numbers), loud(numbers)]);
    call.tally = vec![5, 6, 7];
    call
}

/// One of each call under these numbers.
pub fn each(f: &mut File, name: &str, numbers: &[u32]) {
    f.add_stage(name, &loud(numbers));
    f.add_read(name, &read(numbers));
    f.add_write(name, &write(15, numbers));
    header::add(f, name, &head(numbers));
    stereo::add(f, name, &mixed(numbers));
    line::add(f, name, &several(numbers));
}

pub fn file() -> File {
    let mut f = File::new();
    for (name, numbers) in [
        ("five numbers", &[][..]),
        ("six numbers, the minimum 1", &[1]),
        ("1 and 15", &[1, 15]),
        ("1 and 15, and two that are not looked at", &[1, 15, 0, u32::MAX]),
        ("1 and 8", &[1, 8]),
        ("6 and 8", &[6, 8]),
        ("9 and 9", &[9, 9]),
        ("six numbers, the minimum 9", &[9]),
        ("4 and 10, and one that is not looked at", &[4, 10, 0, 77]),
    ] {
        each(&mut f, name, numbers);
    }
    for (minimum, maximum) in WRONG {
        each(&mut f, &format!("refusal 1: {minimum} and {maximum}"), &[minimum, maximum]);
    }
    f.add_stage("refusal 1: six numbers, the minimum 16", &loud(&[16]));
    f.add_write("the largest code at 10", &write(63, &[4, 10]));
    f.add_write("one past it", &write(64, &[4, 10]));
    f.add_write("the least code at 10", &write(-63, &[4, 10]));
    for nth in (0..120).step_by(7) {
        let (minimum, maximum) = pair(nth);
        f.add_stage(&format!("{minimum} and {maximum}"), &loud(&[minimum, maximum]));
    }
    let mut voice = speech::frames(1, 64_000, 12).swap_remove(9);
    for numbers in [[4, 10], [1, 6], [7, 15]] {
        voice.layout.truncate(5);
        voice.layout.extend(numbers);
        f.add_stage(&format!("speech, mono, {} and {}", numbers[0], numbers[1]), &voice);
    }
    f
}
