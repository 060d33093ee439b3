//! Cases with a mode (kinds 101 to 112), from the second copy of the Rust and from the model.
use crate::limits::{each, limited};
use crate::{line, stereo, write_of, File};
use gen::limits::WRONG_MODES;
use gen::records::ReadCall;
use published::driver::StageCall;
use published::limits::{stage, HELD, RUST};
use published::line::LineCall;

/// One band with these two values in turn, in a frame of so many bytes.
fn in_turn(values: [f32; 2], size: u32, numbers: &[u32]) -> StageCall {
    let mut call = StageCall::exact(&[0], 1, 0, 1, size);
    (0..8).for_each(|s| call.spectra[128 * s] = values[s % 2]);
    call.layout = limited(&call.layout, numbers);
    call
}

/// A pair of channels at the clip, before it is mixed.
fn loud_pair(numbers: &[u32]) -> StageCall {
    let mut call = StageCall::exact(&[1, 2], 1, 1, 2, 24);
    for s in 0..8 {
        let sign = if s % 2 == 0 { 1.0 } else { -1.0 };
        for (place, value) in [(0, 1000.0), (1, 700.0), (1024, 1000.0), (1025, 600.0)] {
            call.spectra[128 * s + place] = sign * value;
        }
    }
    call.layout = limited(&call.layout, numbers);
    call
}

/// The stage, then its frame read and its record written.
fn add_whole(f: &mut File, name: &str, call: &StageCall) {
    f.add_stage(name, call);
    let mut left = call.lent();
    if stage(call, &mut left).0 != 0 {
        return;
    }
    let (layout, kinds, frame) = (call.layout.clone(), call.kinds.clone(), left.frame.clone());
    f.add_read(name, &ReadCall { layout, kinds, frame, lengths: [128, 8, 1024, 4], pattern: 0 });
    f.add_write(name, &write_of(call, &left));
}

pub fn file() -> File {
    let mut f = File::new();
    for (name, numbers) in [
        ("eight numbers, the Rust's mode", &[1, 15, RUST][..]),
        ("eight numbers, held", &[1, 15, HELD]),
        ("held, and two that are not looked at", &[1, 15, HELD, RUST, u32::MAX]),
        ("the Rust's mode, and one that is not looked at", &[1, 15, RUST, HELD]),
        ("4 and 10, held", &[4, 10, HELD]),
    ] {
        each(&mut f, name, numbers);
    }
    for mode in WRONG_MODES {
        each(&mut f, &format!("refusal 1: mode {mode}"), &[1, 15, mode]);
    }
    each(&mut f, "refusal 1: mode 2 beside 9 and 8", &[9, 8, 2]);
    for (name, mode) in [("the Rust's mode", RUST), ("held", HELD)] {
        add_whole(&mut f, &format!("1000.0 and -6.0, {name}"), &in_turn([1000.0, -6.0], 10, &[1, 15, mode]));
        for r in 1..=8 {
            let call = in_turn([1000.0, -1000.0], 40, &[r, r, mode]);
            add_whole(&mut f, &format!("1000.0 and -1000.0 at resolution {r}, {name}"), &call);
        }
        let two = [in_turn([1000.0, -6.0], 10, &[1, 15, mode]), in_turn([5.0, 1000.0], 10, &[1, 15, mode])];
        line::add(&mut f, &format!("a line at the clip, {name}"), &LineCall::of(&two));
        stereo::add(&mut f, &format!("a pair at the clip, {name}"), &loud_pair(&[4, 4, mode]));
    }
    f
}
