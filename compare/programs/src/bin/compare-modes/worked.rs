//! Calls of the stage at the upper clip, whose numbers are worked out by hand or compared with the Rust's second copy.
use compare::modes::{in_mode, Way};
use published::driver::{Lent, StageCall};
use published::limits::{stage, HELD, RUST};

fn hex(text: &str) -> Vec<u8> {
    (0..text.len() / 2).map(|i| u8::from_str_radix(&text[2 * i..2 * i + 2], 16).expect("two digits")).collect()
}

fn by_library(call: &StageCall, model: bool) -> (u32, Lent) {
    let mut b = call.lent();
    let f = if model { hca_model::encode_frame } else { hca_frame::raw::encode_frame };
    let number = f(
        &call.layout,
        &call.kinds,
        &call.spectra,
        &call.intensities,
        &mut b.scaled,
        &mut b.codes,
        &mut b.factors,
        &mut b.side,
        &mut b.frame,
        &mut b.answer,
    );
    (number, b)
}

/// One Discrete channel of one band, with these two values in turn, under these resolutions and in this mode.
fn in_turn(frame: u32, values: [f32; 2], pair: [u32; 2], mode: u32) -> StageCall {
    let mut call = StageCall::exact(&[0], 1, 0, 1, frame);
    (0..8).for_each(|s| call.spectra[128 * s] = values[s % 2]);
    call.layout.extend([pair[0], pair[1], mode]);
    call
}

fn codes(left: &Lent) -> Vec<i32> {
    (0..8).map(|s| left.codes[128 * s]).collect()
}

/// 1000.0 and -6.0 in ten bytes: what is noise in the Rust's mode is read back in held mode.
fn the_complaint(model: bool) -> bool {
    let made = |mode| by_library(&in_turn(10, [1000.0, -6.0], [1, 15], mode), model);
    let ((no, rust), (yes, held)) = (made(RUST), made(HELD));
    let back = |left: &Lent, mode| Way { model }.is_read_back(&in_mode(&[1, 1, 0, 1, 10], mode), &[0], left);
    (no, &rust.answer[..4], codes(&rust)) == (0, &[209, 0, 0, 49][..], [3, -1].repeat(4))
        && rust.frame == hex("FFFF6880DFD50000FC9F")
        && (yes, &held.answer[..4], codes(&held)) == (0, &[209, 0, 0, 61][..], [2, -1].repeat(4))
        && held.frame == hex("FFFF6880DFEB5AD0A162")
        && !back(&rust, RUST)
        && back(&held, HELD)
        && back(&held, RUST)
}

/// 1000.0 and -1000.0 in turn at each resolution from 1 to 7: the lower clip never passes the range, the upper at 2, 4 and 5.
fn both_clips(model: bool) -> bool {
    (1..=7).all(|r| {
        let most = r as i32;
        let of = |mode| {
            let call = in_turn(40, [1000.0, -1000.0], [r, r], mode);
            let (number, left) = by_library(&call, model);
            let mut expected = call.lent();
            let same = stage(&call, &mut expected).0 == number
                && (expected.frame, expected.codes) == (left.frame.clone(), left.codes.clone());
            (same, number, codes(&left), Way { model }.is_read_back(&call.layout, &[0], &left))
        };
        let passes = [2, 4, 5].contains(&r);
        let rust = if passes { most + 1 } else { most };
        of(RUST) == (true, 0, [rust, -most].repeat(4), !passes) && of(HELD) == (true, 0, [most, -most].repeat(4), true)
    })
}

/// Held mode holds no dead zone: calls that refuse with 7 behind a found level in the Rust's mode, and have no code past its range, do so in held mode.
fn too_long_in_both(model: bool) -> bool {
    let mut seen = 0;
    for k in 0..3000 {
        let mut call = gen::stage::call(1, k);
        if call.layout.len() != 5 {
            continue;
        }
        let before = by_library(&call, model);
        if before.0 != 7 {
            continue;
        }
        call.layout = in_mode(&call.layout, HELD);
        let mut expected = call.lent();
        let (number, _) = stage(&call, &mut expected);
        let (got, left) = by_library(&call, model);
        if (got, &left.answer, &left.frame) != (number, &expected.answer, &expected.frame) {
            return false;
        }
        seen += u32::from(got == 7);
    }
    println!("refusal 7 behind a found level in held mode: {seen} times");
    seen > 0
}

pub fn all(model: bool) -> bool {
    let each = [
        ("1000.0 and -6.0 in ten bytes", the_complaint(model)),
        ("1000.0 and -1000.0 at resolutions 1 to 7", both_clips(model)),
        ("refusal 7 in held mode", too_long_in_both(model)),
    ];
    for (name, good) in each {
        println!("{name}: {}", if good { "as worked out" } else { "WRONG" });
    }
    each.iter().all(|&(_, good)| good)
}
