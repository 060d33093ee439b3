//! Calls of the header writer.
use crate::limits::{behind, behind_held};
use crate::rng::Rng;
use crate::stage;
use published::header::HeaderCall;

/// What a case is for; the share is out of 100 indices.
pub const KINDS: [(&str, u64); 7] = [
    ("any fields", 28),
    ("ends of the fields", 20),
    ("loop points", 22),
    ("a limit passed by one", 14),
    ("several refusals at once", 8),
    ("short and long slices", 5),
    ("layouts outside the limits", 3),
];

/// The last loop point whose shift stays below 2^32.
const LAST: u64 = 4_294_967_167;

/// Points at both ends, and around edges of frames (1,024 samples, 128 of them the delay).
const POINTS: [u64; 20] = [
    0,
    1,
    127,
    128,
    895,
    896,
    897,
    1023,
    1024,
    1919,
    1920,
    1921,
    LAST - 1024,
    LAST - 1023,
    LAST - 1022,
    LAST - 1,
    LAST,
    0x7FFF_FF80,
    0x8000_0000,
    65_535,
];

pub fn kind_of(index: u64) -> (usize, u64) {
    crate::share_of(&KINDS, index)
}

/// Case `index` of a seed.
pub fn call(seed: u64, index: u64) -> HeaderCall {
    made(Rng::of_case(seed ^ 0x4EAD_E500, index), index)
}

/// The same under a pair of limits.
pub fn limited(seed: u64, index: u64) -> HeaderCall {
    made(Rng::of_case(seed ^ 0x4EAD_E500, index).under(behind(seed, index)), index)
}

/// The same in held mode.
pub fn held(seed: u64, index: u64) -> HeaderCall {
    made(Rng::of_case(seed ^ 0x4EAD_E500, index).under(behind_held(seed, index)), index)
}

fn made(mut r: Rng, index: u64) -> HeaderCall {
    let (kind, nth) = kind_of(index);
    let r = &mut r;
    let mut call = any_call(r);
    match KINDS[kind].0 {
        "any fields" => {}
        "ends of the fields" => ends(r, &mut call),
        "loop points" => call.points = vec![point(r), point(r)],
        "a limit passed by one" => pass_limit(r, &mut call, nth),
        "several refusals at once" => {
            pass_limit(r, &mut call, nth);
            pass_limit(r, &mut call, nth / 3);
            if r.chance(0.7) {
                shorten(r, &mut call, nth / 2);
            }
            if r.chance(0.4) {
                spoil_layout(r, &mut call, nth);
            }
        }
        "short and long slices" => shorten(r, &mut call, nth),
        _ => spoil_layout(r, &mut call, nth),
    }
    if r.chance(0.2) {
        call.length += r.below(40);
    }
    call
}

/// As many low bits as chance has it: small and large numbers alike.
fn sized(r: &mut Rng, bits: u32) -> u64 {
    r.word() & ((1 << r.range(0, bits.into())) - 1)
}

fn any_call(r: &mut Rng) -> HeaderCall {
    let channels = r.range(1, 8) as usize;
    let of_stage = stage::layout(r, channels);
    let mut layout = of_stage.layout;
    layout[4] = sized(r, 16).max(8) as u32;
    HeaderCall {
        layout,
        kinds: of_stage.kinds,
        stream: vec![sized(r, 23).max(1), sized(r, 32), sized(r, 16)],
        points: if r.chance(0.4) { Vec::new() } else { vec![sized(r, 31), sized(r, 31)] },
        length: 96,
        pattern: r.word() as u32,
    }
}

/// Each field at one of its ends, or where a byte of it turns over.
fn ends(r: &mut Rng, call: &mut HeaderCall) {
    if r.chance(0.5) {
        let total = r.pick(&[1, 2, 8, 9, 127, 128]);
        let base = r.pick(&[0, 0, 1, total]);
        let stereo = r.pick(&[0, total - base]);
        call.layout[1..4].copy_from_slice(&[base, stereo, total]);
    }
    call.layout[4] = r.pick(&[8, 9, 255, 256, 257, 65_534, 65_535]);
    call.stream = vec![
        r.pick(&[1, 2, 255, 256, 44_100, 48_000, 65_535, 65_536, 0x7F_FFFE, 0x7F_FFFF]),
        r.pick(&[0, 1, 255, 256, 65_535, 65_536, 0xFF_FFFF, 0x100_0000, 0x7FFF_FFFF, 0x8000_0000, 0xFFFF_FFFF]),
        r.pick(&[0, 1, 127, 128, 255, 256, 1023, 1024, 65_534, 65_535]),
    ];
    if r.chance(0.6) {
        call.points = vec![r.pick(&POINTS), r.pick(&POINTS)];
    }
}

/// A point from the list, or within two samples of a frame's edge.
fn point(r: &mut Rng) -> u64 {
    match r.below(3) {
        0 => r.pick(&POINTS),
        1 => (sized(r, 22) * 1024 + 894 + r.below(5) as u64).min(LAST),
        _ => sized(r, 32).min(LAST),
    }
}

/// One number of refusal 16 past its limit: by one, so that a narrower type would cut it, or as far as 64 bits go.
fn pass_limit(r: &mut Rng, call: &mut HeaderCall, nth: u64) {
    let far = [u64::MAX, 1 << 32, 1 << 63, (1 << 32) + 44_100, u64::MAX - 127];
    match nth % 9 {
        0 => {
            call.layout[0] = r.range(9, 16) as u32;
            call.kinds = (0..call.layout[0]).map(|_| r.below(3) as u8).collect();
        }
        1 => set(&mut call.stream, 0, 0),
        2 => set(&mut call.stream, 0, 0x80_0000),
        3 => set(&mut call.stream, 0, r.pick(&[0xFF_FFFF, 0x100_0000, far[0], far[1], far[2], far[3]])),
        4 => set(&mut call.stream, 1, 1 << 32),
        5 => set(&mut call.stream, 1, r.pick(&far)),
        6 => set(&mut call.stream, 2, r.pick(&[65_536, 65_536, 131_071, far[0], far[1], far[2]])),
        _ => {
            call.points = vec![point(r), point(r)];
            let past = if r.chance(0.5) { LAST + 1 } else { r.pick(&[LAST + 128, 0xFFFF_FFFF, far[0], far[1], far[4]]) };
            call.points[(nth % 2) as usize] = past;
        }
    }
}

fn set(stream: &mut [u64], at: usize, value: u64) {
    if let Some(place) = stream.get_mut(at) {
        *place = value;
    }
}

fn shorten(r: &mut Rng, call: &mut HeaderCall, nth: u64) {
    match nth % 8 {
        0 => call.length = 95,
        1 => call.length = 0,
        2 => call.length = r.below(96),
        3 => call.stream.truncate(r.below(3)),
        4 => call.points = vec![r.pick(&POINTS)],
        5 => call.points = Vec::new(),
        6 => {
            call.stream.push(r.word());
            call.points.extend([r.word(), u64::MAX, 0].iter().take(r.range(1, 3) as usize));
        }
        _ => call.kinds.extend([0, 7, 255].iter().take(r.range(1, 3) as usize)),
    }
}

fn spoil_layout(r: &mut Rng, call: &mut HeaderCall, nth: u64) {
    match nth % 12 {
        0 => call.layout[0] = 0,
        1 => call.layout[0] = 17,
        2 => call.layout[3] = 0,
        3 => call.layout[3] = 129,
        4 => call.layout[1] = call.layout[3] - call.layout[2] + 1,
        5 => call.layout[4] = r.below(8) as u32,
        6 => call.layout[4] = 65_536,
        7 => (call.layout[1], call.layout[2]) = (u32::MAX, 2),
        8 => call.layout.truncate(r.below(5)),
        9 => call.kinds.truncate(call.kinds.len() - 1),
        10 => call.kinds[0] = r.pick(&[3, 4, 255]),
        _ => call.layout[r.below(5)] = u32::MAX - r.below(3) as u32,
    }
}
