//! The lowest and the highest resolution of a layout, and its mode. The Rust has 1 and 15 and holds no code. Its second copy (hca/limited.rs, see import.sh)
//! has the two numbers and the mode that the thread has set here, and so it is a witness for every pair and for held mode. With 1, 15 and the Rust's mode both
//! copies are run, and have to agree in everything.
use crate::call::{Lent, Notes, StageCall};
use crate::header::HeaderCall;
use crate::{driver, limited};
use std::cell::Cell;

/// The Rust's own pair.
pub const PUBLISHED: (u32, u32) = (1, 15);

/// The modes: the Rust's, and the one that holds codes within their range.
pub const RUST: u32 = 0;
pub const HELD: u32 = 1;

thread_local! {
    static PAIR: Cell<(u8, u8)> = const { Cell::new((1, 15)) };
    static MODE: Cell<u32> = const { Cell::new(RUST) };
}

/// What the second copy has in MIN_RESOLUTION's place.
pub fn minimum() -> u8 {
    PAIR.get().0
}

/// What the second copy has in MAX_RESOLUTION's place.
pub fn maximum() -> u8 {
    PAIR.get().1
}

/// What the second copy has in the place of a code below resolution 8: in held mode the nearest within plus or minus the resolution. Code 0 stands at `zero`.
pub fn held(code: i32, zero: i32, resolution: usize) -> i32 {
    let most = resolution as i32;
    match MODE.get() {
        HELD => code.clamp(zero - most, zero + most),
        _ => code,
    }
}

/// The mode that a layout's numbers say; the Rust's where it is missing.
pub fn mode_of(layout: &[u32]) -> u32 {
    layout.get(7).copied().unwrap_or(RUST)
}

pub fn mode_fits(layout: &[u32]) -> bool {
    [RUST, HELD].contains(&mode_of(layout))
}

/// The pair that a layout's numbers say; what is missing has its default.
pub fn pair_of(layout: &[u32]) -> (u32, u32) {
    let number = |at: usize, default: u32| layout.get(at).copied().unwrap_or(default);
    (number(5, PUBLISHED.0), number(6, PUBLISHED.1))
}

pub fn pair_fits(layout: &[u32]) -> bool {
    let (minimum, maximum) = pair_of(layout);
    (1..=15).contains(&minimum) && (minimum..=15).contains(&maximum)
}

/// What the second copy makes under the pair and the mode of a layout; where one is wrong, under the Rust's own.
pub fn under<T>(layout: &[u32], make: impl FnOnce() -> T) -> T {
    let (minimum, maximum) = if pair_fits(layout) { pair_of(layout) } else { PUBLISHED };
    PAIR.set((minimum as u8, maximum as u8));
    MODE.set(mode_of(layout));
    let made = make();
    PAIR.set((1, 15));
    MODE.set(RUST);
    made
}

fn is_published(layout: &[u32]) -> bool {
    pair_of(layout) == PUBLISHED && mode_of(layout) == RUST
}

fn are_equal(a: &Lent, b: &Lent) -> bool {
    a.scaled.iter().map(|v| v.to_bits()).eq(b.scaled.iter().map(|v| v.to_bits()))
        && (&a.codes, &a.factors, &a.side) == (&b.codes, &b.factors, &b.side)
        && (&a.frame, &a.answer) == (&b.frame, &b.answer)
}

/// One call by the published copy, and the same by the second: both have to leave the same.
fn by_both(
    out: &mut Lent,
    first: impl FnOnce(&mut Lent) -> (u32, Notes),
    second: impl FnOnce(&mut Lent) -> (u32, Notes),
) -> (u32, Notes) {
    let mut other = out.clone();
    let (done, again) = (first(out), second(&mut other));
    assert!(done == again && are_equal(out, &other), "the two copies of the Rust differ with 1, 15 and the Rust's mode");
    done
}

/// The frame stage under the layout's own pair and mode.
pub fn stage(call: &StageCall, out: &mut Lent) -> (u32, Notes) {
    let second = |out: &mut Lent| under(&call.layout, || limited::driver::stage(call, out));
    match is_published(&call.layout) {
        true => by_both(out, |out| driver::stage(call, out), second),
        false => second(out),
    }
}

/// The stage's steps on a state whose spectra and intensities are mixed; `mixed` is the call with these.
pub(crate) fn finish(mixed: &StageCall, e: crate::hca::encoder::HcaEncoder, out: &mut Lent) -> (u32, Notes) {
    let second = |out: &mut Lent| under(&mixed.layout, || limited::driver::finish(mixed, limited::driver::setup(mixed), out));
    match is_published(&mixed.layout) {
        true => by_both(out, |out| driver::finish(mixed, e, out), second),
        false => second(out),
    }
}

/// The 96 bytes of a call that is not refused.
pub fn header_of(call: &HeaderCall) -> Vec<u8> {
    let second = under(&call.layout, || limited::driver::header_of(call));
    let published = is_published(&call.layout).then(|| driver::header_of(call));
    assert!(published.is_none_or(|bytes| bytes == second), "the two copies of the Rust differ with 1, 15 and the Rust's mode");
    second
}

/// The Rust's estimate for a call at a level and a boundary, before any removal, under the layout's own pair and mode.
pub fn used_bits(call: &StageCall, level: i32, boundary: i32) -> usize {
    under(&call.layout, || limited::driver::used_bits(call, level, boundary))
}

/// A factor's resolution at a noise, under the layout's own pair and mode.
pub fn resolution(layout: &[u32], factor: u8, noise: i32) -> u8 {
    under(layout, || crate::hca::limited::calculate_resolution(factor, noise))
}
