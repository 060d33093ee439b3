//! The numbers behind a layout's fifth, its lowest and highest resolution and its mode, for the runs with pairs and for those in held mode.
use crate::rng::Rng;
use published::limits::{HELD, RUST};

/// Pairs that a layout may have.
pub const PAIRS: u64 = 120;

/// Pairs that it may not have: each end passed, the wrong way round, and numbers that are right in fewer bits.
pub const WRONG: [(u32, u32); 9] =
    [(0, 15), (1, 16), (9, 8), (16, 16), (16, 15), (0, 0), (257, 271), (1, u32::MAX), (1 << 31, 15)];

/// The pairs in their order: (1, 1), (1, 2), .. (15, 15).
pub fn pair(nth: u64) -> (u32, u32) {
    let all = (1..=15).flat_map(|minimum| (minimum..=15).map(move |maximum| (minimum, maximum)));
    all.cycle().nth((nth % PAIRS) as usize).expect("120 pairs")
}

/// The place of a right pair in that order.
pub fn place((minimum, maximum): (u32, u32)) -> usize {
    (0..PAIRS).position(|nth| pair(nth) == (minimum, maximum)).expect("a right pair")
}

/// Modes that a layout may not have: each is a right one in fewer bits.
pub const WRONG_MODES: [u32; 4] = [2, 256, 1 << 31, u32::MAX];

/// What stands behind the fifth number of a case: one of the pairs in turn, or now and then a wrong one. A default may be left out, the mode is the Rust's,
/// and what comes behind the eighth number is not looked at.
pub fn behind(seed: u64, index: u64) -> Vec<u32> {
    let mut r = Rng::of_case(seed ^ 0xA8A8_0001, index);
    // a kind of case has its place in each hundred, so that every kind meets every pair
    let pair = if r.chance(0.06) { r.pick(&WRONG) } else { pair(index + index / 100) };
    let mut numbers = vec![pair.0, pair.1];
    if r.chance(0.3) {
        numbers.push(RUST);
        numbers.extend((0..r.range(0, 2)).map(|_| r.word() as u32));
    }
    if pair.1 == 15 && r.chance(0.5) {
        numbers.truncate(1);
        if pair.0 == 1 && r.chance(0.5) {
            numbers.clear();
        }
    }
    numbers
}

/// The same in held mode. Every other pair is 1 and 15; minimum = maximum at 2, 4 and 5, where a code can pass its range, come often. A wrong mode comes now
/// and then, alone or beside a wrong pair.
pub fn behind_held(seed: u64, index: u64) -> Vec<u32> {
    let mut r = Rng::of_case(seed ^ 0xA9A9_0001, index);
    let right = match r.below(4) {
        0 | 1 => (1, 15),
        2 => [(2, 2), (4, 4), (5, 5), (1, 6), (2, 5)][(index / 2 % 5) as usize],
        _ => pair(index + index / 100),
    };
    let pair = if r.chance(0.02) { r.pick(&WRONG) } else { right };
    let mode = if r.chance(0.04) { r.pick(&WRONG_MODES) } else { HELD };
    let mut numbers = vec![pair.0, pair.1, mode];
    if r.chance(0.3) {
        numbers.extend((0..r.range(1, 2)).map(|_| r.word() as u32));
    }
    numbers
}
