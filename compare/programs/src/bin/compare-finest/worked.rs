//! Calls whose numbers are worked out: where the premise matters, and its corners.
use super::{is_clipped, tried, Searched};
use hca_model::{at_boundaries, at_levels, searched};
use published::driver::StageCall;
use published::limits::{HELD, RUST};

/// One Discrete channel of N coded bands, F bytes, resolutions 1 to 15.
fn mono(n: u32, frame: u32, mode: u32) -> StageCall {
    let mut call = StageCall::exact(&[0], n, 0, n, frame);
    call.layout.extend([1, 15, mode]);
    call
}

/// A band's value in every subframe.
fn throughout(call: &mut StageCall, channel: usize, band: usize, value: f32) {
    for s in 0..8 {
        call.spectra[channel * 1024 + s * 128 + band] = value;
    }
}

fn prepared(call: &StageCall) -> Searched {
    searched(&call.layout, &call.kinds, &call.spectra).expect("a legal layout")
}

/// The levels that fit before any removal, and what each takes.
fn fitting(call: &StageCall) -> Vec<(u32, u32)> {
    let found = prepared(call);
    let levels = at_levels(&call.layout, &call.kinds, &found.scaled, &found.factors);
    (0..).zip(levels).filter(|&(_, bits)| bits <= 8 * call.layout[4]).collect()
}

/// Eight times 1000.0 in one band.
fn loud(frame: u32, mode: u32) -> StageCall {
    let mut call = mono(1, frame, mode);
    throughout(&mut call, 0, 0, 1000.0);
    call
}

/// Bands 0, 1, 2 and 4 are 4.0 in subframe 0, band 3 is 1000.0 throughout.
fn uneven(mode: u32) -> StageCall {
    let mut call = mono(5, 17, mode);
    for b in [0, 1, 2, 4] {
        call.spectra[b] = 4.0;
    }
    throughout(&mut call, 0, 3, 1000.0);
    call
}

struct Trial {
    model: bool,
    good: bool,
}

impl Trial {
    /// The call's number, the front of its answer, what has to be counted of it, and whether a coded value is the upper clip.
    fn call(&mut self, name: &str, call: &StageCall, number: u32, answer: &[u32], counted: &str, clipped: bool) {
        let (n, left, words, wrong) = tried(call, self.model);
        let is = is_clipped(call, &prepared(call).scaled);
        let met = counted.is_empty() || words.iter().any(|w| w == counted);
        self.check(name, n == number && left.answer.starts_with(answer) && met && is == clipped && wrong.is_empty());
        if !self.good {
            println!("  {name}: {n}, {:?}, {words:?}, clipped {is}\n{wrong}", left.answer);
        }
    }

    fn check(&mut self, name: &str, holds: bool) {
        if !holds {
            println!("worked: {name} is not so");
            self.good = false;
        }
    }
}

/// Where the premise matters: refusal 5 though a level fits, a finer level unused, a larger boundary unused.
fn premise(t: &mut Trial) {
    t.call("8 bytes", &loud(8, RUST), 5, &[0], "(refusal 5 though a level fits)", true);
    let levels: Vec<(u32, u32)> = (202..=205).chain(209..=212).map(|v| (v, 57)).collect();
    t.check("8 bytes: the levels that fit", fitting(&loud(8, RUST)) == levels);
    t.call("8 bytes, held", &loud(8, HELD), 5, &[0], "", true);
    t.check("8 bytes, held: no level fits", fitting(&loud(8, HELD)).is_empty());
    t.call("10 bytes", &loud(10, RUST), 0, &[209, 0, 0], "(a finer level unused)", true);
    t.call("10 bytes, held", &loud(10, HELD), 0, &[213], "", true);
    t.check("10 bytes, held: the least that fits", fitting(&loud(10, HELD)).first().map(|f| f.0) == Some(213));
    t.call("five bands", &uneven(RUST), 0, &[206, 0, 0], "(a larger boundary unused)", true);
    for (mode, at, bits) in [(RUST, 1, 137), (RUST, 4, 129), (HELD, 4, 161)] {
        let (call, found) = (uneven(mode), prepared(&uneven(mode)));
        let all = at_boundaries(&call.layout, &call.kinds, &found.scaled, &found.factors, 206);
        t.check(&format!("five bands: boundary {at} takes {bits} bits"), all[at] == bits);
    }
}

/// What the premise says of secondaries, of the lower clip and of removed bands; both ends of level and boundary.
fn corners(t: &mut Trial) {
    let mut call = StageCall::exact(&[1, 2], 1, 1, 2, 40);
    throughout(&mut call, 1, 1, 1000.0);
    t.call("a secondary's band past its coded count", &call, 0, &[0], "Rust", false);
    let mut call = mono(1, 10, RUST);
    throughout(&mut call, 0, 0, -1000.0);
    t.call("the lower clip", &call, 0, &[], "Rust", false);
    let mut call = mono(3, 8, RUST);
    throughout(&mut call, 0, 2, 1000.0);
    t.call("a removed band at the clip", &call, 0, &[], "pairs removed", true);
    t.call("level 0", &mono(4, 20, RUST), 0, &[0, 0, 0], "level 0", false);
    let mut call = StageCall::exact(&[0], 128, 0, 128, 30);
    for s in 0..8 {
        call.spectra[s * 128 + 127] = 0.3 + 0.1 * s as f32;
    }
    t.call("boundary 127", &call, 0, &[], "boundary 127", false);
}

/// All of them; true where nothing is otherwise.
pub fn all(model: bool) -> bool {
    let mut t = Trial { model, good: true };
    premise(&mut t);
    corners(&mut t);
    println!("worked calls: {}", if t.good { "as they should be" } else { "NOT as they should be" });
    t.good
}
