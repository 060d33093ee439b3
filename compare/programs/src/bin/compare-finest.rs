//! Request A10 by brute force: what level, boundary, pairs and refusal 5 of the library's stage leave unused. The model's estimate is taken at all 255 levels,
//! all 128 boundaries and every stage of the removal. In held mode, and in the Rust's where no scaled value of a coded band is the upper clip, nothing finer
//! may fit; where one is, what is left unused is counted.
#[path = "compare-finest/worked.rs"]
mod worked;

use compare::{run, Options, Outcome};
use gen::stage::{finest, is_clipped_finest, kind_of, KINDS};
use hca_model::{at_boundaries, at_levels, searched, Searched};
use published::driver::{Lent, StageCall};
use published::limits::{mode_of, HELD};

/// The upper clip; its negative is none.
const CLIP: u32 = 0x3F7F_FFFE;

fn by_library(call: &StageCall, model: bool, b: &mut Lent) -> u32 {
    let f = if model { hca_model::encode_frame } else { hca_frame::raw::encode_frame };
    f(
        &call.layout,
        &call.kinds,
        &call.spectra,
        &call.intensities,
        &mut b.scaled,
        &mut b.codes,
        &mut b.factors,
        &mut b.side,
        &mut b.frame,
        &mut b.answer,
    )
}

/// A call that passed refusals 1 to 4, what the searches came to, and what was found wrong or worth counting.
struct Case<'a> {
    call: &'a StageCall,
    searched: Searched,
    /// nothing finer may be left unused
    ordered: bool,
    wrong: String,
    counted: Vec<String>,
}

impl Case<'_> {
    fn fits(&self, bits: u32) -> bool {
        bits <= 8 * self.call.layout[4]
    }

    fn check(&mut self, holds: bool, what: &str) {
        if !holds {
            self.wrong.push_str(&format!("  {what}\n"));
        }
    }

    /// What the premise excludes: a contradiction under it, else counted.
    fn unused(&mut self, found: bool, what: &str) {
        if found && self.ordered {
            self.wrong.push_str(&format!("  {what}\n"));
        } else if found {
            self.counted.push(format!("({what})"));
        }
    }

    /// Bands of the highest start: N.
    fn start(&self) -> usize {
        (self.call.layout[1] + self.call.layout[2]) as usize
    }

    /// The factors after so many pairs were removed.
    fn after(&self, pairs: usize) -> Vec<u8> {
        let (mut factors, n) = (self.searched.factors.clone(), self.start());
        for channel in factors.chunks_mut(128) {
            channel[n - 2 * pairs..n].fill(0);
        }
        factors
    }

    fn any_level_fits(&self, factors: &[u8]) -> bool {
        at_levels(&self.call.layout, &self.call.kinds, &self.searched.scaled, factors).iter().any(|&bits| self.fits(bits))
    }

    /// Refusal 5: all removals were made, and no level fits at any stage.
    fn no_level(&mut self, beside: u32) {
        let most = self.start().saturating_sub(1) / 2;
        self.check(beside as usize == most, "refusal 5: not the most removals beside it");
        let fits = (0..=most).any(|k| self.any_level_fits(&self.after(k)));
        self.unused(fits, "refusal 5 though a level fits");
    }

    /// A level was found, with these factors left: delivered, or refused with 7 behind it.
    fn found(&mut self, factors: &[u8]) {
        let (level, boundary, pairs) = (self.searched.level, self.searched.boundary, self.searched.pairs as usize);
        self.check(factors == self.after(pairs), "the factors left are not those after so many removals");
        let earlier = (0..pairs).any(|k| self.any_level_fits(&self.after(k)));
        self.unused(earlier, "a pair removed though a level fits");
        let (layout, kinds) = (&self.call.layout, &self.call.kinds);
        let levels = at_levels(layout, kinds, &self.searched.scaled, factors);
        let at = level as usize;
        self.check(self.fits(levels[at]), "the level does not fit");
        self.unused(levels[..at].iter().any(|&bits| self.fits(bits)), "a finer level unused");
        if level == 0 {
            return;
        }
        self.check(!self.fits(levels[at - 1]), "the level before fits");
        let boundaries = at_boundaries(layout, kinds, &self.searched.scaled, factors, level);
        let b = boundary as usize;
        self.check(self.fits(boundaries[b]), "the boundary does not fit");
        self.check(b == 127 || !self.fits(boundaries[b + 1]), "the next boundary fits");
        self.unused(boundaries[b + 1..].iter().any(|&bits| self.fits(bits)), "a larger boundary unused");
    }
}

/// Does a scaled value of a coded band equal the upper clip?
fn is_clipped(call: &StageCall, scaled: &[f32]) -> bool {
    let (base, stereo) = (call.layout[1] as usize, call.layout[2] as usize);
    let coded = |c: usize| if call.kinds[c] == 2 { base } else { base + stereo };
    scaled.chunks(1024).enumerate().any(|(c, values)| values[..coded(c) * 8].iter().any(|v| v.to_bits() == CLIP))
}

/// Judges what one call answered and left; none where it was refused with 1 to 4.
fn judged<'a>(call: &'a StageCall, number: u32, left: &Lent) -> Option<Case<'a>> {
    if ![0, 5, 7].contains(&number) {
        return None;
    }
    let searched = searched(&call.layout, &call.kinds, &call.spectra).expect("a layout that was let in");
    let clipped = is_clipped(call, &searched.scaled);
    let held = mode_of(&call.layout) == HELD;
    let word = format!("{}{}", if held { "held" } else { "Rust" }, if clipped { ", clipped" } else { "" });
    let mut case = Case { call, searched, ordered: held || !clipped, wrong: String::new(), counted: vec![word] };
    match number {
        5 => {
            case.check(case.searched.level == 255, "refusal 5 where the model finds a level");
            case.no_level(left.answer[0]);
        }
        7 => {
            let factors = case.after(case.searched.pairs as usize);
            case.found(&factors);
        }
        _ => {
            let n = call.layout[0] as usize;
            let found = [case.searched.level, case.searched.boundary, case.searched.pairs];
            case.check(left.answer[..3] == found, "not the model's level, boundary and pairs");
            let same = left.scaled[..n * 1024].iter().zip(&case.searched.scaled).all(|(a, b)| a.to_bits() == b.to_bits());
            case.check(same, "not the model's scaled values");
            case.found(&left.factors[..n * 128]);
        }
    }
    Some(case)
}

/// The call and its judgement; the first word counted is its outcome.
fn tried(call: &StageCall, model: bool) -> (u32, Lent, Vec<String>, String) {
    let mut left = call.lent();
    let number = by_library(call, model, &mut left);
    let mut counted = vec![if number == 0 { "delivered".into() } else { format!("refusal {number}") }];
    let mut wrong = String::new();
    if let Some(case) = judged(call, number, &left) {
        counted.extend(case.counted);
        wrong = case.wrong;
    }
    if number == 0 {
        let sorts =
            [(left.answer[0] == 0, "level 0"), (left.answer[1] == 127, "boundary 127"), (left.answer[2] > 0, "pairs removed")];
        counted.extend(sorts.iter().filter(|(yes, _)| *yes).map(|(_, what)| (*what).to_string()));
    }
    (number, left, counted, wrong)
}

fn main() {
    let o = Options::parse("compare-finest", 20_000, 300);
    let good = run(&o, "compare-finest", |k| {
        let call = finest(o.seed, k);
        let (_, _, counted, wrong) = tried(&call, o.model);
        let kind = if is_clipped_finest(k) { "at the clip" } else { KINDS[kind_of(k).0].0 };
        let difference = (!wrong.is_empty()).then(|| format!("  layout {:?}, kinds {:?}\n{wrong}", call.layout, call.kinds));
        Outcome { kind, counted, difference }
    });
    let worked = worked::all(o.model);
    std::process::exit(if good && worked { 0 } else { 1 });
}
