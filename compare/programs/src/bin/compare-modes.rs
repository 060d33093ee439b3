//! Corners of a layout's mode, on all six calls that take a layout: `compare-modes [--model]`. Wrong modes alone, beside a wrong pair and together with every
//! other refusal; slices of five to ten numbers; reader, record writer and header, which do not look at the mode; calls whose numbers are worked out by hand.
#[allow(dead_code)]
#[path = "compare-pairs/calls.rs"]
mod calls;
#[path = "compare-modes/worked.rs"]
mod worked;

use calls::Call;
use gen::limits::WRONG_MODES;
use published::limits::{HELD, RUST};
use std::collections::BTreeSet;

/// Cases of each call.
const CASES: u64 = 400;

/// What a call's cases have met, and the first fault.
#[derive(Default)]
struct Seen {
    numbers: BTreeSet<u32>,
    calls: u64,
    fault: Option<String>,
}

impl Seen {
    fn check(&mut self, holds: bool, what: impl FnOnce() -> String) {
        self.calls += 1;
        if !holds && self.fault.is_none() {
            self.fault = Some(what());
        }
    }
}

/// A wrong mode is refusal 1 and changes nothing, whatever the call would answer without it; beside a wrong pair too.
fn wrong_modes(call: &Call, model: bool, seen: &mut Seen) {
    for mode in WRONG_MODES {
        for numbers in [&[1, 15, mode][..], &[4, 10, mode, HELD], &[1, 15, mode, HELD, RUST], &[9, 8, mode], &[0, 15, mode]] {
            let bad = call.with(numbers);
            let (number, left) = bad.left(model);
            let good = number == 1 && bad.is_untouched(&left);
            seen.check(good, || format!("{}: behind five numbers {numbers:?}: answered {number}", call.name()));
        }
    }
}

/// Five to seven numbers are the Rust's mode; what stands behind the eighth makes no difference.
fn slices(call: &Call, model: bool, seen: &mut Seen) {
    let (rust, held) = (call.with(&[1, 15, RUST]).left(model), call.with(&[1, 15, HELD]).left(model));
    for numbers in [&[][..], &[1], &[1, 15], &[1, 15, RUST, HELD], &[1, 15, RUST, u32::MAX, 2]] {
        let same = call.with(numbers).left(model) == rust;
        seen.check(same, || format!("{}: behind five numbers {numbers:?}: not the Rust's mode", call.name()));
    }
    for numbers in [&[1, 15, HELD, RUST][..], &[1, 15, HELD, u32::MAX, 2]] {
        let same = call.with(numbers).left(model) == held;
        seen.check(same, || format!("{}: behind five numbers {numbers:?}: not held mode", call.name()));
    }
    let makes_frames = matches!(call, Call::Stage(_) | Call::Stereo(_) | Call::Line(_));
    seen.check(makes_frames || rust == held, || format!("{}: it looks at the mode", call.name()));
}

fn corners(name: &str, expected: &[u32], model: bool, of_case: impl Fn(u64) -> Vec<Call>) -> bool {
    let mut seen = Seen::default();
    for call in (0..CASES).flat_map(of_case).filter(|call| call.layout().len() == 5) {
        seen.numbers.insert(call.left(model).0);
        wrong_modes(&call, model, &mut seen);
        slices(&call, model, &mut seen);
    }
    let missing: Vec<&u32> = expected.iter().filter(|n| !seen.numbers.contains(n)).collect();
    let told = seen.fault.clone().unwrap_or_else(|| "as they should be".to_string());
    println!("{name}: {} calls with wrong modes and other slices, beside refusals {expected:?}: {told}", seen.calls);
    if !missing.is_empty() {
        println!("{name}: NOT met beside a wrong mode: {missing:?}");
    }
    seen.fault.is_none() && missing.is_empty()
}

fn main() {
    let model = match std::env::args().skip(1).collect::<Vec<_>>().as_slice() {
        [] => false,
        [word] if word == "--model" => true,
        _ => {
            eprintln!("usage: compare-modes [--model]");
            std::process::exit(2);
        }
    };
    let records = |read: bool| move |k| Call::records(k, read);
    let good = [
        corners("stage", &[0, 1, 2, 3, 4, 5, 7], model, |k| vec![Call::Stage(gen::stage::call(1, k))]),
        corners("stereo", &[0, 1, 2, 3, 4, 5, 7, 17], model, |k| vec![Call::Stereo(gen::stereo::call(1, k))]),
        corners("line", &[0, 1, 2, 3, 4, 5, 7, 18], model, |k| vec![Call::Line(gen::line::call(1, k))]),
        corners("writer", &[0, 1, 2, 7, 15], model, records(false)),
        corners("reader", &[0, 1, 2, 8, 9, 11, 12, 13, 14], model, records(true)),
        corners("header", &[0, 1, 2, 16], model, |k| vec![Call::Header(gen::header::call(1, k))]),
        worked::all(model),
    ];
    std::process::exit(if good.iter().all(|&one| one) { 0 } else { 1 });
}
