//! Corners of a layout's pair of limits, on all six calls that take a layout: `compare-pairs [--model]`. Wrong pairs alone and together with every
//! other refusal; slices of four to ten numbers; one resolution for all bands; a frame, a record and a call whose numbers are worked out by hand.
#[path = "compare-pairs/calls.rs"]
mod calls;
#[path = "compare-pairs/worked.rs"]
mod worked;

use calls::Call;
use gen::limits::WRONG;
use std::collections::BTreeSet;

/// Cases of each call.
const CASES: u64 = 400;

/// What a call's cases have met, and the first fault.
#[derive(Default)]
struct Seen {
    numbers: BTreeSet<u32>,
    calls: u64,
    fault: Option<String>,
}

impl Seen {
    fn check(&mut self, holds: bool, what: impl FnOnce() -> String) {
        self.calls += 1;
        if !holds && self.fault.is_none() {
            self.fault = Some(what());
        }
    }
}

/// A wrong pair is refusal 1 and changes nothing, whatever the call would answer without it.
fn wrong_pairs(call: &Call, model: bool, seen: &mut Seen) {
    for (minimum, maximum) in WRONG {
        let numbers = [minimum, maximum, 1, 15];
        // six numbers say a wrong minimum alone
        let least = if (1..=15).contains(&minimum) { 2 } else { 1 };
        for n in least..=4 {
            let bad = call.with(&numbers[..n]);
            let (number, left) = bad.left(model);
            let good = number == 1 && bad.is_untouched(&left);
            seen.check(good, || format!("{}: pair {minimum} and {maximum}, {} numbers: answered {number}", call.name(), 5 + n));
        }
    }
}

/// Five numbers, six with 1, seven with 1 and 15, and more: the same call. Four are refusal 1.
fn slices(call: &Call, model: bool, seen: &mut Seen) {
    let five = call.left(model);
    for numbers in [&[1][..], &[1, 15], &[1, 15, 0], &[1, 15, 0, u32::MAX], &[1, 15, 0, u32::MAX, 9]] {
        let same = call.with(numbers).left(model) == five;
        seen.check(same, || format!("{}: behind five numbers {numbers:?} make a difference", call.name()));
    }
    let four = call.cut(4);
    let (number, left) = four.left(model);
    seen.check(number == 1 && four.is_untouched(&left), || format!("{}: four numbers: answered {number}", call.name()));
}

fn corners(name: &str, expected: &[u32], model: bool, of_case: impl Fn(u64) -> Vec<Call>) -> bool {
    let mut seen = Seen::default();
    for call in (0..CASES).flat_map(of_case).filter(|call| call.layout().len() == 5) {
        seen.numbers.insert(call.left(model).0);
        wrong_pairs(&call, model, &mut seen);
        slices(&call, model, &mut seen);
    }
    let missing: Vec<&u32> = expected.iter().filter(|n| !seen.numbers.contains(n)).collect();
    let told = seen.fault.clone().unwrap_or_else(|| "as they should be".to_string());
    println!("{name}: {} calls with wrong pairs and other slices, beside refusals {expected:?}: {told}", seen.calls);
    if !missing.is_empty() {
        println!("{name}: NOT met beside a wrong pair: {missing:?}");
    }
    seen.fault.is_none() && missing.is_empty()
}

/// With one resolution for all bands every level has one estimate: level 0, or pairs are removed.
fn one_for_all(model: bool) -> bool {
    let mut seen = [0u64; 3];
    for k in 0..CASES {
        let call = Call::Stage(gen::stage::call(1, k));
        if call.layout().len() != 5 {
            continue;
        }
        for resolution in 1..=15 {
            let limited = call.with(&[resolution, resolution]);
            let (number, left) = limited.left(model);
            let [level, _, pairs, _] = limited.answer(&left);
            match number {
                0 if level != 0 => {
                    println!("one resolution, {resolution}: case {k} answered level {level}");
                    return false;
                }
                0 => seen[usize::from(pairs > 0)] += 1,
                _ => seen[2] += 1,
            }
        }
    }
    println!(
        "one resolution for all bands, 1 to 15: level 0 {} times, and {} times with removals; {} refused",
        seen[0], seen[1], seen[2]
    );
    seen.iter().all(|&n| n > 0)
}

fn main() {
    let model = match std::env::args().skip(1).collect::<Vec<_>>().as_slice() {
        [] => false,
        [word] if word == "--model" => true,
        _ => {
            eprintln!("usage: compare-pairs [--model]");
            std::process::exit(2);
        }
    };
    let records = |read: bool| move |k| Call::records(k, read);
    let good = [
        corners("stage", &[0, 1, 2, 3, 4, 5, 7], model, |k| vec![Call::Stage(gen::stage::call(1, k))]),
        corners("stereo", &[0, 1, 2, 3, 4, 5, 7, 17], model, |k| vec![Call::Stereo(gen::stereo::call(1, k))]),
        corners("line", &[0, 1, 2, 3, 4, 5, 7, 18], model, |k| vec![Call::Line(gen::line::call(1, k))]),
        corners("writer", &[0, 1, 2, 7, 15], model, records(false)),
        corners("reader", &[0, 1, 2, 8, 9, 11, 12, 13, 14], model, records(true)),
        corners("header", &[0, 1, 2, 16], model, |k| vec![Call::Header(gen::header::call(1, k))]),
        one_for_all(model),
        worked::all(model),
    ];
    std::process::exit(if good.iter().all(|&one| one) { 0 } else { 1 });
}
