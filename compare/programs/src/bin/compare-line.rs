//! The library's line against as many single calls of the Rust and of the library itself, every buffer whole. Then lines of
//! 65,535 frames, which is the most, and of one more.
use compare::pairs::Met;
use compare::{differ, differ_answer, run, Options, Outcome};
use gen::line::{call, held, kind_of, limited, KINDS, LONGEST};
use published::driver::{Lent, StageCall};
use published::limits::stage;
use published::line::{line, LineCall, LineLent, MOST};
use std::sync::Mutex;

fn by_library(call: &LineCall, model: bool, b: &mut LineLent) -> u32 {
    let f = if model { hca_model::encode_line } else { hca_frame::raw::encode_line };
    f(
        &call.layout,
        &call.kinds,
        call.count,
        &call.spectra,
        &call.intensities,
        &mut b.scaled,
        &mut b.codes,
        &mut b.factors,
        &mut b.side,
        &mut b.frames,
        &mut b.answers,
        &mut b.tally,
        &mut b.answer,
    )
}

fn single_rust(call: &StageCall, b: &mut Lent) -> u32 {
    stage(call, b).0
}

fn single_library(call: &StageCall, b: &mut Lent) -> u32 {
    hca_frame::raw::encode_frame(
        &call.layout,
        &call.kinds,
        &call.spectra,
        &call.intensities,
        &mut b.scaled,
        &mut b.codes,
        &mut b.factors,
        &mut b.side,
        &mut b.frame,
        &mut b.answer,
    )
}

fn differences(before: &LineLent, e: &LineLent, g: &LineLent, number: u32, got: u32, text: &mut String) {
    if number != got {
        text.push_str(&format!("  refusal number (0: delivered): expected {number}, got {got}\n"));
    }
    differ_answer(&before.answer, &e.answer, &g.answer, text);
    differ("tally", &before.tally, &e.tally, &g.tally, text);
    differ("answers", &before.answers, &e.answers, &g.answers, text);
    differ("frames", &before.frames, &e.frames, &g.frames, text);
    differ("factors", &before.factors, &e.factors, &g.factors, text);
    differ("side", &before.side, &e.side, &g.side, text);
    differ("scaled", &before.scaled, &e.scaled, &g.scaled, text);
    differ("codes", &before.codes, &e.codes, &g.codes, text);
}

/// What the call leaves beside what single calls leave: the number and the frame's index, and the differences.
fn compared(call: &LineCall, model: bool) -> (u32, usize, String) {
    let before = call.lent();
    let (mut rust, mut got) = (before.clone(), before.clone());
    let number = line(call, single_rust, &mut rust);
    let answer = by_library(call, model, &mut got);
    let mut text = String::new();
    differences(&before, &rust, &got, number, answer, &mut text);
    if !text.is_empty() {
        text.insert_str(0, "  by single calls of the Rust:\n");
    }
    if !model {
        let mut own = before.clone();
        let by_own = line(call, single_library, &mut own);
        let mut more = String::new();
        differences(&before, &own, &got, by_own, answer, &mut more);
        if !more.is_empty() {
            text.push_str(&format!("  by single calls of the library:\n{more}"));
        }
    }
    let place = if [3, 4, 5, 7].contains(&number) { rust.answer[1] as usize } else { 0 };
    (number, place, text)
}

fn describe(call: &LineCall) -> String {
    format!(
        "  layout (channels, base, stereo, total, frame, minimum, maximum, mode) {:?}, kinds {:?}, {} frames, tally {:?}\n  {} spectra, {} intensities\n  lengths of scaled, codes, factors, side, frames, answers, answer: {:?}\n",
        call.layout,
        call.kinds,
        call.count,
        call.tally,
        call.spectra.len(),
        call.intensities.len(),
        call.lengths
    )
}

/// The frames at which each of the refusals 3, 4, 5 and 7 came, a bit each.
type Places = [u32; 8];

fn all_places(places: &Places) -> bool {
    let missing: Vec<String> = [3, 4, 5, 7]
        .into_iter()
        .flat_map(|n| (0..LONGEST).filter(move |k| places[n] >> k & 1 == 0).map(move |k| format!("{n} at frame {k}")))
        .collect();
    let told = if missing.is_empty() { "all met".to_string() } else { format!("NOT met: {missing:?}") };
    println!("refusals 3, 4, 5 and 7 at each of the frames 0 to {}: {told}", LONGEST - 1);
    missing.is_empty()
}

/// As many frames as may be, of eight bytes, each with a side value of its own; then with a NaN in the last, and one frame more.
fn longest_lines(model: bool) -> bool {
    let mut call = LineCall::empty(&StageCall::exact(&[0], 0, 0, 1, 8));
    call.count = MOST + 1;
    call.spectra = vec![0.0; call.count * 1024];
    call.intensities = vec![0; call.count * 8];
    for k in 0..call.count {
        call.spectra[k * 1024] = 0.001 * (k % 4001) as f32;
    }
    call.set_lengths();
    let mut good = true;
    for (name, count, bad, expected) in [
        ("65,536 frames", MOST + 1, None, (18, 0)),
        ("65,535 frames", MOST, None, (0, 0)),
        ("65,535 frames, the last with a NaN", MOST, Some((MOST - 1) * 1024 + 1023), (4, MOST - 1)),
    ] {
        call.count = count;
        if let Some(at) = bad {
            call.spectra[at] = f32::NAN;
        }
        let (number, place, text) = compared(&call, model);
        let same = (number, place) == expected && text.is_empty();
        println!("{name} of 8 bytes: {} {number}, frame {place}{text}", if same { "as expected," } else { "WRONG:" });
        good &= same;
    }
    good
}

fn main() {
    let o = Options::parse("compare-line", 20_000, 600);
    let (places, met) = (Mutex::new(Places::default()), Met::default());
    let good = run(&o, "compare-line", |k| {
        let made = if o.held {
            held
        } else if o.pairs {
            limited
        } else {
            call
        };
        let call = made(o.seed, k);
        let (number, place, mut text) = compared(&call, o.model);
        text += &met.note(&call.layout, number).unwrap_or_default();
        let mut counted = vec![if number == 0 { "delivered".to_string() } else { format!("refusal {number}") }];
        if [3, 4, 5, 7].contains(&number) {
            places.lock().unwrap()[number as usize] |= 1 << place;
            counted.push(format!("(at frame {place:2})"));
        }
        let difference = (!text.is_empty()).then(|| format!("{}{text}", describe(&call)));
        Outcome { kind: KINDS[kind_of(k).0].0, counted, difference }
    });
    // a frame that is refused under 1 and 15 may be delivered under another pair
    let whole = o.only.is_none() && o.cases >= 600 && !o.pairs && !o.held;
    let good = met.all(&o) && good;
    let good = (!whole || all_places(&places.lock().unwrap())) && good;
    let good = (o.only.is_some() || o.pairs || o.held || longest_lines(o.model)) && good;
    std::process::exit(if good { 0 } else { 1 });
}
