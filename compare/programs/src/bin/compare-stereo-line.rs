//! The library's line from unmixed spectra against as many single calls of the stereo stage, of the Rust and of the library itself,
//! every buffer whole, spectra and intensities among them.
use compare::pairs::Met;
use compare::{differ, differ_answer, run, Options, Outcome};
use gen::line::LONGEST;
use gen::stereo_line::{call, held, kind_of, limited, KINDS};
use published::driver::StageCall;
use published::line::{stereo_line, LineCall, StereoLineLent};
use published::stereo::{stereo_stage, StereoLent};
use std::sync::Mutex;

fn by_library(call: &LineCall, model: bool, b: &mut StereoLineLent) -> u32 {
    let f = if model { hca_model::encode_stereo_line } else { hca_frame::raw::encode_stereo_line };
    f(
        &call.layout,
        &call.kinds,
        call.count,
        &mut b.spectra,
        &mut b.intensities,
        &mut b.line.scaled,
        &mut b.line.codes,
        &mut b.line.factors,
        &mut b.line.side,
        &mut b.line.frames,
        &mut b.line.answers,
        &mut b.line.tally,
        &mut b.line.answer,
    )
}

fn single_rust(call: &StageCall, b: &mut StereoLent) -> u32 {
    stereo_stage(call, b).0
}

fn single_library(call: &StageCall, b: &mut StereoLent) -> u32 {
    hca_frame::raw::encode_stereo_frame(
        &call.layout,
        &call.kinds,
        &mut b.spectra,
        &mut b.intensities,
        &mut b.stage.scaled,
        &mut b.stage.codes,
        &mut b.stage.factors,
        &mut b.stage.side,
        &mut b.stage.frame,
        &mut b.stage.answer,
    )
}

fn differences(before: &StereoLineLent, e: &StereoLineLent, g: &StereoLineLent, number: u32, got: u32, text: &mut String) {
    if number != got {
        text.push_str(&format!("  refusal number (0: delivered): expected {number}, got {got}\n"));
    }
    let bits = |b: &StereoLineLent| b.spectra.iter().map(|v| v.to_bits()).collect::<Vec<_>>();
    differ("spectra, as bits", &bits(before), &bits(e), &bits(g), text);
    differ("intensities", &before.intensities, &e.intensities, &g.intensities, text);
    let (before, e, g) = (&before.line, &e.line, &g.line);
    differ_answer(&before.answer, &e.answer, &g.answer, text);
    differ("tally", &before.tally, &e.tally, &g.tally, text);
    differ("answers", &before.answers, &e.answers, &g.answers, text);
    differ("frames", &before.frames, &e.frames, &g.frames, text);
    differ("factors", &before.factors, &e.factors, &g.factors, text);
    differ("side", &before.side, &e.side, &g.side, text);
    differ("scaled", &before.scaled, &e.scaled, &g.scaled, text);
    differ("codes", &before.codes, &e.codes, &g.codes, text);
}

/// The refusals that name a frame.
const LATE: [u32; 5] = [3, 4, 17, 5, 7];

/// What the call leaves beside what single calls leave: the number and the frame's index, and the differences.
fn compared(call: &LineCall, model: bool) -> (u32, usize, String) {
    let before = StereoLineLent::of(call);
    let (mut rust, mut got) = (before.clone(), before.clone());
    let number = stereo_line(call, single_rust, &mut rust);
    let answer = by_library(call, model, &mut got);
    let mut text = String::new();
    differences(&before, &rust, &got, number, answer, &mut text);
    if !text.is_empty() {
        text.insert_str(0, "  by single calls of the Rust:\n");
    }
    if !model {
        let mut own = before.clone();
        let by_own = stereo_line(call, single_library, &mut own);
        let mut more = String::new();
        differences(&before, &own, &got, by_own, answer, &mut more);
        if !more.is_empty() {
            text.push_str(&format!("  by single calls of the library:\n{more}"));
        }
    }
    let place = if LATE.contains(&number) { rust.line.answer[1] as usize } else { 0 };
    (number, place, text)
}

fn describe(call: &LineCall) -> String {
    format!(
        "  layout (channels, base, stereo, total, frame, minimum, maximum, mode) {:?}, kinds {:?}, {} frames, tally {:?}\n  {} spectra, {} intensities\n  lengths of scaled, codes, factors, side, frames, answers, answer: {:?}\n",
        call.layout,
        call.kinds,
        call.count,
        call.tally,
        call.spectra.len(),
        call.intensities.len(),
        call.lengths
    )
}

/// The frames at which each refusal came, a bit each.
type Places = [u32; 18];

fn all_places(places: &Places) -> bool {
    let missing: Vec<String> = LATE
        .into_iter()
        .flat_map(|n| (0..LONGEST).filter(move |k| places[n as usize] >> k & 1 == 0).map(move |k| format!("{n} at frame {k}")))
        .collect();
    let told = if missing.is_empty() { "all met".to_string() } else { format!("NOT met: {missing:?}") };
    println!("refusals 3, 4, 17, 5 and 7 at each of the frames 0 to {}: {told}", LONGEST - 1);
    missing.is_empty()
}

fn main() {
    let o = Options::parse("compare-stereo-line", 20_000, 1_500);
    let (places, met) = (Mutex::new(Places::default()), Met::default());
    let good = run(&o, "compare-stereo-line", |k| {
        let made = if o.held {
            held
        } else if o.pairs {
            limited
        } else {
            call
        };
        let call = made(o.seed, k);
        let (number, place, mut text) = compared(&call, o.model);
        text += &met.note(&call.layout, number).unwrap_or_default();
        let mut counted = vec![if number == 0 { "delivered".to_string() } else { format!("refusal {number}") }];
        if LATE.contains(&number) {
            places.lock().unwrap()[number as usize] |= 1 << place;
            counted.push(format!("(at frame {place:2})"));
        }
        let difference = (!text.is_empty()).then(|| format!("{}{text}", describe(&call)));
        Outcome { kind: KINDS[kind_of(k).0].0, counted, difference }
    });
    // a frame that is refused under 1 and 15 may be delivered under another pair
    let whole = o.only.is_none() && o.cases >= 1_500 && !o.pairs && !o.held;
    let good = met.all(&o) && good;
    let good = (!whole || all_places(&places.lock().unwrap())) && good;
    std::process::exit(if good { 0 } else { 1 });
}
