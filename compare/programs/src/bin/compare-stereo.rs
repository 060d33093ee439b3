//! The library's stereo stage against the published Rust, every buffer whole: those of the stage, spectra and intensities.
use compare::modes::{is_held, Way};
use compare::pairs;
use compare::{differ, differ_answer, run, Options, Outcome};
use gen::stereo::{call, held, kind_of, limited, KINDS};
use published::driver::{Notes, StageCall};
use published::stereo::{stereo_stage, Met, StereoLent};
use std::sync::Mutex;

fn by_library(call: &StageCall, model: bool, b: &mut StereoLent) -> u32 {
    let f = if model { hca_model::encode_stereo_frame } else { hca_frame::raw::encode_stereo_frame };
    f(
        &call.layout,
        &call.kinds,
        &mut b.spectra,
        &mut b.intensities,
        &mut b.stage.scaled,
        &mut b.stage.codes,
        &mut b.stage.factors,
        &mut b.stage.side,
        &mut b.stage.frame,
        &mut b.stage.answer,
    )
}

fn named(number: u32, notes: &Notes, met: &Met) -> Vec<String> {
    let mut v = vec![if number == 0 { "delivered".into() } else { format!("refusal {number}") }];
    let mut add = |yes: bool, what: &str| {
        if yes {
            v.push(format!("({what})"));
        }
    };
    add(number == 0 && notes.pairs > 0, "pairs removed");
    add(met.values != 0, "mixed");
    add(met.values & 1 != 0, "a silent pair");
    add(met.at != 0, "stored at a bound");
    add((met.above | met.below) != 0, "stored an ulp beside one");
    add(met.ratios & 1 != 0, "ratio at the lower end");
    add(met.ratios & 4 != 0, "ratio at the upper end");
    add(met.ratios & 8 != 0, "ratio 1");
    v
}

fn describe(call: &StageCall) -> String {
    format!(
        "  layout (channels, base, stereo, total, frame, minimum, maximum, mode) {:?}, kinds {:?}\n  {} spectra; intensities {:?}\n  lengths of scaled, codes, factors, side, frame, answer: {:?}\n",
        call.layout,
        call.kinds,
        call.spectra.len(),
        call.intensities,
        call.lengths
    )
}

/// All spectra that are not +0.0, as bits.
fn list(spectra: &[f32]) -> String {
    let shown = |(i, v): (usize, &f32)| (v.to_bits() != 0).then(|| format!("{i}:{:08X} ", v.to_bits()));
    format!("  spectra (place: bits) {}\n", spectra.iter().enumerate().filter_map(shown).collect::<String>())
}

/// What the runs together have to meet: every intensity, every bound and an ulp on either side of it, every sort of ratio.
fn all_met(met: &Met) -> bool {
    let whole = Met { values: 0x3FFF, at: 0x1FFE, above: 0x1FFE, below: 0x1FFE, ratios: 15 };
    let bits = |m: &Met| [m.values, m.at, m.above, m.below, m.ratios];
    let good = bits(met) == bits(&whole);
    println!(
        "intensities 0 to 13, bounds 1 to 12 exactly and by an ulp on either side, both ends of the ratio, between and 1: {}",
        if good { "all met".to_string() } else { format!("NOT all met: {met:X?}") }
    );
    good
}

fn main() {
    let o = Options::parse("compare-stereo", 100_000, 3_000);
    let (all, under) = (Mutex::new(Met::default()), pairs::Met::default());
    let good = run(&o, "compare-stereo", |k| {
        let made = if o.held {
            held
        } else if o.pairs {
            limited
        } else {
            call
        };
        let call = made(o.seed, k);
        let before = StereoLent::of(&call);
        let (mut expected, mut got) = (before.clone(), before.clone());
        let (number, notes, met) = stereo_stage(&call, &mut expected);
        let answer = by_library(&call, o.model, &mut got);
        let mut text = under.note(&call.layout, answer).unwrap_or_default();
        if answer != number {
            text.push_str(&format!("  refusal number (0: delivered): expected {number}, got {answer}\n"));
        }
        let (b, e, g) = (&before.stage, &expected.stage, &got.stage);
        differ_answer(&b.answer, &e.answer, &g.answer, &mut text);
        differ("spectra", &before.spectra, &expected.spectra, &got.spectra, &mut text);
        differ("intensities", &before.intensities, &expected.intensities, &got.intensities, &mut text);
        differ("factors", &b.factors, &e.factors, &g.factors, &mut text);
        differ("side", &b.side, &e.side, &g.side, &mut text);
        differ("scaled", &b.scaled, &e.scaled, &g.scaled, &mut text);
        differ("codes", &b.codes, &e.codes, &g.codes, &mut text);
        differ("frame", &b.frame, &e.frame, &g.frame, &mut text);
        if answer == 0 && is_held(&call.layout) && !(Way { model: o.model }).is_read_back(&call.layout, &call.kinds, g) {
            text.push_str("  held mode: the frame is not read back to its record, or that not written back to the frame\n");
        }
        let difference = (!text.is_empty()).then(|| {
            let spectra = if o.only.is_some() { list(&call.spectra) } else { String::new() };
            format!("{}{spectra}{text}  the Rust's run: {notes:?} (--only lists the spectra)", describe(&call))
        });
        let mut all = all.lock().unwrap();
        *all = all.with(met);
        Outcome { kind: KINDS[kind_of(k).0].0, counted: named(number, &notes, &met), difference }
    });
    let good = under.all(&o) && good;
    let good = (o.only.is_some() || o.cases < 3_000 || all_met(&all.lock().unwrap())) && good;
    std::process::exit(if good { 0 } else { 1 });
}
