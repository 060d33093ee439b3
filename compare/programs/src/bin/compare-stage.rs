//! The library's frame stage against the published Rust, every buffer whole; with --pairs against its second copy, under pairs of limits; with --held so in
//! held mode, where each delivered frame is read back too, and the same call is made in the Rust's mode.
use compare::modes::{beside, in_mode, is_held, Way};
use compare::pairs::Met;
use compare::{differ, differ_answer, run, Options, Outcome};
use gen::stage::{call, held, is_clipped, kind_of, limited, KINDS};
use published::driver::{Lent, Notes, StageCall};
use published::limits::{pair_of, stage, RUST};

fn by_library(call: &StageCall, model: bool, b: &mut Lent) -> u32 {
    let f = if model { hca_model::encode_frame } else { hca_frame::raw::encode_frame };
    f(
        &call.layout,
        &call.kinds,
        &call.spectra,
        &call.intensities,
        &mut b.scaled,
        &mut b.codes,
        &mut b.factors,
        &mut b.side,
        &mut b.frame,
        &mut b.answer,
    )
}

fn named(number: u32, notes: &Notes) -> Vec<String> {
    let mut v = vec![if number == 0 { "delivered".into() } else { format!("refusal {number}") }];
    if number == 0 {
        let mut add = |yes: bool, what: &str| {
            if yes {
                v.push(format!("({what})"));
            }
        };
        add(notes.pairs > 0, "pairs removed");
        add(notes.corner_codes > 0, "codes past the range");
        add(notes.zone_more > 0, "more bits than estimated");
        add(notes.zone_less > 0, "fewer bits than estimated");
        add(notes.boundary == 127, "boundary 127");
        add(notes.level == 0, "level 0");
    }
    v
}

fn describe(call: &StageCall) -> String {
    let loud = call.spectra.iter().filter(|v| v.to_bits() << 1 != 0).count();
    format!(
        "  layout (channels, base, stereo, total, frame, minimum, maximum, mode) {:?}, kinds {:?}\n  {} spectra, {} not zero; intensities {:?}\n  lengths of scaled, codes, factors, side, frame, answer: {:?}\n",
        call.layout,
        call.kinds,
        call.spectra.len(),
        loud,
        call.intensities,
        call.lengths
    )
}

/// All spectra that are not 0, as bits.
fn list(spectra: &[f32]) -> String {
    let shown = |(i, v): (usize, &f32)| (v.to_bits() != 0).then(|| format!("{i}:{:08X} ", v.to_bits()));
    format!("  spectra (place: bits) {}\n", spectra.iter().enumerate().filter_map(shown).collect::<String>())
}

/// The same call in the Rust's mode, beside what it left in held mode.
fn other_mode(call: &StageCall, model: bool, answer: u32, got: &Lent) -> (Vec<String>, String) {
    if !is_held(&call.layout) || ![0, 5, 7].contains(&answer) {
        return (Vec::new(), String::new());
    }
    let other = StageCall { layout: in_mode(&call.layout, RUST), ..call.clone() };
    let mut left = other.lent();
    let number = by_library(&other, model, &mut left);
    beside(Way { model }, call, (answer, got), (number, &left))
}

fn main() {
    let o = Options::parse("compare-stage", 100_000, 3_000);
    let met = Met::default();
    let good = run(&o, "compare-stage", |k| {
        let made = if o.held {
            held
        } else if o.pairs {
            limited
        } else {
            call
        };
        let call = made(o.seed, k);
        let before = call.lent();
        let (mut expected, mut got) = (before.clone(), before.clone());
        let (number, notes) = stage(&call, &mut expected);
        let answer = by_library(&call, o.model, &mut got);
        let mut text = met.note(&call.layout, answer).unwrap_or_default();
        let (minimum, maximum) = pair_of(&call.layout);
        if answer == 0 && minimum == maximum && got.answer[0] != 0 {
            text.push_str(&format!("  one resolution for all: expected level 0, got {}\n", got.answer[0]));
        }
        if answer != number {
            text.push_str(&format!("  refusal number (0: delivered): expected {number}, got {answer}\n"));
        }
        differ_answer(&before.answer, &expected.answer, &got.answer, &mut text);
        differ("factors", &before.factors, &expected.factors, &got.factors, &mut text);
        differ("side", &before.side, &expected.side, &got.side, &mut text);
        differ("scaled", &before.scaled, &expected.scaled, &got.scaled, &mut text);
        differ("codes", &before.codes, &expected.codes, &got.codes, &mut text);
        differ("frame", &before.frame, &expected.frame, &got.frame, &mut text);
        let (more, wrong) = other_mode(&call, o.model, answer, &got);
        text.push_str(&wrong);
        let difference = (!text.is_empty()).then(|| {
            let spectra = if o.only.is_some() { list(&call.spectra) } else { String::new() };
            format!("{}{spectra}{text}  the Rust's run: {notes:?} (--only lists the spectra)", describe(&call))
        });
        let kind = if o.held && is_clipped(k) { "at the clip" } else { KINDS[kind_of(k).0].0 };
        Outcome { kind, counted: [named(number, &notes), more].concat(), difference }
    });
    let good = met.all(&o) && good;
    std::process::exit(if good { 0 } else { 1 });
}
