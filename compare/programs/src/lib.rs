//! What the comparing programs share: options, threads, counts, differences; and speech from a file.
pub mod front;
pub mod header;
pub mod list;
pub mod modes;
pub mod pairs;
pub mod wav;

use std::collections::BTreeMap;
use std::sync::atomic::{AtomicU64, Ordering};
use std::sync::Mutex;

/// Options of both comparing programs.
pub struct Options {
    pub seed: u64,
    pub cases: u64,
    pub threads: usize,
    pub only: Option<u64>,
    /// print each index before its case, to find one that ends the program
    pub trace: bool,
    /// compare the model in the place of the library
    pub model: bool,
    /// the cases under pairs of limits of the resolution
    pub pairs: bool,
    /// the cases in held mode, under pairs too
    pub held: bool,
}

/// The programs that can try other limits of the resolution, and held mode.
const WITH_PAIRS: [&str; 7] = [
    "compare-stage",
    "compare-stereo",
    "compare-line",
    "compare-stereo-line",
    "compare-header",
    "compare-records",
    "compare-convert",
];

impl Options {
    /// From the command line; `whole` and `small` are the numbers of cases.
    pub fn parse(program: &str, whole: u64, small: u64) -> Self {
        let threads = std::thread::available_parallelism().map_or(2, |n| n.get());
        let mut o = Options { seed: 1, cases: whole, threads, only: None, trace: false, model: false, pairs: false, held: false };
        let mut args = std::env::args().skip(1);
        while let Some(a) = args.next() {
            let mut number = || {
                args.next().and_then(|v| v.parse::<u64>().ok()).unwrap_or_else(|| usage(program, &format!("{a} needs a number")))
            };
            match a.as_str() {
                "--cases" => o.cases = number(),
                "--seed" => o.seed = number(),
                "--threads" => o.threads = number().max(1) as usize,
                "--only" => o.only = Some(number()),
                "--small" => o.cases = small,
                "--trace" => o.trace = true,
                "--model" => o.model = true,
                "--pairs" if WITH_PAIRS.contains(&program) => o.pairs = true,
                "--held" if WITH_PAIRS.contains(&program) => o.held = true,
                _ => usage(program, &format!("unknown option {a}")),
            }
        }
        o
    }
}

fn usage(program: &str, what: &str) -> ! {
    let pairs = if WITH_PAIRS.contains(&program) { " [--pairs | --held]" } else { "" };
    eprintln!(
        "{what}\nusage: {program} [--cases N] [--seed S] [--small] [--threads T] [--only INDEX] [--trace] [--model]{pairs}"
    );
    std::process::exit(2)
}

/// What one case came to.
pub struct Outcome {
    pub kind: &'static str,
    /// refusal numbers, or other names of outcomes, to be counted
    pub counted: Vec<String>,
    pub difference: Option<String>,
}

/// Runs all cases, prints the counts and the first difference; true where there is none.
pub fn run(o: &Options, repro: &str, case: impl Fn(u64) -> Outcome + Sync) -> bool {
    let start = std::time::Instant::now();
    let (first, last) = match o.only {
        Some(k) => (k, k + 1),
        None => (0, o.cases),
    };
    let next = AtomicU64::new(first);
    let counts: Mutex<BTreeMap<(&str, String), u64>> = Mutex::new(BTreeMap::new());
    let found: Mutex<(u64, Option<(u64, String)>)> = Mutex::new((0, None));
    std::thread::scope(|s| {
        for _ in 0..o.threads {
            s.spawn(|| {
                let mut own: BTreeMap<(&str, String), u64> = BTreeMap::new();
                loop {
                    let k = next.fetch_add(1, Ordering::Relaxed);
                    if k >= last {
                        break;
                    }
                    if o.trace {
                        eprintln!("case {k}");
                    }
                    let out = guarded(k, &case);
                    for c in out.counted {
                        *own.entry((out.kind, c)).or_default() += 1;
                    }
                    if let Some(d) = out.difference {
                        let mut f = found.lock().unwrap();
                        f.0 += 1;
                        if f.1.as_ref().is_none_or(|(at, _)| k < *at) {
                            f.1 = Some((k, format!("case {k} ({}):\n{d}", out.kind)));
                        }
                    }
                }
                for (k, n) in own {
                    *counts.lock().unwrap().entry(k).or_default() += n;
                }
            });
        }
    });
    print_counts(&counts.into_inner().unwrap());
    let (n, difference) = found.into_inner().unwrap();
    println!(
        "{} cases, seed {}, {} threads, {:.1} s: {} with a difference",
        last - first,
        o.seed,
        o.threads,
        start.elapsed().as_secs_f64(),
        n
    );
    match difference {
        None => true,
        Some((k, text)) => {
            let pairs = if o.pairs {
                " --pairs"
            } else if o.held {
                " --held"
            } else {
                ""
            };
            println!("\nFIRST DIFFERENCE, {text}\nto repeat: {repro}{pairs} --seed {} --only {k}", o.seed);
            false
        }
    }
}

/// A panic on the way is a difference too.
fn guarded(k: u64, case: &(impl Fn(u64) -> Outcome + Sync)) -> Outcome {
    let run = std::panic::AssertUnwindSafe(|| case(k));
    std::panic::catch_unwind(run).unwrap_or_else(|_| Outcome {
        kind: "panics",
        counted: vec!["panic".into()],
        difference: Some("  a panic; its text is on standard error".into()),
    })
}

fn print_counts(counts: &BTreeMap<(&str, String), u64>) {
    let mut totals: BTreeMap<&str, u64> = BTreeMap::new();
    let mut kind = "";
    for ((k, what), n) in counts {
        if *k != kind {
            print!("{}{k:28}", if kind.is_empty() { "" } else { "\n" });
            kind = k;
        }
        print!("  {what}: {n}");
        *totals.entry(what).or_default() += n;
    }
    print!("\n{:28}", "TOGETHER");
    for (what, n) in totals {
        print!("  {what}: {n}");
    }
    println!();
}

/// A word that shows a difference in bits as well as in value.
pub trait Shown: Copy {
    fn bits(self) -> u64;
    fn show(self) -> String;
}
impl Shown for u8 {
    fn bits(self) -> u64 {
        self.into()
    }
    fn show(self) -> String {
        format!("{self}")
    }
}
impl Shown for u32 {
    fn bits(self) -> u64 {
        self.into()
    }
    fn show(self) -> String {
        format!("{self}")
    }
}
impl Shown for u64 {
    fn bits(self) -> u64 {
        self
    }
    fn show(self) -> String {
        format!("{self}")
    }
}
impl Shown for i32 {
    fn bits(self) -> u64 {
        self as u32 as u64
    }
    fn show(self) -> String {
        format!("{self}")
    }
}
impl Shown for f32 {
    fn bits(self) -> u64 {
        self.to_bits().into()
    }
    fn show(self) -> String {
        format!("{self:e} ({:#010X})", self.to_bits())
    }
}

/// Adds to `text` where two buffers differ: how often, and the first eight places.
pub fn differ<T: Shown>(name: &str, before: &[T], expected: &[T], got: &[T], text: &mut String) {
    let same = |i: &usize| expected[*i].bits() == got[*i].bits();
    if (0..expected.len()).all(|i| same(&i)) {
        return;
    }
    let places: Vec<usize> = (0..expected.len()).filter(|i| !same(i)).collect();
    text.push_str(&format!("  {name}: {} of {} places differ\n", places.len(), expected.len()));
    for &i in places.iter().take(8) {
        text.push_str(&format!(
            "    [{i}] expected {}, got {}{}\n",
            expected[i].show(),
            got[i].show(),
            if before[i].bits() == expected[i].bits() { ", which was to stay untouched" } else { "" }
        ));
    }
}

/// Answers, where one under four places may hold the 0 beside the refusal or stay
/// as it was: the interface leaves that open.
pub fn differ_answer(before: &[u32], expected: &[u32], got: &[u32], text: &mut String) {
    if expected.len() < 4 && got == before {
        return;
    }
    differ("answer", before, expected, got, text);
}
