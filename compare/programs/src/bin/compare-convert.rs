//! A take's whole way, by `hca_convert::convert` over the library and by the Rust's own `encode_wav_to_hca`: the same file byte for byte, or
//! refused by both. With a program in HCAFRAME (an absolute path) each case goes through `hcaframe convert` too, whose file has to be the same.
//! With --pairs each take is made under one of the 120 pairs of limits, and compared with the Rust's second copy; with --held so in held mode.
use compare::{run, Options, Outcome};
use gen::convert::{case, kind_of, Case, KINDS};
use gen::limits::pair;
use hca_convert::{convert, Fault, Settings};
use hca_frame::{read_wav, Mode, Refusal};
use published::hca::encoder::{encode_wav_to_hca, HcaEncoderConfig, HcaEncoderError};
use published::hca::limited;
use published::limits::under;
use std::io::Cursor;
use std::path::PathBuf;
use std::process::{Command, Stdio};

/// Lowest and highest resolution, and the mode.
type Limits = (u32, u32, Mode);

/// The published encoder's own.
const PUBLISHED: Limits = (1, 15, Mode::Rust);

/// The file, or the number of the refusal; 0 where there is none.
fn by_library(case: &Case, (minimum, maximum, mode): Limits) -> Result<Vec<u8>, u32> {
    let take = read_wav(&case.wav).map_err(|no| no.number)?;
    let loop_points = case.loop_points.map(|(start, end)| (start.into(), end.into()));
    let settings = Settings { bitrate: case.bitrate, loop_points, resolutions: (minimum, maximum), mode };
    let made = convert(&take, &settings, |_, _| ()).map_err(|fault: Fault| fault.refusal().map_or(0, |no| no.number))?;
    Ok(made.file)
}

fn by_rust(case: &Case) -> Result<Vec<u8>, HcaEncoderError> {
    let mut config = HcaEncoderConfig::new(case.rate, case.channels.into()).with_bitrate(case.bitrate);
    if let Some((start, end)) = case.loop_points {
        (config.loop_start, config.loop_end) = (Some(start), Some(end));
    }
    let mut file = Cursor::new(Vec::new());
    encode_wav_to_hca(&case.wav, &mut file, Some(config))?;
    Ok(file.into_inner())
}

/// The same by the second copy, under a pair of limits and in a mode.
fn by_second_copy(case: &Case, (minimum, maximum, mode): Limits) -> Result<Vec<u8>, HcaEncoderError> {
    let mut config = limited::HcaEncoderConfig::new(case.rate, case.channels.into()).with_bitrate(case.bitrate);
    if let Some((start, end)) = case.loop_points {
        (config.loop_start, config.loop_end) = (Some(start), Some(end));
    }
    let mut file = Cursor::new(Vec::new());
    let numbers = [0, 0, 0, 0, 0, minimum, maximum, u32::from(mode == Mode::Held)];
    let made = under(&numbers, || limited::encode_wav_to_hca(&case.wav, &mut file, Some(config)));
    match made {
        Ok(_) => Ok(file.into_inner()),
        Err(limited::HcaEncoderError::InvalidSampleRate(n)) => Err(HcaEncoderError::InvalidSampleRate(n)),
        Err(limited::HcaEncoderError::InvalidChannelCount(n)) => Err(HcaEncoderError::InvalidChannelCount(n)),
        Err(limited::HcaEncoderError::FrameTooLarge) => Err(HcaEncoderError::FrameTooLarge),
        Err(limited::HcaEncoderError::NoSamples) => Err(HcaEncoderError::NoSamples),
        Err(limited::HcaEncoderError::Io(error)) => Err(HcaEncoderError::Io(error)),
    }
}

/// The refusals that stand for an error of the Rust.
fn numbers(error: &HcaEncoderError) -> &'static [u32] {
    match error {
        HcaEncoderError::InvalidSampleRate(_) | HcaEncoderError::InvalidChannelCount(_) => &[Refusal::BAD_HEADER],
        HcaEncoderError::FrameTooLarge => &[Refusal::NO_LEVEL, Refusal::TOO_LONG],
        HcaEncoderError::NoSamples => &[0, Refusal::NOT_WAVE, Refusal::NO_DATA],
        HcaEncoderError::Io(_) => &[],
    }
}

fn compared(case: &Case, limits: Option<Limits>) -> (String, Option<String>) {
    let ours = by_library(case, limits.unwrap_or(PUBLISHED));
    let theirs = limits.map_or_else(|| by_rust(case), |limits| by_second_copy(case, limits));
    match (&ours, &theirs) {
        (Ok(a), Ok(b)) if a == b => ("equal".into(), None),
        (Ok(a), Ok(b)) => {
            let at = a.iter().zip(b).position(|(a, b)| a != b);
            ("other bytes".into(), Some(format!("{} and {} bytes, the first other one at {at:?}", a.len(), b.len())))
        }
        (Err(n), Err(error)) if numbers(error).contains(n) => (format!("refused by both: {n}"), None),
        // NaN fits no frame of the Rust's, mostly
        (Err(25), Err(HcaEncoderError::FrameTooLarge)) => ("refused by both: 25".into(), None),
        // what the library does not take: depths that the Rust reads as silence, NaN and infinity
        (Err(n @ (24 | 25)), Ok(_)) => (format!("only the Rust takes it: {n}"), None),
        (ours, theirs) => {
            let ours = ours.as_ref().map(Vec::len);
            let text = format!(
                "by the library {ours:?} bytes or refusal, by the Rust {:?} bytes or error",
                theirs.as_ref().map(Vec::len)
            );
            ("not alike".into(), Some(text))
        }
    }
}

/// The outcome; of a file also what it was made of.
fn counted(case: &Case, outcome: String) -> Vec<String> {
    if outcome != "equal" {
        return vec![outcome];
    }
    let of = [format!("{} channels", case.channels), format!("{} bits", case.depth)];
    let looped = case.loop_points.map(|_| "looped".to_string());
    let parts = of.into_iter().chain(looped).map(|part| format!("({part})"));
    [outcome].into_iter().chain(parts).collect()
}

/// The program on the same file; nothing where it makes what the library's calls make.
fn by_program(program: &str, k: u64, case: &Case, limits: Option<Limits>) -> Option<String> {
    let folder = std::env::temp_dir();
    let name = |end: &str| -> PathBuf { folder.join(format!("compare-convert-{}-{k}.{end}", std::process::id())) };
    let (wav, hca) = (name("wav"), name("hca"));
    std::fs::write(&wav, &case.wav).expect("a temporary file can be written");
    let mut call = Command::new(program);
    call.arg("convert").arg(&wav).args(["--bitrate", &case.bitrate.to_string()]).arg("--out").arg(&hca);
    if let Some((start, end)) = case.loop_points {
        call.args(["--loop-start", &start.to_string(), "--loop-end", &end.to_string()]);
    }
    if let Some((minimum, maximum, mode)) = limits {
        call.args(["--minimum", &minimum.to_string(), "--maximum", &maximum.to_string()]);
        call.args(["--mode", if mode == Mode::Held { "held" } else { "rust" }]);
    }
    let status = call.stdout(Stdio::null()).stderr(Stdio::null()).status().expect("the program runs").code();
    let made = std::fs::read(&hca).ok();
    let _ = std::fs::remove_file(&wav).and_then(|()| std::fs::remove_file(&hca));
    match (by_library(case, limits.unwrap_or(PUBLISHED)), status, made) {
        (Ok(file), Some(0), Some(made)) if file == made => None,
        (Err(_), Some(1), None) => None,
        (_, status, _) => Some(format!("hcaframe convert: status {status:?}, or another file than the library's calls make")),
    }
}

fn main() {
    let o = Options::parse("compare-convert", 1_500, 100);
    let program = std::env::var("HCAFRAME").ok();
    let good = run(&o, "compare-convert", |k| {
        let case = case(o.seed, k);
        let mode = if o.held { Mode::Held } else { Mode::Rust };
        let (minimum, maximum) = if o.held && k % 2 == 0 { (1, 15) } else { pair(k + k / 100) };
        let limits = (o.pairs || o.held).then_some((minimum, maximum, mode));
        let (outcome, mut difference) = compared(&case, limits);
        if let (None, Some(program)) = (&difference, &program) {
            difference = by_program(program, k, &case, limits);
        }
        let about = |text| {
            format!(
                "  {} channels, {} Hz, {} bits, {} bytes, {} bit/s, loop {:?}, limits {limits:?}\n  {text}\n",
                case.channels,
                case.rate,
                case.depth,
                case.wav.len(),
                case.bitrate,
                case.loop_points
            )
        };
        Outcome { kind: KINDS[kind_of(k).0].0, counted: counted(&case, outcome), difference: difference.map(about) }
    });
    match &program {
        Some(_) => println!("each case through hcaframe convert too"),
        None => println!("HCAFRAME is not set: the calls alone, not hcaframe convert"),
    }
    std::process::exit(if good { 0 } else { 1 });
}
