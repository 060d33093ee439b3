//! The library's header writer against the Rust's `write_header`, the buffer whole; and on the sample lines against the
//! file that the Rust's `encode` writes.
use compare::front::{encoder_for, read_wav, Wav};
use compare::pairs::Met;
use compare::{differ, run, Options, Outcome};
use gen::header::{call, held, kind_of, limited, KINDS};
use gen::speech::call_of;
use published::driver::pattern_bytes;
use published::header::{write, HeaderCall};
use std::io::Cursor;

fn by_library(call: &HeaderCall, model: bool, header: &mut [u8]) -> u32 {
    let f = if model { hca_model::write_header } else { compare::header::write_header };
    f(&call.layout, &call.kinds, &call.stream, &call.points, header)
}

fn hex(bytes: &[u8]) -> String {
    bytes.iter().map(|b| format!("{b:02x}")).collect()
}

fn compared(call: &HeaderCall, model: bool) -> (u32, Option<String>) {
    let before = pattern_bytes(call.pattern, 4, call.length);
    let (mut expected, mut got) = (before.clone(), before.clone());
    let number = write(call, &mut expected);
    let answer = by_library(call, model, &mut got);
    let mut text = String::new();
    if answer != number {
        text.push_str(&format!("  refusal number (0: delivered): expected {number}, got {answer}\n"));
    }
    differ("header", &before, &expected, &got, &mut text);
    let difference =
        (!text.is_empty()).then(|| format!("  {call:?}\n{text}  expected {}\n  got      {}", hex(&expected), hex(&got)));
    (number, difference)
}

fn named(call: &HeaderCall, number: u32) -> Vec<String> {
    match number {
        0 => {
            let looped = call.points.len() > 1;
            let edge = looped && (call.points[1] + 128) & 1023 == 0;
            let sort = if edge { "(end on an edge)" } else { "(loop)" };
            let mut counted = vec!["delivered".to_string()];
            counted.extend(looped.then(|| sort.to_string()));
            counted
        }
        n => vec![format!("refusal {n}")],
    }
}

/// What stands before the frames that the Rust's `encode` makes of a WAV file, with and without a loop.
fn file_begins(name: &str, wav: &Wav, bitrate: u32, points: Option<(u32, u32)>, model: bool) -> Result<(), String> {
    let mut e = encoder_for(wav, bitrate)?;
    (e.config.loop_start, e.config.loop_end) = (points.map(|p| p.0), points.map(|p| p.1));
    let mut file = Cursor::new(Vec::new());
    e.encode(&wav.samples, &mut file).map_err(|e| e.to_string())?;
    let file = file.into_inner();
    let of_stage = call_of(&e, wav.channels);
    let frames = (file.len() - 96) / e.frame_size as usize;
    let call = HeaderCall {
        layout: of_stage.layout,
        kinds: of_stage.kinds,
        stream: vec![wav.rate.into(), frames as u64, e.encoder_padding.into()],
        points: points.map_or(Vec::new(), |(start, end)| vec![start.into(), end.into()]),
        length: 96,
        pattern: 0,
    };
    let mut header = [0x5A; 96];
    let number = by_library(&call, model, &mut header);
    if number != 0 || header != file[..96] {
        return Err(format!("{name}: answered {number}\n  the Rust {}\n  got      {}", hex(&file[..96]), hex(&header)));
    }
    Ok(())
}

fn sample_lines(model: bool) -> Result<(), String> {
    for (name, bitrate) in [("line", 48_000), ("pair", 72_000)] {
        let wav = read_wav(&format!("{}/../../sample/{name}.wav", env!("CARGO_MANIFEST_DIR")))?;
        for points in [None, Some((0, 896)), Some((5_000, 40_000))] {
            file_begins(name, &wav, bitrate, points, model)?;
        }
    }
    println!("sample lines, each without a loop and with two: the Rust's own file begins with the 96 bytes");
    Ok(())
}

fn main() {
    let o = Options::parse("compare-header", 100_000, 3_000);
    let met = Met::default();
    let mut good = run(&o, "compare-header", |k| {
        let made = if o.held {
            held
        } else if o.pairs {
            limited
        } else {
            call
        };
        let call = made(o.seed, k);
        let (number, difference) = compared(&call, o.model);
        let difference = difference.or(met.note(&call.layout, number));
        Outcome { kind: KINDS[kind_of(k).0].0, counted: named(&call, number), difference }
    });
    good &= met.all(&o);
    if o.only.is_none() && !o.pairs && !o.held {
        if let Err(what) = sample_lines(o.model) {
            println!("SAMPLE LINES DIFFER, {what}");
            good = false;
        }
    }
    std::process::exit(if good { 0 } else { 1 });
}
