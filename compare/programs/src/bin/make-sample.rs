//! Speech as the stage takes it: a WAV file through the Rust's MDCT and stereo step.
//!
//! make-sample WAV BITRATE NAME
//!
//! writes NAME.spectra (f32, little endian, frame after frame: channel, subframe, band), NAME.layout (one line of
//! words) and, where there is a secondary, NAME.intensities (bytes, frame after frame: channel, subframe) and
//! NAME.unmixed (as NAME.spectra, before the stereo step). Then every frame is encoded by the library: none may be
//! refused, and the frames of NAME.unmixed have to be those of NAME.spectra.
use compare::front::{calls_and_unmixed, encoder_for, layout_of, read_wav};
use hca_frame::Encoder;
use published::driver::StageCall;

fn words_of(call: &StageCall) -> String {
    let kinds: String = call.kinds.iter().map(|&k| ['D', 'P', 'S'][usize::from(k)]).collect();
    let l = &call.layout;
    format!("--kinds {kinds} --base {} --stereo {} --total {} --frame-size {}\n", l[1], l[2], l[3], l[4])
}

fn write(path: String, bytes: &[u8]) -> Result<(), String> {
    println!("{path}: {} bytes", bytes.len());
    std::fs::write(&path, bytes).map_err(|e| format!("{path}: {e}"))
}

fn bytes_of(spectra: &[f32]) -> impl Iterator<Item = u8> + '_ {
    spectra.iter().flat_map(|v| v.to_le_bytes())
}

/// From unmixed spectra and no intensities the stereo stage comes to the same mixed ones and to the same frame.
fn try_unmixed(encoder: &mut Encoder, call: &StageCall, unmixed: &[f32]) -> Result<(), String> {
    let frame = encoder.frame().to_vec();
    let (mut spectra, mut intensities) = (unmixed.to_vec(), vec![0; call.intensities.len()]);
    encoder.encode_stereo_frame(&mut spectra, &mut intensities).map_err(|no| format!("from unmixed spectra {no}"))?;
    let mixed = intensities == call.intensities && bytes_of(&spectra).eq(bytes_of(&call.spectra));
    match mixed && encoder.frame() == frame {
        true => Ok(()),
        false => Err("from unmixed spectra the stereo stage comes to another frame".to_string()),
    }
}

fn try_frames(calls: &[StageCall], unmixed: &[Vec<f32>]) -> Result<(), String> {
    let mut encoder = Encoder::new(layout_of(&calls[0]));
    let (mut lowest, mut highest, mut pairs) = (254, 0, 0);
    for (k, call) in calls.iter().enumerate() {
        let done = encoder.encode_frame(&call.spectra, &call.intensities).map_err(|no| format!("frame {k}: {no}"))?;
        lowest = lowest.min(done.level);
        highest = highest.max(done.level);
        pairs = pairs.max(done.pairs);
        if call.kinds.contains(&2) {
            try_unmixed(&mut encoder, call, &unmixed[k]).map_err(|no| format!("frame {k}: {no}"))?;
        }
    }
    println!("{} frames encode, levels {lowest} to {highest}, at most {pairs} pairs of bands removed", calls.len());
    Ok(())
}

fn run() -> Result<(), String> {
    let args: Vec<String> = std::env::args().collect();
    let [_, wav, bitrate, name] = args.as_slice() else {
        return Err("usage: make-sample WAV BITRATE NAME".to_string());
    };
    let wav = read_wav(wav)?;
    let bitrate = bitrate.parse().map_err(|_| format!("{bitrate} is not a bit rate"))?;
    let (calls, unmixed): (Vec<_>, Vec<_>) = calls_and_unmixed(&mut encoder_for(&wav, bitrate)?, &wav).into_iter().unzip();
    let spectra: Vec<u8> = calls.iter().flat_map(|c| bytes_of(&c.spectra)).collect();
    write(format!("{name}.spectra"), &spectra)?;
    if calls[0].kinds.contains(&2) {
        let intensities: Vec<u8> = calls.iter().flat_map(|c| c.intensities.iter().copied()).collect();
        write(format!("{name}.intensities"), &intensities)?;
        let unmixed: Vec<u8> = unmixed.iter().flat_map(|s| bytes_of(s)).collect();
        write(format!("{name}.unmixed"), &unmixed)?;
    }
    write(format!("{name}.layout"), words_of(&calls[0]).as_bytes())?;
    try_frames(&calls, &unmixed)
}

fn main() {
    if let Err(what) = run() {
        eprintln!("{what}");
        std::process::exit(1);
    }
}
