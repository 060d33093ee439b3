//! One mono frame there and back: `cargo run --example encode`.
use hca_frame::{read_frame, Encoder, Kind, Layout};

fn main() -> Result<(), Box<dyn std::error::Error>> {
    let layout = Layout::builder().channel(Kind::Discrete).bands(64, 0, 100).frame_size(170).build()?;
    let mut spectra = [0.0; 1024]; // 8 subframes of 128 bands
    spectra[1] = 0.5;
    let mut encoder = Encoder::new(layout.clone());
    let done = encoder.encode_frame(&spectra, &[0; 8])?;
    let (record, _) = read_frame(&layout, encoder.frame())?;
    println!("level {}, {} bits, first codes {:?}", done.level, done.bits, &record.codes[..4]);
    Ok(())
}
