//! The published encoder's own front end, as build.rs takes it out of compare/cridecoder: the layout for a bit rate, the number of frames and the
//! padding, the MDCT. Not proved; whole files are compared with the published encoder's by compare/.
#![allow(dead_code, clippy::all)]

use hca_frame::{Kind, Layout, LayoutError, Mode};
use std::f32::consts::PI;
use std::io;
use std::sync::OnceLock;

include!(concat!(env!("OUT_DIR"), "/front.rs"));

/// Stand-in: without a key the table is the identity, and nothing here reads it.
fn cipher_init(table: &mut [u8; 256], _cipher_type: u32, _key: u64) {
    table.iter_mut().zip(0..=255).for_each(|(place, byte)| *place = byte);
}

type Cosines = [[f32; HCA_SAMPLES_PER_SUBFRAME]; HCA_SAMPLES_PER_SUBFRAME];

/// The cosine of each sample and band, made once.
fn cosines() -> &'static Cosines {
    static TABLE: OnceLock<Box<Cosines>> = OnceLock::new();
    TABLE.get_or_init(|| {
        let mut table = Box::new([[0.0; HCA_SAMPLES_PER_SUBFRAME]; HCA_SAMPLES_PER_SUBFRAME]);
        for (n, row) in table.iter_mut().enumerate() {
            for (k, value) in row.iter_mut().enumerate() {
                *value = cosine(n, k);
            }
        }
        table
    })
}

/// For each band the sum over the samples, in their order.
fn sums_by_table(scratch: &[f32; HCA_SAMPLES_PER_SUBFRAME]) -> [f32; HCA_SAMPLES_PER_SUBFRAME] {
    let mut sums = [0.0f32; HCA_SAMPLES_PER_SUBFRAME];
    for (&sample, row) in scratch.iter().zip(cosines()) {
        for (sum, &cosine) in sums.iter_mut().zip(row) {
            *sum += sample * cosine;
        }
    }
    sums
}

/// The published encoder as far as the spectra.
pub struct Front(HcaEncoder);

/// Rate or channels are not those of an HCA file.
pub struct Unfit;

impl Front {
    pub fn new(rate: u32, channels: u32, bitrate: u32) -> Result<Front, Unfit> {
        let config = HcaEncoderConfig::new(rate, channels).with_bitrate(bitrate);
        HcaEncoder::new(config).map(Front).map_err(|_| Unfit)
    }

    /// Its layout, with these resolutions in the place of its own, which are 1 and 15, and with this mode.
    pub fn layout(&self, (minimum, maximum): (u32, u32), mode: Mode) -> Result<Layout, LayoutError> {
        let channels = &self.0.channel[..self.0.config.channels as usize];
        let kind = |channel: &ChannelEncodeState| match channel.channel_type {
            ChannelType::Discrete => Kind::Discrete,
            ChannelType::StereoPrimary => Kind::StereoPrimary,
            ChannelType::StereoSecondary => Kind::StereoSecondary,
        };
        let kinds: Vec<Kind> = channels.iter().map(kind).collect();
        let bands = [self.0.base_band_count, self.0.stereo_band_count, self.0.total_band_count];
        Layout::builder()
            .channels(&kinds)
            .bands(bands[0], bands[1], bands[2])
            .frame_size(self.0.frame_size)
            .resolutions(minimum, maximum)
            .mode(mode)
            .build()
    }

    /// Begins a take: its frames and its padding; none of no samples.
    pub fn begin(&mut self, samples: &[f32]) -> Option<(u32, u32)> {
        let frames = self.0.begin(samples).ok()?;
        Some((frames, self.0.encoder_padding))
    }

    /// The next frame's spectra, before the stereo step. Frames come in their order, for each overlaps with the one before.
    pub fn spectra(&mut self, samples: &[f32], frame: usize, spectra: &mut [f32]) {
        let data = self.0.frame_data(samples, frame);
        self.0.pcm_to_float(&data);
        self.0.run_mdct_by_table();
        for (channel, part) in self.0.channel.iter().zip(spectra.chunks_exact_mut(HCA_SAMPLES_PER_FRAME)) {
            for (row, values) in channel.spectra.iter().zip(part.chunks_exact_mut(HCA_SAMPLES_PER_SUBFRAME)) {
                values.copy_from_slice(row);
            }
        }
    }
}

#[cfg(test)]
mod tests {
    use super::*;

    /// Numbers that look like noise, the same each time.
    fn noise(state: &mut u32) -> f32 {
        *state = state.wrapping_mul(1_664_525).wrapping_add(1_013_904_223);
        (*state >> 8) as f32 / 8_388_608.0 - 1.0
    }

    fn bits(encoder: &HcaEncoder) -> Vec<u32> {
        encoder.channel.iter().flat_map(|channel| channel.spectra.iter().flatten()).map(|value| value.to_bits()).collect()
    }

    /// One frame after the other through the transform as published and through the one with the table: the same bits.
    #[test]
    fn the_table_changes_no_bit() {
        let encoder = || HcaEncoder::new(HcaEncoderConfig::new(48_000, 2)).unwrap();
        let (mut plain, mut table, mut state) = (encoder(), encoder(), 7);
        for frame in 0..60 {
            let gain = [1.0, 1e-3, 1e-20, 1e-40, 3.0, 0.0][frame % 6];
            let samples: Vec<f32> = (0..2048).map(|_| noise(&mut state) * gain).collect();
            plain.pcm_to_float(&samples);
            table.pcm_to_float(&samples);
            plain.run_mdct();
            table.run_mdct_by_table();
            assert_eq!(bits(&plain), bits(&table), "frame {frame}");
        }
    }

    /// The rows of **A layout for a bit rate** in docs/FORMAT.md, as they stand there.
    #[test]
    fn the_rows_of_the_format() {
        let page = include_str!("../../../docs/FORMAT.md");
        let rows = page.lines().skip_while(|&line| line != "| R | C | B | F | base | stereo | total | kinds |").skip(2);
        let mut count = 0;
        for row in rows.take_while(|line| line.starts_with('|')) {
            let cells: Vec<String> = row.trim_matches('|').split('|').map(|cell| cell.trim().replace(',', "")).collect();
            let [rate, channels, bitrate] = [0, 1, 2].map(|i| cells[i].parse().unwrap());
            let layout = Front::new(rate, channels, bitrate).ok().unwrap().layout((1, 15), Mode::Rust).unwrap();
            let bands = [layout.base_bands(), layout.stereo_bands(), layout.total_bands()];
            let letters = layout.kinds().iter().map(|kind| match kind {
                Kind::Discrete => 'D',
                Kind::StereoPrimary => 'P',
                Kind::StereoSecondary => 'S',
            });
            let numbers = [layout.frame_size(), bands[0], bands[1], bands[2]].map(|number| number.to_string());
            assert_eq!((&cells[3..7], &cells[7]), (&numbers[..], &letters.collect::<String>()), "{row}");
            count += 1;
        }
        assert_eq!(count, 12);
    }

    /// The window of **From samples to spectra** in docs/FORMAT.md.
    #[test]
    fn the_window_by_its_rule() {
        for (m, value) in IMDCT_WINDOW.iter().enumerate() {
            let [rising, falling] = [(m + 1) as f64, (128 - m) as f64].map(|x| x.powi(3));
            let magnitude = (rising / (rising + falling)).sqrt() as f32;
            let sign = if m < 64 { 1.0 } else { -1.0 };
            assert_eq!(value.to_bits(), (sign * magnitude).to_bits(), "{m}");
        }
    }

    /// The transform of **From samples to spectra** in docs/FORMAT.md, in double precision, against the published one.
    #[test]
    fn the_transform_by_its_rule() {
        let mut encoder = HcaEncoder::new(HcaEncoderConfig::new(48_000, 1)).unwrap();
        let mut state = 3;
        let samples: Vec<f32> = (0..1024).map(|_| noise(&mut state)).collect();
        encoder.pcm_to_float(&samples);
        encoder.run_mdct();
        let padded: Vec<f64> = [0.0; 128].iter().chain(&samples).map(|&x| f64::from(x)).collect();
        let window = |m: usize| f64::from(IMDCT_WINDOW[m.min(255 - m)].abs());
        let turn = std::f64::consts::PI / 128.0;
        for (t, row) in encoder.channel[0].spectra.iter().enumerate() {
            for (k, &value) in row.iter().enumerate() {
                let term = |m: usize| window(m) * padded[128 * t + m] * (turn * (m as f64 + 64.5) * (k as f64 + 0.5)).cos();
                let sum: f64 = (0..256).map(term).sum();
                assert!((sum / 8.0 - f64::from(value)).abs() < 1e-4, "subframe {t}, band {k}: {value}");
            }
        }
    }

    #[test]
    fn layouts_of_the_published_encoder() {
        let layout =
            |rate, channels, bitrate| Front::new(rate, channels, bitrate).ok().unwrap().layout((1, 15), Mode::Rust).unwrap();
        let mono = layout(22_050, 1, 48_000);
        assert_eq!((mono.frame_size(), mono.kinds()), (278, &[Kind::Discrete][..]));
        let pair = layout(22_050, 2, 72_000);
        assert_eq!((pair.frame_size(), pair.kinds()), (417, &[Kind::StereoPrimary, Kind::StereoSecondary][..]));
        assert!(Front::new(0, 1, 48_000).is_err() && Front::new(8_388_608, 1, 48_000).is_err());
        assert!(Front::new(48_000, 0, 48_000).is_err() && Front::new(48_000, 9, 48_000).is_err());
    }
}
