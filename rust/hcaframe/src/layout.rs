//! The layout that the words say, and the kinds that decoders derive.
use crate::options::Name;
use crate::parse::Options;
use crate::stop::Stop;
use hca_frame::{Kind, Layout, Mode, Refusal};

/// The layout, or the first limit that it breaks: refusal 1.
pub fn layout_of(options: &Options) -> Result<Layout, Stop> {
    let number = |name| options.number(name).unwrap_or(0);
    let (base, stereo, total) = (number(Name::Base), number(Name::Stereo), number(Name::Total));
    let size = number(Name::FrameSize);
    let kinds = options.kinds();
    if let Some(limit) = broken_limit(kinds.len(), base, stereo, total, size) {
        return Err(bad_layout(&limit));
    }
    let (minimum, maximum) = resolutions_of(options)?;
    // each is below 2^16 here
    let bands = [base, stereo, total].map(|n| n as u32);
    let built = Layout::builder()
        .channels(kinds)
        .bands(bands[0], bands[1], bands[2])
        .frame_size(size as u32)
        .resolutions(minimum, maximum)
        .mode(options.mode())
        .build();
    built.map_err(|error| Stop::wrong(format_args!("refusal 1: {error}")))
}

/// The lowest and the highest resolution, or refusal 1.
pub fn resolutions_of(options: &Options) -> Result<(u32, u32), Stop> {
    let minimum = options.number(Name::Minimum).unwrap_or(1);
    let maximum = options.number(Name::Maximum).unwrap_or(15);
    match wrong_resolutions(minimum, maximum) {
        Some(limit) => Err(bad_layout(&limit)),
        // each is at most 15 here
        None => Ok((minimum as u32, maximum as u32)),
    }
}

/// The two as words, none where they are what they are without words.
pub fn resolution_words(minimum: u32, maximum: u32) -> String {
    match (minimum, maximum) {
        (1, 15) => String::new(),
        _ => format!(" --minimum {minimum} --maximum {maximum}"),
    }
}

/// The mode as words, none where it is what it is without words.
pub fn mode_words(mode: Mode) -> &'static str {
    match mode {
        Mode::Rust => "",
        Mode::Held => " --mode held",
    }
}

fn bad_layout(limit: &str) -> Stop {
    let refusal = crate::report::refusal(Refusal::new(Refusal::BAD_LAYOUT, 0));
    Stop::wrong(format_args!("{refusal}: {limit}"))
}

fn wrong_resolutions(minimum: u64, maximum: u64) -> Option<String> {
    let is_right = 1 <= minimum && minimum <= maximum && maximum <= 15;
    let limits = "they are within 1 to 15, the minimum at most the maximum";
    (!is_right).then(|| format!("--minimum is {minimum} and --maximum is {maximum}; {limits}"))
}

/// The first limit that is broken, in the order in which the calls judge.
fn broken_limit(channels: usize, base: u64, stereo: u64, total: u64, size: u64) -> Option<String> {
    if !(1..=16).contains(&channels) {
        return Some(format!("{channels} channels; there are 1 to 16"));
    }
    if !(1..=128).contains(&total) {
        return Some(format!("--total is {total}; it is 1 to 128"));
    }
    if total < base {
        return Some(format!("--base is {base}, above --total, which is {total}"));
    }
    // both are below 10^18
    if total < base + stereo {
        return Some(format!("--base and --stereo are {} together, above --total, which is {total}", base + stereo));
    }
    if !(8..=65_535).contains(&size) {
        return Some(format!("--frame-size is {size}; it is 8 to 65535"));
    }
    None
}

/// How many side values a channel has: a secondary's intensities, else its HFR scales.
pub fn side_count(layout: &Layout, channel: usize) -> usize {
    match layout.kinds()[channel] {
        Kind::StereoSecondary => 8,
        _ => layout.groups(),
    }
}

/// The kinds of the letters that decoders derive.
pub fn derived(channels: usize, stereo_bands: usize) -> Vec<Kind> {
    let kind = |letter: char| match letter {
        'P' => Kind::StereoPrimary,
        'S' => Kind::StereoSecondary,
        _ => Kind::Discrete,
    };
    derived_kinds(channels, stereo_bands).chars().map(kind).collect()
}

/// A letter a channel.
pub fn letters(kinds: &[Kind]) -> String {
    let letter = |kind: &Kind| match kind {
        Kind::Discrete => 'D',
        Kind::StereoPrimary => 'P',
        Kind::StereoSecondary => 'S',
    };
    kinds.iter().map(letter).collect()
}

/// The kinds that decoders take a file's channels to have, by the header's numbers: it carries no kinds.
pub fn derived_kinds(channels: usize, stereo_bands: usize) -> String {
    match channels {
        2..=8 if 0 < stereo_bands => ["PS", "PSD", "PSPS", "PSDPS", "PSDDPS", "PSDDPSD", "PSDDPSPS"][channels - 2].to_string(),
        _ => "D".repeat(channels),
    }
}

#[cfg(test)]
mod tests {
    use super::*;

    #[test]
    fn derived() {
        assert_eq!(derived_kinds(1, 40), "D");
        assert_eq!(derived_kinds(2, 0), "DD");
        assert_eq!(derived_kinds(2, 1), "PS");
        assert_eq!(derived_kinds(5, 1), "PSDPS");
        assert_eq!(derived_kinds(8, 9), "PSDDPSPS");
        for channels in 2..=8 {
            assert_eq!(derived_kinds(channels, 3).len(), channels);
            assert_eq!(letters(&super::derived(channels, 3)), derived_kinds(channels, 3));
        }
    }

    #[test]
    fn limits() {
        assert_eq!(
            broken_limit(1, 999_999_999_999_999_999, 0, 60, 200).unwrap(),
            "--base is 999999999999999999, above --total, which is 60"
        );
        assert_eq!(broken_limit(1, 40, 20, 60, 8), None);
        assert_eq!(
            wrong_resolutions(0, 999_999_999_999_999_999).unwrap(),
            "--minimum is 0 and --maximum is 999999999999999999; they are within 1 to 15, the minimum at most the maximum"
        );
        let right = (0..=16).flat_map(|a| (0..=16).map(move |b| (a, b))).filter(|&(a, b)| wrong_resolutions(a, b).is_none());
        assert_eq!(right.count(), 120);
        assert_eq!(resolution_words(1, 15) + &resolution_words(4, 15), " --minimum 4 --maximum 15");
    }
}
