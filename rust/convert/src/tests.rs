use super::*;

fn take(channels: u16, rate: u32, samples: usize) -> Take {
    let mut wav = b"RIFF\0\0\0\0WAVEfmt \x10\0\0\0\x01\0".to_vec();
    wav.extend_from_slice(&channels.to_le_bytes());
    wav.extend_from_slice(&rate.to_le_bytes());
    wav.extend_from_slice(&[0, 0, 0, 0, 0, 0, 16, 0]);
    wav.extend_from_slice(b"data");
    wav.extend_from_slice(&(2 * samples as u32).to_le_bytes());
    wav.extend((0..samples).flat_map(|i| ((i * i * 37 % 20_011) as i16 - 10_000).to_le_bytes()));
    hca_frame::read_wav(&wav).unwrap()
}

fn made(take: &Take, bitrate: u32) -> Result<Converted, Fault> {
    convert(take, &Settings { bitrate, loop_points: None, resolutions: (1, 15), mode: Mode::Rust }, |_, _| ())
}

#[test]
fn lengths_around_the_edge_of_a_frame() {
    for (samples, frames, padding) in [(1, 1, 895), (896, 1, 0), (897, 2, 1023), (1920, 2, 0), (1921, 3, 1023)] {
        let done = made(&take(1, 48_000, samples), 64_000).unwrap();
        assert_eq!((done.entries.len(), done.stream.padding), (frames, padding), "{samples} samples");
        assert_eq!(done.file.len(), 96 + frames * done.layout.frame_size());
    }
}

#[test]
fn what_no_hca_file_has() {
    assert_eq!(made(&take(0, 48_000, 50), 64_000).unwrap_err(), Fault::Unfit);
    assert_eq!(made(&take(9, 48_000, 90), 64_000).unwrap_err(), Fault::Unfit);
    assert_eq!(made(&take(1, 0, 50), 64_000).unwrap_err(), Fault::Unfit);
    assert_eq!(Fault::Unfit.refusal().unwrap().number, 16);
    let mut empty = take(1, 48_000, 1);
    empty.samples.clear();
    assert_eq!(made(&empty, 64_000).unwrap_err(), Fault::Empty);
}

#[test]
fn loops_lie_within_the_take() {
    let take = take(2, 48_000, 4000);
    let with = |start, end| {
        convert(
            &take,
            &Settings { bitrate: 96_000, loop_points: Some((start, end)), resolutions: (1, 15), mode: Mode::Rust },
            |_, _| (),
        )
    };
    assert_eq!(with(5, 5).unwrap_err(), Fault::Loop(2000));
    assert_eq!(with(0, 2001).unwrap_err(), Fault::Loop(2000));
    assert_eq!(with(0, u64::MAX).unwrap_err(), Fault::Loop(2000));
    let looped = with(0, 2000).unwrap();
    assert_eq!(&looped.file[40..44], b"loop");
    assert_eq!(looped.file[96..], made(&take, 96_000).unwrap().file[96..]);
}

#[test]
fn frames_that_are_too_small() {
    // eight bytes have no room for eight loud channels
    let fault = made(&take(8, 48_000, 16_000), 1_000).unwrap_err();
    assert!(matches!(fault, Fault::Frame(0, Refusal { number: 5, .. })), "{fault:?}");
}

#[test]
fn every_frame_is_told() {
    let mut heard = Vec::new();
    convert(
        &take(1, 48_000, 1921),
        &Settings { bitrate: 64_000, loop_points: None, resolutions: (1, 15), mode: Mode::Rust },
        |done, all| heard.push((done, all)),
    )
    .unwrap();
    assert_eq!(heard, [(1, 3), (2, 3), (3, 3)]);
}

#[test]
fn resolutions_of_the_settings() {
    let take = take(1, 48_000, 4000);
    let with =
        |resolutions| convert(&take, &Settings { bitrate: 64_000, loop_points: None, resolutions, mode: Mode::Rust }, |_, _| ());
    let limited = with((4, 6)).unwrap();
    assert_eq!((limited.layout.minimum_resolution(), limited.layout.maximum_resolution()), (4, 6));
    assert_eq!(limited.file[30..32], [4, 6]);
    assert_ne!(limited.file[96..], made(&take, 64_000).unwrap().file[96..]);
    let fault = with((9, 8)).unwrap_err();
    assert_eq!(fault, Fault::Resolutions(LayoutError::Resolutions { minimum: 9, maximum: 8 }));
    assert_eq!((fault.refusal().unwrap().number, fault.to_string().starts_with("resolutions from 9 to 8;")), (1, true));
}

#[test]
fn mode_of_the_settings() {
    let take = take(1, 48_000, 4000);
    let with =
        |mode| convert(&take, &Settings { bitrate: 64_000, loop_points: None, resolutions: (1, 15), mode }, |_, _| ()).unwrap();
    let (rust, held) = (with(Mode::Rust), with(Mode::Held));
    assert_eq!((rust.layout.mode(), held.layout.mode()), (Mode::Rust, Mode::Held));
    // the header does not say which
    assert_eq!(rust.file[..96], held.file[..96]);
    for frame in held.file[96..].chunks_exact(held.layout.frame_size()) {
        let (record, _) = hca_frame::read_frame(&rust.layout, frame).unwrap();
        assert_eq!(hca_frame::write_record(&held.layout, &record).unwrap().0, frame);
    }
}
