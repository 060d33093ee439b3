//! The file header back in: the examples, what is handed out, what stays.
use hca_frame::{checksum, raw, read_header, write_header, Kind, Layout, LayoutError, Mode, Refusal, RefusalKind, Stream};

const PAIR: [Kind; 2] = [Kind::StereoPrimary, Kind::StereoSecondary];

fn pair() -> Layout {
    Layout::builder().channels(&PAIR).bands(52, 52, 128).frame_size(417).build().unwrap()
}

fn example() -> [u8; 96] {
    let header = write_header(&pair(), &Stream::new(44_100, 40, 832).looped(5000, 40_000)).unwrap();
    assert_eq!(header[94..], [0xDA, 0x93]);
    header
}

/// The example with these bytes, the check mended, which is then this one.
fn changed(bytes: &[(usize, u8)], check: u16) -> [u8; 96] {
    let mut header = example();
    bytes.iter().for_each(|&(at, byte)| header[at] = byte);
    assert_eq!(checksum(&header[..94]), check);
    header[94..].copy_from_slice(&check.to_be_bytes());
    header
}

#[test]
fn the_example_is_read() {
    let header = read_header(&example()).unwrap();
    assert_eq!((header.channels(), header.base_bands(), header.stereo_bands(), header.total_bands()), (2, 52, 52, 128));
    assert_eq!((header.frame_size(), header.minimum_resolution(), header.maximum_resolution()), (417, 1, 15));
    assert_eq!((header.rate(), header.frames(), header.padding()), (44_100, 40, 832));
    let frames = header.loop_frames().unwrap();
    assert_eq!((frames.frame, frames.delay, frames.end_frame, frames.padding), (5, 8, 39, 832));
    assert_eq!(header.stream(), Stream::new(44_100, 40, 832).looped(5000, 40_000));
    assert_eq!(header.layout(&PAIR, Mode::Rust), Ok(pair()));
}

#[test]
fn nine_examples() {
    let mut unsealed = example();
    unsealed[95] = 0x92;
    let cases = [
        (unsealed, 26),
        (changed(&[(11, 1)], 0x7308), 27),
        (changed(&[(8, 0), (12, 0), (70, 1)], 0x9032), 27),
        (changed(&[(7, 0x5F)], 0x9929), 28),
        (changed(&[(37, 4)], 0xE57F), 28),
        (changed(&[(61, 0x38)], 0x52B0), 28),
        (changed(&[(54, 4), (55, 0)], 0xF39D), 28),
        (changed(&[(33, 4), (93, 1)], 0xDB6D), 28),
        (changed(&[(38, 1)], 0xF12C), 29),
    ];
    for (header, number) in cases {
        assert_eq!(read_header(&header), Err(Refusal::new(number, 0)));
    }
    assert_eq!(read_header(&unsealed).unwrap_err().kind(), RefusalKind::WrongHeaderCheck);
}

#[test]
fn lengths() {
    let header = example();
    for short in [0, 1, 95] {
        assert_eq!(read_header(&header[..short]), Err(Refusal::new(2, 0)));
    }
    let mut file = header.to_vec();
    file.extend([0xFF; 417]);
    assert_eq!(read_header(&file), read_header(&header));

    // the mode's place and all behind it stay, and so do layout and answer at a refusal, but for the 0
    let (mut layout, mut answer) = ([7; 9], [9; 10]);
    assert_eq!(raw::read_header(&header, &mut layout, &mut answer), 0);
    assert_eq!(layout, [2, 52, 52, 128, 417, 1, 15, 7, 7]);
    assert_eq!(answer, [44_100, 40, 832, 1, 5, 8, 39, 832, 9, 9]);
    let (mut layout, mut answer) = ([7; 9], [9; 10]);
    assert_eq!(raw::read_header(&header, &mut layout[..6], &mut answer), 2);
    assert_eq!((layout, answer), ([7; 9], [0, 9, 9, 9, 9, 9, 9, 9, 9, 9]));
    answer[0] = 9;
    assert_eq!(raw::read_header(&header, &mut layout, &mut answer[..7]), 2);
    assert_eq!((layout, answer), ([7; 9], [9; 10]));
    assert_eq!(raw::read_header(&[0; 96], &mut layout, &mut answer), 27);
    assert_eq!((layout, answer), ([7; 9], [0, 9, 9, 9, 9, 9, 9, 9, 9, 9]));
}

#[test]
fn kinds_are_the_callers() {
    let header = read_header(&example()).unwrap();
    let discrete = header.layout(&[Kind::Discrete; 2], Mode::Held).unwrap();
    assert_eq!(write_header(&discrete, &header.stream()), Ok(example()));
    let error = header.layout(&[Kind::Discrete; 3], Mode::Rust).unwrap_err();
    assert_eq!(error, LayoutError::Kinds { given: 3, channels: 2 });
    assert_eq!(error.to_string(), "kinds for 3 channels; the header has 2");
    assert!(header.layout(&[], Mode::Rust).is_err());
}

#[test]
fn points_at_their_limits() {
    let last = 4_294_967_167;
    for points in [(0, 0), (0, 896), (last, last), (last, 0), (896, 895), (897, 897)] {
        let stream = Stream::new(1, 0, 65_535).looped(points.0, points.1);
        let header = read_header(&write_header(&pair(), &stream).unwrap()).unwrap();
        assert_eq!(header.stream(), stream);
    }
    let plain = Stream::new(0x7F_FFFF, u64::from(u32::MAX), 0);
    let header = read_header(&write_header(&pair(), &plain).unwrap()).unwrap();
    assert_eq!((header.stream(), header.loop_frames()), (plain, None));
}
