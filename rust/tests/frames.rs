//! Layouts, the frame stage, the record writer, the strict reader, refusals.
use hca_frame::{
    checksum, raw, read_frame, read_frame_into, write_header, write_record, write_record_into, Delivered, Encoder, Kind, Layout,
    LayoutError, Mode, Record, Refusal, RefusalKind, Stream,
};

fn mono(bands: u32, total: u32, frame: u32) -> Layout {
    Layout::builder().channel(Kind::Discrete).bands(bands, 0, total).frame_size(frame).build().unwrap()
}

#[test]
fn a_builder_names_the_broken_limit() {
    let b = || Layout::builder().channel(Kind::Discrete).bands(1, 0, 1).frame_size(8);
    assert!(b().build().is_ok());
    assert_eq!(b().channels(&[]).build(), Err(LayoutError::Channels(0)));
    assert_eq!(b().channels(&[Kind::Discrete; 17]).build(), Err(LayoutError::Channels(17)));
    assert_eq!(b().bands(0, 0, 0).build(), Err(LayoutError::Total(0)));
    assert_eq!(b().bands(0, 0, 129).build(), Err(LayoutError::Total(129)));
    let huge = LayoutError::Bands { base: u32::MAX, stereo: 1, total: 1 };
    assert_eq!(b().bands(u32::MAX, 1, 1).build(), Err(huge));
    assert_eq!(b().frame_size(7).build(), Err(LayoutError::FrameSize(7)));
    assert_eq!(b().frame_size(65_536).build(), Err(LayoutError::FrameSize(65_536)));
    assert!(huge.to_string().contains("4294967295 base and 1 stereo"));
    for (minimum, maximum) in [(0, 15), (1, 16), (9, 8), (16, 16), (0, 0), (257, 271), (1, u32::MAX)] {
        let wrong = LayoutError::Resolutions { minimum, maximum };
        assert_eq!(b().resolutions(minimum, maximum).build(), Err(wrong));
        assert!(wrong.to_string().starts_with(&format!("resolutions from {minimum} to {maximum}; ")));
    }
}

#[test]
fn resolutions_have_their_defaults() {
    let b = || Layout::builder().channel(Kind::Discrete).bands(2, 0, 2).frame_size(17);
    let l = b().build().unwrap();
    assert_eq!((l.minimum_resolution(), l.maximum_resolution()), (1, 15));
    assert_eq!(b().resolutions(1, 15).build().unwrap(), l);
    let l = b().resolutions(4, 10).build().unwrap();
    assert_eq!((l.minimum_resolution(), l.maximum_resolution()), (4, 10));
    assert_eq!(l.numbers(), &[1, 2, 0, 2, 17, 4, 10, 0]);
}

#[test]
fn groups_of_the_worked_layout() {
    let l = mono(100, 117, 600);
    assert_eq!((l.bands_per_group(), l.groups(), l.start()), (3, 6, 100));
    assert_eq!(mono(117, 117, 600).groups(), 0);
}

#[test]
fn coded_counts() {
    let l = Layout::builder()
        .channels(&[Kind::StereoPrimary, Kind::StereoSecondary, Kind::Discrete])
        .bands(10, 20, 40)
        .frame_size(300)
        .build()
        .unwrap();
    assert_eq!([l.coded_count(0), l.coded_count(1), l.coded_count(2)], [30, 10, 30]);
    assert_eq!(l.kind_bytes(), [1, 2, 0]);
    assert_eq!(l.numbers(), &[3, 10, 20, 40, 300, 1, 15, 0]);
}

#[test]
fn silence_in_eight_bytes() {
    let five = Layout::builder().channels(&[Kind::Discrete; 5]).bands(1, 0, 1).frame_size(8).build().unwrap();
    let mut e = Encoder::new(five);
    let done = e.encode_frame(&[0.0; 5 * 1024], &[0; 40]).unwrap();
    assert_eq!(done, Delivered::from([0, 0, 0, 47]));
    assert_eq!(&e.frame()[..6], &[0xFF, 0xFF, 0, 0, 0, 0]);
    let six = Layout::builder().channels(&[Kind::Discrete; 6]).bands(1, 0, 1).frame_size(8).build().unwrap();
    let no = Encoder::new(six).encode_frame(&[0.0; 6 * 1024], &[0; 48]);
    assert_eq!(no, Err(Refusal::new(5, 0)));
}

#[test]
fn refusals_name_their_place() {
    let l =
        Layout::builder().channels(&[Kind::StereoPrimary, Kind::StereoSecondary]).bands(4, 4, 8).frame_size(100).build().unwrap();
    let mut e = Encoder::new(l);
    let (mut spectra, mut intensities) = ([0.0; 2048], [0; 16]);
    assert_eq!(e.encode_frame(&spectra[1..], &intensities), Err(Refusal::new(2, 0)));
    spectra[1500] = f32::NAN;
    assert_eq!(e.encode_frame(&spectra, &intensities), Err(Refusal::new(4, 1500)));
    intensities[0] = 200; // a primary's are not looked at
    intensities[9] = 16;
    let no = e.encode_frame(&spectra, &intensities).unwrap_err();
    assert_eq!(no, Refusal::new(3, 9));
    assert_eq!(no.to_string(), "refusal 3: intensity 9 of a secondary channel is above 15");
}

#[test]
fn a_found_level_can_end_in_refusal_7() {
    let mut spectra = [0.0; 1024];
    spectra[0] = f32::from_bits(0x342A8D26);
    for s in 1..8 {
        spectra[s * 128] = f32::from_bits(0x2E634C94);
    }
    let mut e = Encoder::new(mono(1, 1, 19));
    assert_eq!(e.encode_frame(&spectra, &[0; 8]), Err(Refusal::new(7, 137)));
    assert!(e.frame().iter().all(|&b| b == 0));
    assert!(Encoder::new(mono(1, 1, 20)).encode_frame(&spectra, &[0; 8]).is_ok());
}

#[test]
fn refusal_7_of_a_record_tells_the_size_that_it_needs() {
    let mut record = Record::silent(&mono(1, 1, 8));
    record.factors[0] = 63;
    for s in 0..8 {
        record.codes[s * 128] = -2047;
    }
    for size in [8, 19] {
        let no = write_record(&mono(1, 1, size), &record).unwrap_err();
        assert_eq!(no, Refusal::new(7, 137));
        assert_eq!(no.to_string(), "refusal 7: the fields need 137 bits, more than the frame has before its check");
    }
    assert_eq!(write_record(&mono(1, 1, 20), &record).unwrap().1, 137);
}

#[test]
fn a_frame_and_its_record() {
    let l = mono(30, 60, 90);
    let mut e = Encoder::new(l.clone());
    let spectra: Vec<f32> = (0..1024).map(|i| ((i * 37 % 101) as f32 - 50.0) / (8 + 8 * (i % 128)) as f32).collect();
    let done = e.encode_frame(&spectra, &[0; 8]).unwrap();
    let (record, bits) = read_frame(&l, e.frame()).unwrap();
    assert_eq!(record, e.record(&done));
    assert_eq!(bits, done.bits);
    assert_eq!(write_record(&l, &record), Ok((e.frame().to_vec(), bits)));
    assert_eq!(checksum(e.frame()), 0);
}

#[test]
fn the_reader_is_strict() {
    let l = mono(1, 1, 10);
    let (good, bits) = write_record(&l, &Record::silent(&l)).unwrap();
    assert_eq!(bits, 35);
    let mut bad = good.clone();
    bad[9] ^= 1;
    assert_eq!(read_frame(&l, &bad), Err(Refusal::new(8, 0)));
    let mut filled = good.clone();
    filled[7] = 1;
    let check = checksum(&filled[..8]);
    filled[8..].copy_from_slice(&check.to_be_bytes());
    assert_eq!(read_frame(&l, &filled), Err(Refusal::new(14, 63)));
    assert_eq!(read_frame(&l, &good[..9]), Err(Refusal::new(2, 0)));
}

#[test]
fn an_illegal_record_is_refused() {
    let l = mono(1, 1, 10);
    let mut r = Record::silent(&l);
    r.codes[0] = i32::MIN;
    assert_eq!(write_record(&l, &r), Err(Refusal::new(15, 0)));
}

#[test]
fn every_head_is_taken() {
    let l = mono(1, 1, 8);
    let frames = [(511, 127, 0xFFFFFFFF_000000FC_u64), (0, 5, 0xFFFF0005_0000009C), (255, 0, 0xFFFF7F80_000006CC)];
    for (level, boundary, frame) in frames {
        let record = Record { level, boundary, ..Record::silent(&l) };
        let frame = frame.to_be_bytes().to_vec();
        assert_eq!(write_record(&l, &record), Ok((frame.clone(), 35)));
        assert_eq!(read_frame(&l, &frame), Ok((record, 35)));
    }
    for (level, boundary) in [(512, 0), (0, 128)] {
        let record = Record { level, boundary, ..Record::silent(&l) };
        assert_eq!(write_record(&l, &record), Err(Refusal::new(15, 0)));
    }
}

#[test]
fn the_check_of_a_known_text() {
    // CRC-16 with polynomial 8005, start 0, not reflected
    assert_eq!(checksum(b"123456789"), 0xFEE8);
    assert_eq!(checksum(b""), 0);
}

#[test]
fn every_number_has_a_text() {
    for number in (1..=31).filter(|n| ![6, 10].contains(n)) {
        let text = Refusal::new(number, 3).to_string();
        assert!(text.starts_with(&format!("refusal {number}: ")) && text.len() > 30, "{text}");
    }
    for number in [6, 10, 32, 99] {
        assert!(Refusal::new(number, 3).to_string().contains("unknown"));
    }
}

#[test]
#[rustfmt::skip]
fn every_number_has_its_kind() {
    for (number, kind) in [
        (1, RefusalKind::BadLayout),
        (2, RefusalKind::ShortBuffer),
        (3, RefusalKind::BadIntensity),
        (4, RefusalKind::BadSpectrum),
        (5, RefusalKind::NoLevel),
        (7, RefusalKind::TooLong),
        (8, RefusalKind::WrongCheck),
        (9, RefusalKind::WrongSync),
        (11, RefusalKind::BadWidth),
        (12, RefusalKind::BadFactor),
        (13, RefusalKind::PastEnd),
        (14, RefusalKind::FillNotZero),
        (15, RefusalKind::NotLegal),
        (16, RefusalKind::BadHeader),
        (17, RefusalKind::TooLoud),
        (18, RefusalKind::BadBatch),
        (19, RefusalKind::BadListMark),
        (20, RefusalKind::BadListLength),
        (21, RefusalKind::BadEntry),
        (22, RefusalKind::NotWave),
        (23, RefusalKind::NoData),
        (24, RefusalKind::BadDepth),
        (25, RefusalKind::NotFinite),
        (26, RefusalKind::WrongHeaderCheck),
        (27, RefusalKind::WrongHeaderName),
        (28, RefusalKind::BadHeaderField),
        (29, RefusalKind::HeaderNotZero),
        (30, RefusalKind::TooMany),
        (31, RefusalKind::NoFrame),
        (0, RefusalKind::Unknown),
        (99, RefusalKind::Unknown),
    ] {
        assert_eq!(Refusal::new(number, 0).kind(), kind, "{number}");
    }
}

#[test]
fn a_record_is_read_into_what_is_there() {
    let l = mono(30, 60, 90);
    let mut e = Encoder::new(l.clone());
    let spectra: Vec<f32> = (0..1024).map(|i| ((i * 41 % 97) as f32 - 48.0) / (8 + 8 * (i % 128)) as f32).collect();
    let done = e.encode_frame(&spectra, &[0; 8]).unwrap();
    let mut record = Record::silent(&l);
    record.codes.push(77); // a longer vector keeps its rest
    assert_eq!(read_frame_into(&l, e.frame(), &mut record), Ok(done.bits));
    assert_eq!((record.level, record.boundary), (done.level, done.boundary));
    assert_eq!(record.codes.pop(), Some(77));
    assert_eq!(record, e.record(&done));

    let mut damaged = e.frame().to_vec();
    damaged[20] ^= 4;
    assert_eq!(read_frame_into(&l, &damaged, &mut record), Err(Refusal::new(8, 0)));
    assert_eq!(record, Record::silent(&l));

    let mut short = e.record(&done);
    short.side.pop();
    let before = short.clone();
    assert_eq!(read_frame_into(&l, e.frame(), &mut short), Err(Refusal::new(2, 0)));
    assert_eq!(short, before);
}

#[test]
fn a_frame_is_written_into_what_is_there() {
    let l = mono(1, 1, 10);
    let mut record = Record::silent(&l);
    let (frame, bits) = write_record(&l, &record).unwrap();
    let mut slice = [7; 12];
    assert_eq!(write_record_into(&l, &record, &mut slice), Ok(bits));
    assert_eq!((&slice[..10], &slice[10..]), (&frame[..], &[7, 7][..]));

    let mut slice = [7; 9];
    assert_eq!(write_record_into(&l, &record, &mut slice), Err(Refusal::new(2, 0)));
    assert_eq!(slice, [7; 9]);

    record.level = 512;
    let mut slice = [7; 10];
    assert_eq!(write_record_into(&l, &record, &mut slice), Err(Refusal::new(15, 0)));
    assert_eq!(slice, [7; 10]);
}

#[test]
fn a_record_without_room_leaves_zeros() {
    let l = Layout::builder().channels(&[Kind::Discrete; 6]).bands(1, 0, 1).frame_size(8).build().unwrap();
    let mut slice = [7; 9];
    let no = write_record_into(&l, &Record::silent(&l), &mut slice).unwrap_err();
    assert_eq!(no.kind(), RefusalKind::TooLong);
    assert_eq!(slice, [0, 0, 0, 0, 0, 0, 0, 0, 7]);
}

#[test]
fn threads_do_not_meet() {
    let l = mono(30, 60, 90);
    let frame_of = |k: usize| {
        let spectra: Vec<f32> = (0..1024).map(|i| ((i * (k + 3) % 101) as f32 - 50.0) / (8 + 8 * (i % 128)) as f32).collect();
        let mut e = Encoder::new(l.clone());
        e.encode_frame(&spectra, &[0; 8]).unwrap();
        e.frame().to_vec()
    };
    let alone: Vec<Vec<u8>> = (0..8).map(frame_of).collect();
    std::thread::scope(|s| {
        let together: Vec<_> = (0..8).map(|k| s.spawn(move || frame_of(k))).collect();
        for (one, other) in alone.iter().zip(together) {
            assert_eq!(*one, other.join().unwrap());
        }
    });
}

#[test]
fn an_earlier_frame_stays_after_refusal_4_and_goes_after_5() {
    let mut e = Encoder::new(mono(1, 1, 9));
    e.encode_frame(&[0.0; 1024], &[0; 8]).unwrap();
    let before = e.frame().to_vec();
    let no = e.encode_frame(&[f32::INFINITY; 1024], &[0; 8]).unwrap_err();
    assert_eq!((no.number, no.place), (Refusal::BAD_SPECTRUM, 0));
    assert_eq!(e.frame(), before);
    let no = e.encode_frame(&[1.0; 1024], &[0; 8]).unwrap_err();
    assert_eq!((no.number, no.place), (Refusal::NO_LEVEL, 0));
    assert!(e.frame().iter().all(|&b| b == 0));
}

#[test]
fn what_is_delivered_from_its_numbers() {
    let mut encoder = Encoder::new(mono(40, 64, 120));
    let done = encoder.encode_frame(&[0.25; 1024], &[0; 8]).unwrap();
    assert_eq!(Delivered::from([done.level, done.boundary, done.pairs, done.bits]), done);
    let entry = Delivered::from([511, 127, 63, u32::MAX]);
    assert_eq!((entry.level, entry.boundary, entry.pairs, entry.bits), (511, 127, 63, u32::MAX));
}

/// One Discrete channel of two bands in 17 bytes, with these resolutions.
fn two_bands(minimum: u32, maximum: u32) -> Layout {
    let b = Layout::builder().channel(Kind::Discrete).bands(2, 0, 2).frame_size(17);
    b.resolutions(minimum, maximum).build().unwrap()
}

const COARSE: [u8; 17] = [0xFF, 0xFF, 0x56, 0x81, 0x3B, 0xB8, 0xE0, 0, 0, 0, 0, 0, 0, 0, 0, 0xE0, 0x26];
const FINE: [u8; 17] = [0xFF, 0xFF, 0, 0, 0x3B, 0xB9, 0xC0, 0, 0, 0, 0, 0, 0, 0, 0, 0x2A, 0xDA];

#[test]
fn one_frame_under_three_pairs() {
    let read = |minimum, maximum| read_frame(&two_bands(minimum, maximum), &COARSE);
    let (record, bits) = read(1, 15).unwrap();
    assert_eq!((record.level, record.boundary, &record.codes[..2], bits), (173, 1, &[28, 14][..], 116));
    let (record, bits) = read(1, 8).unwrap();
    assert_eq!((record.level, record.boundary, &record.codes[..2], bits), (173, 1, &[14, 7][..], 108));
    assert_eq!(write_record(&two_bands(1, 8), &record).unwrap(), (COARSE.to_vec(), 108));
    assert_eq!(read(9, 9), Err(Refusal::new(13, 119)));
}

#[test]
fn two_loud_bands_by_their_limits() {
    let mut spectra = [0.0; 1024];
    (spectra[0], spectra[1], spectra[129]) = (1.0, 1.0, f32::from_bits(0xBD16_778F));
    let encode = |minimum, maximum| {
        let mut encoder = Encoder::new(two_bands(minimum, maximum));
        encoder.encode_frame(&spectra, &[0; 8]).map(|done| (done, encoder))
    };
    let (done, encoder) = encode(1, 15).unwrap();
    assert_eq!((done, encoder.frame()), (Delivered::from([173, 1, 0, 116]), &COARSE[..]));
    let (done, encoder) = encode(1, 8).unwrap();
    assert_eq!((done, encoder.frame()), (Delivered::from([0, 0, 0, 108]), &FINE[..]));
    assert_eq!(encoder.codes()[..2], [14, 14]);
    assert_eq!(encode(9, 15).map(|_| ()), Err(Refusal::new(5, 0)));
}

#[test]
fn a_code_is_held_by_the_maximum() {
    let layout = Layout::builder().channel(Kind::Discrete).bands(1, 0, 1).frame_size(20).resolutions(4, 10).build().unwrap();
    let mut record = Record::silent(&layout);
    (record.factors[0], record.codes[128]) = (1, 63);
    assert!(write_record(&layout, &record).is_ok());
    record.codes[128] = 64;
    assert_eq!(write_record(&layout, &record), Err(Refusal::new(15, 0)));
}

#[test]
fn a_header_has_the_pair_at_30_and_31() {
    let stream = Stream::new(48_000, 47, 512);
    let bytes = |minimum, maximum| write_header(&two_bands(minimum, maximum), &stream).unwrap()[30..32].to_vec();
    assert_eq!((bytes(1, 15), bytes(4, 10), bytes(9, 9)), (vec![1, 15], vec![4, 10], vec![9, 9]));
}

/// The raw calls: what is missing has its default, from the ninth number on nothing is looked at, a wrong pair or mode is refusal 1.
#[test]
fn layouts_of_five_to_ten_numbers() {
    let read = |behind: &[u32]| {
        let (mut factors, mut side, mut codes, mut answer) = ([9; 128], [9; 8], [9; 1024], [9; 4]);
        let layout = [&[1, 2, 0, 2, 17], behind].concat();
        let number = raw::read_frame(&layout, &[0], &COARSE, &mut factors, &mut side, &mut codes, &mut answer);
        (number, factors, side, codes, answer)
    };
    let five = read(&[]);
    assert_eq!((five.0, five.4), (0, [173, 1, 116, 9]));
    for behind in [&[1][..], &[1, 15], &[1, 15, 0], &[1, 15, 1], &[1, 15, 0, u32::MAX], &[1, 15, 1, u32::MAX, 3]] {
        assert_eq!(read(behind), five);
    }
    assert_eq!(read(&[1, 8]).4, [173, 1, 108, 9]);
    for wrong in [[0, 15], [1, 16], [9, 8], [16, 16], [16, 15], [0, 0], [257, 271], [1, u32::MAX], [1 << 31, 15]] {
        assert_eq!(read(&wrong), (1, [9; 128], [9; 8], [9; 1024], [0, 9, 9, 9]));
    }
    for wrong in [[1, 15, 2], [1, 15, 256], [1, 15, 1 << 31], [1, 15, u32::MAX], [9, 8, 2]] {
        assert_eq!(read(&wrong), (1, [9; 128], [9; 8], [9; 1024], [0, 9, 9, 9]));
    }
}

#[test]
fn the_mode_has_its_default() {
    let b = || Layout::builder().channel(Kind::Discrete).bands(1, 0, 1).frame_size(10);
    let rust = b().build().unwrap();
    assert_eq!((rust.mode(), Mode::default()), (Mode::Rust, Mode::Rust));
    assert_eq!(b().mode(Mode::Rust).build().unwrap(), rust);
    let held = b().mode(Mode::Held).build().unwrap();
    assert_eq!((held.mode(), held.numbers()), (Mode::Held, &[1, 1, 0, 1, 10, 1, 15, 1][..]));
    assert_ne!(held, rust);
}

/// 1000.0 and -6.0 in turn: the upper clip at resolution 2, in ten bytes.
#[test]
fn one_input_in_both_modes() {
    let mut spectra = [0.0; 1024];
    (0..8).for_each(|s| spectra[128 * s] = if s % 2 == 0 { 1000.0 } else { -6.0 });
    let layout = |mode| Layout::builder().channel(Kind::Discrete).bands(1, 0, 1).frame_size(10).mode(mode).build().unwrap();
    let made = |mode| {
        let mut encoder = Encoder::new(layout(mode));
        let done = encoder.encode_frame(&spectra, &[0; 8]).unwrap();
        let codes: Vec<i32> = (0..8).map(|s| encoder.codes()[128 * s]).collect();
        (done, codes, encoder.frame().to_vec())
    };
    let read = |mode, frame: &[u8]| {
        let (record, bits) = read_frame(&layout(mode), frame).unwrap();
        assert_eq!(write_record(&layout(mode), &record).unwrap(), (frame.to_vec(), bits));
        ((0..8).map(|s| record.codes[128 * s]).collect::<Vec<i32>>(), bits)
    };
    let (done, codes, frame) = made(Mode::Rust);
    assert_eq!((done, codes), (Delivered::from([209, 0, 0, 49]), [3, -1].repeat(4)));
    assert_eq!(frame, [0xFF, 0xFF, 0x68, 0x80, 0xDF, 0xD5, 0, 0, 0xFC, 0x9F]);
    for mode in [Mode::Rust, Mode::Held] {
        assert_eq!(read(mode, &frame), (vec![-1, -1, -1, -1, 0, 0, 0, 0], 57));
    }
    let (done, codes, frame) = made(Mode::Held);
    assert_eq!((done, codes), (Delivered::from([209, 0, 0, 61]), [2, -1].repeat(4)));
    assert_eq!(frame, [0xFF, 0xFF, 0x68, 0x80, 0xDF, 0xEB, 0x5A, 0xD0, 0xA1, 0x62]);
    for mode in [Mode::Rust, Mode::Held] {
        assert_eq!(read(mode, &frame), ([2, -1].repeat(4), 61));
    }
}

#[test]
fn a_header_has_no_mode() {
    let stream = Stream::new(48_000, 47, 512);
    let b = || Layout::builder().channel(Kind::Discrete).bands(2, 0, 2).frame_size(17);
    let bytes = |mode| write_header(&b().mode(mode).build().unwrap(), &stream).unwrap();
    assert_eq!(bytes(Mode::Rust), bytes(Mode::Held));
}
