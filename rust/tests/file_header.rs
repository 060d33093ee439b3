//! The file header, by its bytes.
use hca_frame::{raw, write_header, Kind, Layout, Refusal, RefusalKind, Stream};

const VOICE: Stream = Stream::new(48_000, 47, 512);

fn voice() -> Layout {
    Layout::builder().channel(Kind::Discrete).bands(64, 0, 100).frame_size(170).build().unwrap()
}

fn hex(header: &[u8]) -> String {
    header.iter().map(|byte| format!("{byte:02x}")).collect()
}

#[test]
fn three_headers_by_their_bytes() {
    let plain = "4843410002000060666d74000100bb800000002f00800200636f6d7000aa010f\
                 0101644000050000636970680000706164000000000000000000000000000000\
                 0000000000000000000000000000000000000000000000000000000000002b1d";
    assert_eq!(hex(&write_header(&voice(), &VOICE).unwrap()), plain);

    let looped = "4843410002000060666d74000100bb800000002f00800200636f6d7000aa010f\
                  01016440000500006c6f6f700000000000000000008000006369706800007061\
                  640000000000000000000000000000000000000000000000000000000000238c";
    let edge = VOICE.looped(0, 896);
    assert_eq!(hex(&write_header(&voice(), &edge).unwrap()), looped);

    let pair = "4843410002000060666d74000200ac440000002800800340636f6d7001a1010f\
                01008034340300006c6f6f700000000500000027000803406369706800007061\
                640000000000000000000000000000000000000000000000000000000000da93";
    let layout = Layout::builder()
        .channels(&[Kind::StereoPrimary, Kind::StereoSecondary])
        .bands(52, 52, 128)
        .frame_size(417)
        .build()
        .unwrap();
    let stream = Stream::new(44_100, 40, 832).looped(5000, 40_000);
    assert_eq!(hex(&write_header(&layout, &stream).unwrap()), pair);
}

#[test]
fn loop_points_at_their_limit() {
    let last = 4_294_967_167;
    let both = VOICE.looped(last, last);
    assert_eq!(hex(&write_header(&voice(), &both).unwrap()[44..56]), "003fffff003fffff03ff0001");
    let edge = VOICE.looped(0, 4_294_966_144);
    assert_eq!(hex(&write_header(&voice(), &edge).unwrap()[44..56]), "00000000003ffffe00800000");
    for (start, end) in [(last + 1, 0), (0, last + 1), (u64::MAX, u64::MAX)] {
        assert_refused(&voice(), VOICE.looped(start, end));
    }
}

#[test]
fn numbers_that_do_not_fit() {
    assert_refused(&voice(), Stream::new(0, 47, 512));
    assert_refused(&voice(), Stream::new(0x80_0000, 47, 512));
    assert_refused(&voice(), Stream::new(48_000, 1 << 32, 512));
    assert_refused(&voice(), Stream::new(48_000, 47, 65_536));
    let nine = Layout::builder().channels(&[Kind::Discrete; 9]).bands(64, 0, 100).frame_size(170).build().unwrap();
    assert_refused(&nine, VOICE);
    let most = Stream::new(0x7F_FFFF, u64::from(u32::MAX), 65_535);
    assert_eq!(hex(&write_header(&voice(), &most).unwrap()[12..24]), "017fffffffffffff0080ffff");
}

fn assert_refused(layout: &Layout, stream: Stream) {
    let refusal = write_header(layout, &stream).unwrap_err();
    assert_eq!((refusal, refusal.kind()), (Refusal::new(16, 0), RefusalKind::BadHeader));
    assert!(refusal.to_string().starts_with("refusal 16: "));
}

#[test]
fn one_before_two_before_sixteen() {
    let mut header = [7; 100];
    let nine = [9, 64, 0, 100, 170];
    let kinds = [0; 17];
    let write = |layout: &[u32], stream: &[u64], points: &[u64], header: &mut [u8]| {
        raw::write_header(layout, &kinds, stream, points, header)
    };
    assert_eq!(write(&[17, 64, 0, 100, 170], &[], &[1], &mut header[..0]), 1);
    assert_eq!(write(&nine, &[0, 0, 0], &[], &mut header[..95]), 2);
    assert_eq!(write(&nine, &[0, 0], &[], &mut header), 2);
    assert_eq!(write(&nine, &[0, 0, 0], &[1], &mut header), 2);
    assert_eq!(write(&nine, &[0, 0, 0], &[], &mut header), 16);
    assert_eq!(header, [7; 100]);
    assert_eq!(write(&[1, 64, 0, 100, 170], &[48_000, 47, 512, 9], &[0, 896, 5], &mut header), 0);
    assert_eq!((&header[94..96], &header[96..]), (&[0x23, 0x8C][..], &[7; 4][..]));
}
