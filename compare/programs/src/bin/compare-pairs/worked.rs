//! Numbers worked out by hand: one frame under three pairs, a code at its limit, two loud bands under two pairs, a header's two bytes.

fn hex(text: &str) -> Vec<u8> {
    (0..text.len() / 2).map(|i| u8::from_str_radix(&text[2 * i..2 * i + 2], 16).expect("two digits")).collect()
}

/// Number, answer and the codes of bands 0 and 1, of a frame of one Discrete channel with two bands.
fn read(frame: &str, pair: [u32; 2], model: bool) -> (u32, [u32; 3], [i32; 2]) {
    let f = if model { hca_model::read_frame } else { hca_frame::raw::read_frame };
    let (mut factors, mut side, mut codes, mut answer) = ([0; 128], [0; 8], [0; 1024], [0; 4]);
    let number = f(&[1, 2, 0, 2, 17, pair[0], pair[1]], &[0], &hex(frame), &mut factors, &mut side, &mut codes, &mut answer);
    (number, [answer[0], answer[1], answer[2]], [codes[0], codes[1]])
}

fn one_frame_three_pairs(model: bool) -> bool {
    let of = |pair| read("FFFF56813BB8E00000000000000000E026", pair, model);
    of([1, 15]) == (0, [173, 1, 116], [28, 14])
        && of([1, 8]) == (0, [173, 1, 108], [14, 7])
        && of([9, 9]).0 == 13
        && of([9, 9]).1[0] == 119
}

/// Level 0 and factor 1: 15 on the curve, held to 10, whose codes go to 63.
fn code_at_its_limit(model: bool) -> bool {
    let f = if model { hca_model::write_record } else { hca_frame::raw::write_record };
    let write = |code: i32| {
        let (mut factors, mut codes, mut frame, mut answer) = ([0; 128], [0; 1024], [0; 20], [0; 4]);
        (factors[0], codes[128]) = (1, code);
        f(&[1, 1, 0, 1, 20, 4, 10], &[0], &[0, 0], &factors, &[0; 8], &codes, &mut frame, &mut answer)
    };
    [write(63), write(-63), write(64), write(-64)] == [0, 0, 15, 15]
}

/// Two bands, each with 1.0 in the first subframe, and a small value in the second.
fn two_loud_bands(model: bool) -> bool {
    let f = if model { hca_model::encode_frame } else { hca_frame::raw::encode_frame };
    let encode = |minimum, maximum| {
        let mut spectra = [0.0; 1024];
        (spectra[0], spectra[1], spectra[129]) = (1.0, 1.0, f32::from_bits(0xBD16_778F));
        let (mut scaled, mut codes, mut factors, mut side) = ([9.0; 1024], [9; 1024], [9; 128], [9; 8]);
        let (mut frame, mut answer) = (vec![9; 17], [9; 4]);
        let number = f(
            &[1, 2, 0, 2, 17, minimum, maximum],
            &[0],
            &spectra,
            &[0; 8],
            &mut scaled,
            &mut codes,
            &mut factors,
            &mut side,
            &mut frame,
            &mut answer,
        );
        (number, answer, [codes[0], codes[1]], frame)
    };
    encode(1, 8) == (0, [0, 0, 0, 108], [14, 14], hex("FFFF00003BB9C000000000000000002ADA"))
        && encode(1, 15) == (0, [173, 1, 0, 116], [28, 14], hex("FFFF56813BB8E00000000000000000E026"))
        && encode(9, 15) == (5, [0, 9, 9, 9], [0, 0], vec![0; 17])
}

/// Bytes 30 and 31 are the pair, and where numbers are missing 1 and 15.
fn header_bytes(model: bool) -> bool {
    let f = if model { hca_model::write_header } else { compare::header::write_header };
    let bytes = |behind: &[u32]| {
        let mut header = [0; 96];
        let number = f(&[&[1, 64, 0, 100, 170], behind].concat(), &[0], &[48_000, 47, 512], &[], &mut header);
        (number, [header[30], header[31]])
    };
    let each = [bytes(&[4, 10]), bytes(&[9]), bytes(&[]), bytes(&[15, 15])];
    each == [(0, [4, 10]), (0, [9, 15]), (0, [1, 15]), (0, [15, 15])]
}

pub fn all(model: bool) -> bool {
    let each = [
        ("one frame under 1..15, 1..8 and 9..9", one_frame_three_pairs(model)),
        ("a code of 63 and of 64 at 4..10", code_at_its_limit(model)),
        ("two loud bands under 1..8, 1..15 and 9..15", two_loud_bands(model)),
        ("the header's two bytes", header_bytes(model)),
    ];
    for (name, good) in each {
        println!("{name}: {}", if good { "as worked out" } else { "WRONG" });
    }
    each.iter().all(|&(_, good)| good)
}
