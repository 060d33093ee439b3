//! Cases of the header reader (kind 13), from the model; the headers from the Rust's `write_header`.
use crate::{Body, File, BEFORE};
use gen::header_back::{call, kind_of, looped, mend, twenty, whole, BackCall, KINDS};
use std::collections::BTreeMap;

const WORD: u32 = u32::from_le_bytes([BEFORE; 4]);

fn counted(b: &mut Body, words: &[u32]) {
    b.word(words.len() as u32);
    b.words(words);
}

fn add(f: &mut File, name: &str, call: &BackCall) {
    let (mut layout, mut answer) = (vec![WORD; call.places[0]], vec![WORD; call.places[1]]);
    let number = hca_model::read_header(&call.header, &mut layout, &mut answer);
    let outcome = match number {
        0 => format!("delivered {:?} {:?}", &layout[..7], &answer[..8]),
        n => format!("refusal {n}"),
    };
    let mut b = Body(Vec::new());
    b.bytes(&call.header);
    b.words(&[call.places[0] as u32, call.places[1] as u32]);
    b.word(number);
    counted(&mut b, &layout);
    counted(&mut b, &answer);
    f.add_case(13, name, &outcome, b);
}

/// The request's example: a pair with a loop, its check DA93.
fn example() -> Vec<u8> {
    let (kinds, stream, points) = ([1, 2], [44_100, 40, 832], [5_000, 40_000]);
    let mut header = vec![0; 96];
    hca_model::write_header(&[2, 52, 52, 128, 417], &kinds, &stream, &points, &mut header);
    assert_eq!(header[94..], [0xDA, 0x93]);
    header
}

fn changed(bytes: &[(usize, u8)]) -> BackCall {
    let mut header = example();
    bytes.iter().for_each(|&(at, byte)| header[at] = byte);
    mend(&mut header);
    whole(header)
}

/// The request's nine rows, and the corners of the loop's numbers.
fn rows() -> Vec<(&'static str, BackCall)> {
    let mut unsealed = example();
    unsealed[95] = 0x92;
    let turned = |frame, delay, end, padding| whole(looped(&example(), frame, delay, end, padding));
    vec![
        ("the example", whole(example())),
        ("another check", whole(unsealed)),
        ("a 1 in the zero of a name", changed(&[(11, 1)])),
        ("a name before a field before the rest", changed(&[(8, 0), (12, 0), (70, 1)])),
        ("header size 95", changed(&[(7, 0x5F)])),
        ("another number of bands a group", changed(&[(37, 4)])),
        ("a cipher", changed(&[(61, 0x38)])),
        ("a loop padding of 1024", changed(&[(54, 4), (55, 0)])),
        ("a field before the rest", changed(&[(33, 4), (93, 1)])),
        ("a 1 behind the bands a group", changed(&[(38, 1)])),
        ("delay 127 at frame 0", turned(0, 127, 39, 832)),
        ("delay 128 at frame 0", turned(0, 128, 39, 832)),
        ("padding 896 at end frame 0", turned(5, 8, 0, 896)),
        ("padding 897 at end frame 0", turned(5, 8, 0, 897)),
        ("the last end frame, padding 0", turned(5, 8, 4_194_303, 0)),
        ("the last end frame, padding 1", turned(5, 8, 4_194_303, 1)),
        ("a start frame too large", turned(4_194_304, 0, 39, 0)),
        ("both points at their last", turned(4_194_303, 1023, 4_194_303, 1)),
        ("a minimum above the maximum", changed(&[(30, 9), (31, 8)])),
        ("base and stereo whose sum wraps at 8 bits", changed(&[(35, 200), (36, 60), (37, 16)])),
        ("no bytes", whole(Vec::new())),
        ("95 bytes", whole(example()[..95].to_vec())),
        ("a layout of six places", BackCall { places: [6, 8], ..whole(example()) }),
        ("an answer of seven places", BackCall { places: [7, 7], ..whole(example()) }),
        ("longer slices", BackCall { places: [9, 10], ..whole([example(), vec![0xFF; 9]].concat()) }),
    ]
}

/// The rows, some written headers, then two of every sort and outcome that compare-header-back knows.
pub fn file() -> File {
    let mut f = File::new();
    for (name, call) in rows() {
        add(&mut f, name, &call);
    }
    for header in twenty().into_iter().step_by(3) {
        add(&mut f, "written by the Rust", &whole(header));
    }
    let mut seen = BTreeMap::new();
    for k in 0..600 {
        let (kind, mut call) = (KINDS[kind_of(k).0].0, call(5, k));
        call.header.truncate(100);
        let (mut layout, mut answer) = (vec![0; call.places[0]], vec![0; call.places[1]]);
        let number = hca_model::read_header(&call.header, &mut layout, &mut answer);
        let n = seen.entry((kind, number)).or_insert(0);
        *n += 1;
        if *n <= 2 {
            add(&mut f, kind, &call);
        }
    }
    f
}
