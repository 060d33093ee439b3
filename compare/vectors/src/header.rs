//! Cases of the header writer (kind 5), from the Rust's `write_header`.
use crate::{Body, File, BEFORE};
use gen::header::{call, kind_of, KINDS};
use published::header::{write, HeaderCall};
use std::collections::BTreeMap;

/// The last loop point whose shift stays below 2^32.
const LAST: u64 = 4_294_967_167;

pub fn add(f: &mut File, name: &str, call: &HeaderCall) {
    let mut header = vec![BEFORE; call.length];
    let number = write(call, &mut header);
    let mut b = Body(Vec::new());
    let kind = b.layout(&call.layout, 5);
    b.bytes(&call.kinds);
    b.longs(&call.stream);
    b.longs(&call.points);
    b.word(call.length as u32);
    b.word(number);
    b.bytes(&header);
    f.add_case(kind, name, &outcome(number), b);
}

fn outcome(number: u32) -> String {
    match number {
        0 => "delivered".to_string(),
        n => format!("refusal {n}"),
    }
}

fn mono(stream: [u64; 3], points: &[u64]) -> HeaderCall {
    let layout = vec![1, 64, 0, 100, 170];
    HeaderCall { layout, kinds: vec![0], stream: stream.to_vec(), points: points.to_vec(), length: 96, pattern: 0 }
}

fn of_channels(channels: usize) -> HeaderCall {
    let mut call = mono([48_000, 47, 512], &[]);
    call.layout[0] = channels as u32;
    call.kinds = vec![0; channels];
    call
}

fn written() -> Vec<(&'static str, HeaderCall)> {
    let good = [48_000, 47, 512];
    let pair = HeaderCall { layout: vec![2, 52, 52, 128, 417], kinds: vec![1, 2], ..mono([44_100, 40, 832], &[5_000, 40_000]) };
    let mut list = vec![
        ("mono", mono(good, &[])),
        ("mono, its loop ends on an edge", mono(good, &[0, 896])),
        ("a pair with a loop", pair.clone()),
        ("a sample before the edge", mono(good, &[895, 895])),
        ("a sample behind the edge", mono(good, &[897, 897])),
        ("the next edge", mono(good, &[1_920, 1_920])),
        ("the last points", mono(good, &[LAST, LAST])),
        ("the last end on an edge", mono(good, &[0, 4_294_966_144])),
        ("start after end", mono(good, &[40_000, 5_000])),
        ("every field at its least", HeaderCall { layout: vec![1, 0, 0, 1, 8], ..mono([1, 0, 0], &[0, 0]) }),
        (
            "every field at its most",
            HeaderCall { layout: vec![1, 128, 0, 128, 65_535], ..mono([0x7F_FFFF, 0xFFFF_FFFF, 65_535], &[]) },
        ),
        ("all bands in groups of 16", HeaderCall { layout: vec![1, 0, 0, 128, 100], ..mono(good, &[]) }),
        ("a longer buffer", HeaderCall { length: 120, ..pair }),
    ];
    list.extend((2..=8).map(|c| ("each number of channels", of_channels(c))));
    list
}

fn refused() -> Vec<(&'static str, HeaderCall)> {
    let good = [48_000, 47, 512];
    vec![
        ("nine channels", of_channels(9)),
        ("nine channels, 95 bytes", HeaderCall { length: 95, ..of_channels(9) }),
        ("seventeen channels", of_channels(17)),
        ("seventeen channels, no bytes", HeaderCall { length: 0, ..of_channels(17) }),
        ("rate 0", mono([0, 47, 512], &[])),
        ("rate one past its limit", mono([0x80_0000, 47, 512], &[])),
        ("count one past its field", mono([48_000, 1 << 32, 512], &[])),
        ("padding one past its field", mono([48_000, 47, 65_536], &[])),
        ("start one past its limit", mono(good, &[LAST + 1, 0])),
        ("end one past its limit", mono(good, &[0, LAST + 1])),
        ("an end that would wrap in 64 bits", mono(good, &[0, u64::MAX])),
        ("95 bytes", HeaderCall { length: 95, ..mono(good, &[]) }),
        ("two numbers of the stream", HeaderCall { stream: vec![48_000, 47], ..mono(good, &[]) }),
        ("one point", mono(good, &[5_000])),
        ("rate 0 and one point", mono([0, 47, 512], &[5_000])),
    ]
}

/// The request's examples and corners, then three of every sort and outcome that compare-header knows.
pub fn file() -> File {
    let mut f = File::new();
    for (name, call) in written().iter().chain(&refused()) {
        add(&mut f, name, call);
    }
    let mut seen = BTreeMap::new();
    for k in 0..1_000 {
        let (kind, call) = (KINDS[kind_of(k).0].0, call(5, k));
        if call.layout.len() != 5 {
            continue;
        }
        let n = seen.entry((kind, published::header::refused(&call))).or_insert(0);
        *n += 1;
        if *n <= 3 {
            add(&mut f, kind, &call);
        }
    }
    f
}
