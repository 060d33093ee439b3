//! Cases of the WAV reader (kind 10): samples and format from the Rust's own lines, the level note from the model, which
//! has to agree with the Rust in all else.
use crate::{Body, File, BEFORE};
use gen::wav::{call, kind_of, KINDS};
use published::wav::{by_rust, numbers, Heard, WavCall};
use std::collections::BTreeMap;

const WORD: u32 = u32::from_le_bytes([BEFORE; 4]);

/// The number, answer, note and samples as the call leaves them.
fn expected(wav: &[u8], room: usize) -> (u32, [u32; 4], [f32; 2], Vec<f32>) {
    let (mut samples, mut note, mut answer) = (vec![f32::from_bits(WORD); room], [f32::from_bits(WORD); 2], [WORD; 4]);
    let number = hca_model::read_wav(wav, &mut samples, &mut note, &mut answer);
    let heard = by_rust(wav);
    let whole = WavCall { wav: wav.to_vec(), lengths: [room, 2, 4], pattern: 0 };
    assert!(numbers(&whole, &heard).contains(&number), "the model gives {number}");
    if let (0, Heard::Samples { samples: theirs, channels, rate, depth }) = (number, heard) {
        assert_eq!(answer, [channels, rate, depth, theirs.len() as u32]);
        assert!(theirs.iter().zip(&samples).all(|(a, b)| a.to_bits() == b.to_bits()));
    }
    (number, answer, note, samples)
}

fn add(f: &mut File, name: &str, wav: &[u8], room: usize) {
    let (number, answer, note, samples) = expected(wav, room);
    let mut b = Body(Vec::new());
    b.bytes(wav);
    b.word(room as u32);
    b.word(number);
    b.words(&answer);
    b.words(&note.map(f32::to_bits));
    b.word(room as u32);
    b.words(&samples.iter().map(|v| v.to_bits()).collect::<Vec<_>>());
    let outcome = match number {
        0 => format!("delivered {answer:?}, peak {:08X}, mean {:08X}", note[0].to_bits(), note[1].to_bits()),
        n => format!("refusal {n}"),
    };
    f.add_case(10, name, &outcome, b);
}

fn chunk(id: &[u8; 4], size: u32, body: &[u8]) -> Vec<u8> {
    [&id[..], &size.to_le_bytes(), body].concat()
}

fn format(channels: u16, rate: u32, depth: u16) -> Vec<u8> {
    let body = [&[1, 0][..], &channels.to_le_bytes(), &rate.to_le_bytes(), &[0; 6], &depth.to_le_bytes()].concat();
    chunk(b"fmt ", 16, &body)
}

fn file_of(chunks: &[Vec<u8>]) -> Vec<u8> {
    [b"RIFF\0\0\0\0WAVE".to_vec(), chunks.concat()].concat()
}

/// A mono file of floats.
fn floats(patterns: &[u32]) -> Vec<u8> {
    let body: Vec<u8> = patterns.iter().flat_map(|p| p.to_le_bytes()).collect();
    file_of(&[format(1, 48_000, 32), chunk(b"data", body.len() as u32, &body)])
}

fn corners() -> Vec<(&'static str, Vec<u8>, usize)> {
    let two = [0x00, 0x80, 0xFF, 0x7F];
    let mono = format(1, 8_000, 16);
    let plain = file_of(&[mono.clone(), chunk(b"data", 4, &two)]);
    let deep = [0x00, 0x00, 0x80, 0xFF, 0xFF, 0x7F, 0x01, 0x00, 0x00, 0xFF];
    let odd = chunk(b"LIST", 3, &[1, 2, 3, 4]);
    let depth = |d| file_of(&[format(1, 8_000, d), chunk(b"data", 4, &two)]);
    vec![
        ("two samples of 16 bits", plain.clone(), 2),
        ("24 bits behind an odd chunk", file_of(&[odd, format(1, 48_000, 24), chunk(b"data", 10, &deep)]), 3),
        ("a mean that only a sum in order has", floats(&[0x4B80_0000, 0x3F80_0000, 0x3F80_0000]), 3),
        ("a sum that passes to infinity", floats(&[0x7F7F_FFFF, 0xFF7F_FFFF]), 2),
        ("minus zero and subnormals", floats(&[0x8000_0000, 1, 0x807F_FFFF]), 3),
        ("a longer buffer", plain.clone(), 5),
        ("43 bytes", file_of(&[chunk(b"data", 23, &[0; 23])]), 20),
        ("44 bytes by the defaults", file_of(&[chunk(b"data", 24, &[7; 24])]), 12),
        ("an empty data chunk, and another", file_of(&[mono.clone(), chunk(b"data", 0, &[]), chunk(b"data", 4, &two)]), 4),
        ("one byte of a sample", file_of(&[mono.clone(), chunk(b"data", 1, &[5])]), 2),
        ("a size with no byte behind it", file_of(&[mono.clone(), chunk(b"data", 4, &[])]), 2),
        ("the largest size", file_of(&[mono.clone(), chunk(b"data", u32::MAX, &two)]), 2),
        ("a chunk before data that passes the end", file_of(&[mono.clone(), chunk(b"LIST", 13, &[0; 12])]), 2),
        ("a format cut short", file_of(&[chunk(b"LIST", 8, &[0; 8]), chunk(b"fmt ", 16, &[1, 0, 1, 0, 0, 1, 0, 0])]), 2),
        ("a format of 15 bytes", file_of(&[chunk(b"fmt ", 15, &[9; 16]), chunk(b"data", 4, &two)]), 2),
        ("two formats", file_of(&[mono.clone(), format(6, 0, 32), chunk(b"data", 4, &0x3F00_0000_u32.to_le_bytes())]), 1),
        ("no data", file_of(&[mono, chunk(b"LIST", 8, &[0; 8])]), 0),
        ("RIFX", [b"RIFX", &plain[4..]].concat(), 2),
        ("depth 0, an empty buffer", depth(0), 0),
        ("depth 8", depth(8), 4),
        ("depth 17", depth(17), 2),
        ("a buffer one short", plain, 1),
        ("an infinity", floats(&[0x3F80_0000, 0x7F80_0000]), 2),
        ("an infinity and a short buffer", floats(&[0x3F80_0000, 0x7F80_0000]), 1),
        ("a NaN", floats(&[0xFFC0_0001]), 1),
    ]
}

/// The request's examples and corners, then two of every sort and outcome that compare-wav knows.
pub fn file() -> File {
    let mut f = File::new();
    for (name, wav, room) in corners() {
        add(&mut f, name, &wav, room);
    }
    let mut seen = BTreeMap::new();
    for k in 0..1_000 {
        let (kind, call) = (KINDS[kind_of(k).0].0, call(10, k));
        if call.wav.len() > 140 || call.lengths[1] != 2 || call.lengths[2] != 4 {
            continue;
        }
        let n = seen.entry((kind, expected(&call.wav, call.lengths[0]).0)).or_insert(0);
        *n += 1;
        if *n <= 2 {
            add(&mut f, kind, &call.wav, call.lengths[0]);
        }
    }
    f
}
