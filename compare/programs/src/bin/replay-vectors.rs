//! Replays the fixed vectors of VECTORS.md on the library: `replay-vectors FILE..`.
#[path = "replay-vectors/header.rs"]
mod header;
#[path = "replay-vectors/header_back.rs"]
mod header_back;
#[path = "replay-vectors/line.rs"]
mod line;
#[path = "replay-vectors/list.rs"]
mod list;
#[path = "replay-vectors/stereo.rs"]
mod stereo;
#[path = "replay-vectors/stereo_line.rs"]
mod stereo_line;
#[path = "replay-vectors/wav.rs"]
mod wav;

use hca_frame::raw;

struct Input<'a>(&'a [u8]);

impl<'a> Input<'a> {
    fn take(&mut self, n: usize) -> &'a [u8] {
        let (head, rest) = self.0.split_at(n);
        self.0 = rest;
        head
    }
    fn word(&mut self) -> u32 {
        u32::from_le_bytes(self.take(4).try_into().expect("four bytes"))
    }
    fn words(&mut self, n: usize) -> Vec<u32> {
        (0..n).map(|_| self.word()).collect()
    }
    fn bytes(&mut self) -> Vec<u8> {
        let n = self.word() as usize;
        self.take(n).to_vec()
    }
    fn longs(&mut self) -> Vec<u64> {
        let n = self.word() as usize;
        self.take(8 * n).chunks_exact(8).map(|b| u64::from_le_bytes(b.try_into().expect("eight bytes"))).collect()
    }
    fn runs(&mut self) -> Vec<u32> {
        let mut all = vec![0; self.word() as usize];
        for _ in 0..self.word() {
            let (start, n) = (self.word() as usize, self.word() as usize);
            all[start..start + n].copy_from_slice(&self.words(n));
        }
        all
    }
}

fn sum(bytes: impl IntoIterator<Item = u8>) -> u32 {
    bytes.into_iter().fold(0x811C_9DC5, |h, b| (h ^ u32::from(b)).wrapping_mul(0x0100_0193))
}

const WORD: u32 = 0x5A5A_5A5A;

/// What the call gave: number, answer, sums; beside what the file has.
fn same(i: &mut Input, number: u32, answer: &[u32], sums: &[u32]) -> bool {
    let expected = (i.word(), i.words(4), i.words(sums.len()));
    expected == (number, answer.to_vec(), sums.to_vec())
}

fn stage(i: &mut Input, numbers: usize) -> bool {
    let (layout, kinds) = (i.words(numbers), i.bytes());
    let spectra: Vec<f32> = i.runs().into_iter().map(f32::from_bits).collect();
    let intensities = i.bytes();
    let l = i.words(5);
    let mut scaled = vec![f32::from_bits(WORD); l[0] as usize];
    let mut codes = vec![WORD as i32; l[1] as usize];
    let (mut factors, mut side, mut frame) = (vec![0x5A; l[2] as usize], vec![0x5A; l[3] as usize], vec![0x5A; l[4] as usize]);
    let mut answer = [WORD; 4];
    let number = raw::encode_frame(
        &layout,
        &kinds,
        &spectra,
        &intensities,
        &mut scaled,
        &mut codes,
        &mut factors,
        &mut side,
        &mut frame,
        &mut answer,
    );
    let scaled = sum(scaled.iter().flat_map(|v| v.to_bits().to_le_bytes()));
    let codes = sum(codes.iter().flat_map(|v| v.to_le_bytes()));
    same(i, number, &answer, &[scaled, codes, sum(factors), sum(side), sum(frame)])
}

fn read(i: &mut Input, numbers: usize) -> bool {
    let (layout, kinds, frame) = (i.words(numbers), i.bytes(), i.bytes());
    let l = i.words(3);
    let (mut factors, mut side) = (vec![0x5A; l[0] as usize], vec![0x5A; l[1] as usize]);
    let mut codes = vec![WORD as i32; l[2] as usize];
    let mut answer = [WORD; 4];
    let number = raw::read_frame(&layout, &kinds, &frame, &mut factors, &mut side, &mut codes, &mut answer);
    let codes = sum(codes.iter().flat_map(|v| v.to_le_bytes()));
    same(i, number, &answer, &[sum(factors), sum(side), codes])
}

fn write(i: &mut Input, numbers: usize) -> bool {
    let (layout, kinds, record, factors, side) = (i.words(numbers), i.bytes(), i.words(2), i.bytes(), i.bytes());
    let codes: Vec<i32> = i.runs().into_iter().map(|w| w as i32).collect();
    let mut frame = vec![0x5A; i.word() as usize];
    let mut answer = [WORD; 4];
    let number = raw::write_record(&layout, &kinds, &record, &factors, &side, &codes, &mut frame, &mut answer);
    same(i, number, &answer, &[sum(frame)])
}

fn replay(file: &[u8]) -> (u32, Vec<u32>) {
    let mut i = Input(file);
    assert_eq!(i.words(2), [0x5641_4348, 1], "not a file of vectors");
    let cases = i.word();
    let mut replay_next = |k: &u32| {
        let kind = i.word();
        let body = i.bytes();
        let mut b = Input(&body);
        // from 101 on the layout has its own length
        let numbers = if kind > 100 { b.word() as usize } else { 5 };
        let good = match kind {
            1 | 101 => stage(&mut b, numbers),
            2 | 102 => read(&mut b, numbers),
            3 | 103 => write(&mut b, numbers),
            4 => u32::from(raw::checksum(&b.bytes())) == b.word(),
            5 | 105 => header::replay(&mut b, numbers),
            6 => list::write(&mut b),
            7 => list::read(&mut b),
            8 => list::lookup(&mut b),
            9 => list::summary(&mut b),
            10 => wav::replay(&mut b),
            11 | 111 => stereo::replay(&mut b, numbers),
            12 | 112 => line::replay(&mut b, numbers),
            13 => header_back::replay(&mut b),
            14 | 114 => stereo_line::replay(&mut b, numbers),
            _ => panic!("case {k} is of no kind"),
        };
        good && b.0.is_empty()
    };
    let bad: Vec<u32> = (0..cases).filter(|k| !replay_next(k)).collect();
    assert!(i.0.is_empty(), "bytes past the last case");
    (cases, bad)
}

fn main() {
    let mut good = true;
    for path in std::env::args().skip(1) {
        let (cases, bad) = replay(&std::fs::read(&path).expect("a file of vectors"));
        println!("{path}: {cases} cases, {} differ {bad:?}", bad.len());
        good &= bad.is_empty();
    }
    std::process::exit(if good { 0 } else { 1 });
}
