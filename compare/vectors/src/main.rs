//! Writes the fixed vectors of VECTORS.md: `vectors FOLDER`. With `--check FOLDER`
//! it writes nothing and says whether the files there are these.
mod header;
mod header_back;
mod limits;
mod line;
mod list;
mod modes;
mod stereo;
mod stereo_line;
mod wav;

use gen::records::{calls, kind_of, Call, ReadCall, WriteCall, KINDS};
use gen::speech;
use published::driver::{Lent, StageCall};
use published::limits::stage;
use std::path::Path;

const BEFORE: u8 = 0x5A;
const MAGIC: u32 = 0x5641_4348; // "HCAV"

struct File {
    cases: u32,
    bytes: Vec<u8>,
    index: String,
}

struct Body(Vec<u8>);

impl Body {
    fn word(&mut self, v: u32) {
        self.0.extend(v.to_le_bytes());
    }
    fn words(&mut self, v: &[u32]) {
        v.iter().for_each(|&w| self.word(w));
    }
    /// A layout of five numbers as it is; any other one with its length, and in a kind of its own.
    fn layout(&mut self, numbers: &[u32], kind: u32) -> u32 {
        let is_long = numbers.len() != 5;
        if is_long {
            self.word(numbers.len() as u32);
        }
        self.words(numbers);
        kind + if is_long { 100 } else { 0 }
    }
    fn bytes(&mut self, v: &[u8]) {
        self.word(v.len() as u32);
        self.0.extend(v);
    }
    fn longs(&mut self, v: &[u64]) {
        self.word(v.len() as u32);
        v.iter().for_each(|n| self.0.extend(n.to_le_bytes()));
    }
    /// Runs of words that are not 0; a gap of up to two zeros stays inside a run.
    fn runs(&mut self, v: &[u32]) {
        let mut runs: Vec<(usize, usize)> = Vec::new();
        for i in (0..v.len()).filter(|&i| v[i] != 0) {
            match runs.last_mut() {
                Some((_, end)) if i <= *end + 2 => *end = i + 1,
                _ => runs.push((i, i + 1)),
            }
        }
        self.word(v.len() as u32);
        self.word(runs.len() as u32);
        for (start, end) in runs {
            self.word(start as u32);
            self.word((end - start) as u32);
            self.words(&v[start..end]);
        }
    }
}

/// FNV-1a, 32 bits, over bytes.
fn sum(bytes: impl IntoIterator<Item = u8>) -> u32 {
    bytes.into_iter().fold(0x811C_9DC5, |h, b| (h ^ u32::from(b)).wrapping_mul(0x0100_0193))
}

fn sum_words(words: impl IntoIterator<Item = u32>) -> u32 {
    sum(words.into_iter().flat_map(u32::to_le_bytes))
}

impl File {
    fn new() -> Self {
        File { cases: 0, bytes: Vec::new(), index: String::new() }
    }

    fn add(&mut self, kind: u32, name: &str, number: u32, answer: &[u32], body: Body) {
        let outcome = match number {
            0 => format!("delivered {:?}", &answer[..if [2, 3].contains(&(kind % 100)) { 3 } else { answer.len() }]),
            n => format!("refusal {n}, {} beside it", answer[0]),
        };
        self.add_case(kind, name, &outcome, body);
    }

    fn add_case(&mut self, kind: u32, name: &str, outcome: &str, body: Body) {
        self.index += &format!("{:>4}  kind {kind}  {name}: {outcome}\n", self.cases);
        self.cases += 1;
        self.bytes.extend(kind.to_le_bytes());
        self.bytes.extend((body.0.len() as u32).to_le_bytes());
        self.bytes.extend(body.0);
    }

    fn add_stage(&mut self, name: &str, call: &StageCall) -> (u32, Lent) {
        let l = &call.lengths;
        let word = u32::from_le_bytes([BEFORE; 4]);
        let mut out = Lent {
            scaled: vec![f32::from_bits(word); l[0]],
            codes: vec![word as i32; l[1]],
            factors: vec![BEFORE; l[2]],
            side: vec![BEFORE; l[3]],
            frame: vec![BEFORE; l[4]],
            answer: vec![word; 4],
        };
        let (number, _) = stage(call, &mut out);
        let mut b = Body(Vec::new());
        let kind = b.layout(&call.layout, 1);
        b.bytes(&call.kinds);
        b.runs(&call.spectra.iter().map(|v| v.to_bits()).collect::<Vec<_>>());
        b.bytes(&call.intensities);
        b.words(&l[..5].iter().map(|&n| n as u32).collect::<Vec<_>>());
        b.word(number);
        b.words(&out.answer);
        b.word(sum_words(out.scaled.iter().map(|v| v.to_bits())));
        b.word(sum_words(out.codes.iter().map(|&v| v as u32)));
        b.word(sum(out.factors.iter().copied()));
        b.word(sum(out.side.iter().copied()));
        b.word(sum(out.frame.iter().copied()));
        self.add(kind, name, number, &out.answer, b);
        (number, out)
    }

    fn add_read(&mut self, name: &str, call: &ReadCall) {
        let l = &call.lengths;
        let word = u32::from_le_bytes([BEFORE; 4]);
        let (mut factors, mut side) = (vec![BEFORE; l[0]], vec![BEFORE; l[1]]);
        let mut codes = vec![word as i32; l[2]];
        let mut answer = vec![word; 4];
        let number =
            hca_model::read_frame(&call.layout, &call.kinds, &call.frame, &mut factors, &mut side, &mut codes, &mut answer);
        let mut b = Body(Vec::new());
        let kind = b.layout(&call.layout, 2);
        b.bytes(&call.kinds);
        b.bytes(&call.frame);
        b.words(&l[..3].iter().map(|&n| n as u32).collect::<Vec<_>>());
        b.word(number);
        b.words(&answer);
        b.word(sum(factors));
        b.word(sum(side));
        b.word(sum_words(codes.iter().map(|&v| v as u32)));
        self.add(kind, name, number, &answer, b);
    }

    fn add_write(&mut self, name: &str, call: &WriteCall) {
        let word = u32::from_le_bytes([BEFORE; 4]);
        let mut frame = vec![BEFORE; call.lengths[0]];
        let mut answer = vec![word; 4];
        let number = hca_model::write_record(
            &call.layout,
            &call.kinds,
            &call.record,
            &call.factors,
            &call.side,
            &call.codes,
            &mut frame,
            &mut answer,
        );
        let mut b = Body(Vec::new());
        let kind = b.layout(&call.layout, 3);
        b.bytes(&call.kinds);
        b.words(&call.record[..2]);
        b.bytes(&call.factors);
        b.bytes(&call.side);
        b.runs(&call.codes.iter().map(|&v| v as u32).collect::<Vec<_>>());
        b.word(call.lengths[0] as u32);
        b.word(number);
        b.words(&answer);
        b.word(sum(frame));
        self.add(kind, name, number, &answer, b);
    }

    fn add_check(&mut self, name: &str, bytes: &[u8]) {
        let check = u32::from(hca_model::checksum(bytes));
        let mut b = Body(Vec::new());
        b.bytes(bytes);
        b.word(check);
        self.add(4, name, 0, &[check], b);
    }

    fn finish(&self) -> Vec<u8> {
        let mut all = Vec::new();
        for w in [MAGIC, 1, self.cases] {
            all.extend(w.to_le_bytes());
        }
        all.extend(&self.bytes);
        all
    }
}

fn read_of(call: &StageCall, out: &Lent) -> ReadCall {
    let n = call.layout[0] as usize;
    ReadCall {
        layout: call.layout.clone(),
        kinds: call.kinds.clone(),
        frame: out.frame.clone(),
        lengths: [n * 128, n * 8, n * 1024, 4],
        pattern: 0,
    }
}

fn write_of(call: &StageCall, out: &Lent) -> WriteCall {
    WriteCall {
        layout: call.layout.clone(),
        kinds: call.kinds.clone(),
        record: out.answer[..2].to_vec(),
        factors: out.factors.clone(),
        side: out.side.clone(),
        codes: out.codes.clone(),
        lengths: [call.layout[4] as usize, 4],
        pattern: 0,
    }
}

/// The corners and some speech, through the stage; delivered frames go on to the reader and the writer.
fn stage_file() -> File {
    let mut f = File::new();
    let mut list = gen::corners::all();
    list.push(("speech, mono, 64 kbit/s", speech::frames(1, 64_000, 12).swap_remove(9)));
    list.push(("speech, stereo, 64 kbit/s", speech::frames(2, 64_000, 12).swap_remove(10)));
    for (name, call) in &list {
        let (number, out) = f.add_stage(name, call);
        if number == 0 {
            f.add_read(&format!("{name}, read back"), &read_of(call, &out));
            if call.layout[0] < 6 {
                f.add_write(&format!("{name}, written back"), &write_of(call, &out));
            }
        }
    }
    f
}

/// Small reader, writer and checksum cases: some of each kind and each refusal number.
fn record_file() -> File {
    let mut f = File::new();
    let mut seen = std::collections::BTreeMap::new();
    for k in 0..4000 {
        for call in calls(4, k) {
            let kind = KINDS[kind_of(k).0].0;
            let number = match &call {
                Call::Read(c) if c.frame.len() <= 80 && c.layout.len() == 5 && c.lengths[3] == 4 => {
                    let n = c.lengths;
                    let (mut a, mut b, mut d, mut e) = (vec![0; n[0]], vec![0; n[1]], vec![0; n[2]], vec![0; 4]);
                    hca_model::read_frame(&c.layout, &c.kinds, &c.frame, &mut a, &mut b, &mut d, &mut e)
                }
                Call::Write(c)
                    if c.lengths[0] <= 60
                        && c.layout.len() == 5
                        && c.lengths[1] == 4
                        && c.record.len() >= 2
                        && c.layout[0] < 3 =>
                {
                    let (mut a, mut e) = (vec![0; c.lengths[0]], vec![0; 4]);
                    100 + hca_model::write_record(&c.layout, &c.kinds, &c.record, &c.factors, &c.side, &c.codes, &mut a, &mut e)
                }
                Call::Check(b) if b.len() <= 200 => 200,
                _ => continue,
            };
            let n = seen.entry((kind, number)).or_insert(0);
            *n += 1;
            if *n > 3 {
                continue;
            }
            match &call {
                Call::Read(c) => f.add_read(kind, c),
                Call::Write(c) => f.add_write(kind, c),
                Call::Check(b) => f.add_check(kind, b),
            }
        }
    }
    f
}

fn main() {
    let args: Vec<String> = std::env::args().skip(1).collect();
    let (check, folder) = match args.iter().map(String::as_str).collect::<Vec<_>>()[..] {
        ["--check", folder] => (true, folder.to_string()),
        [folder] if !folder.starts_with('-') => (false, folder.to_string()),
        _ => {
            eprintln!("usage: vectors [--check] FOLDER");
            std::process::exit(2);
        }
    };
    let mut good = true;
    let mut all = 0;
    let files = [
        ("stage", stage_file()),
        ("records", record_file()),
        ("header", header::file()),
        ("header-back", header_back::file()),
        ("list", list::file()),
        ("wav", wav::file()),
        ("stereo", stereo::file()),
        ("line", line::file()),
        ("stereo-line", stereo_line::file()),
        ("limits", limits::file()),
        ("modes", modes::file()),
    ];
    for (name, file) in files {
        let bytes = file.finish();
        all += bytes.len();
        for (name, bytes) in [(format!("{name}.vec"), bytes), (format!("{name}.txt"), file.index.into_bytes())] {
            let path = Path::new(&folder).join(&name);
            if check {
                let same = std::fs::read(&path).is_ok_and(|b| b == bytes);
                println!("{name}: {}", if same { "as it should be" } else { "DIFFERS" });
                good &= same;
            } else {
                std::fs::create_dir_all(&folder).expect("the folder can be made");
                std::fs::write(&path, &bytes).expect("the file can be written");
                println!("{name}: {} bytes", bytes.len());
            }
        }
        println!("    {} cases", file.cases);
    }
    assert!(all <= 300_000, "the vectors are to stay under 300 KB, not {all}");
    std::process::exit(if good { 0 } else { 1 });
}
