//! Takes the front end out of the published encoder's source (compare/cridecoder): each item by its name, word for word. Nothing of it is
//! written here by hand, and nothing that is taken is kept in the repository.
use std::path::{Path, PathBuf};
use std::{env, fs};

/// A source file, line by line.
struct Source {
    name: &'static str,
    lines: Vec<String>,
}

impl Source {
    fn read(folder: &Path, name: &'static str) -> Source {
        let path = folder.join(name);
        println!("cargo:rerun-if-changed={}", path.display());
        let text = fs::read_to_string(&path).unwrap_or_else(|error| panic!("{}: {error}", path.display()));
        Source { name, lines: text.lines().map(str::to_string).collect() }
    }

    /// The first line from `after` on that begins so.
    fn find(&self, after: usize, head: &str) -> usize {
        let found = self.lines[after..].iter().position(|line| line.starts_with(head));
        after + found.unwrap_or_else(|| panic!("{} has no line that begins with: {head}", self.name))
    }

    /// From one line on to the next that begins in one of these ways.
    fn until(&self, first: usize, ends: &[&str]) -> usize {
        let found = self.lines[first..].iter().position(|line| ends.iter().any(|end| line.starts_with(end)));
        first + found.unwrap_or_else(|| panic!("{}: line {} has no end", self.name, first + 1))
    }

    fn text(&self, first: usize, end: usize) -> String {
        self.lines[first..end].iter().map(|line| format!("{line}\n")).collect()
    }

    /// An item at the margin, with the attributes before it.
    fn item(&self, head: &str) -> String {
        let is_head = |line: &&String| {
            let rest = ["pub ", "pub(crate) "].iter().find_map(|prefix| line.strip_prefix(prefix));
            rest.unwrap_or(line).starts_with(head)
        };
        let mut heads = self.lines.iter().enumerate().filter(|(_, line)| is_head(line));
        let (Some((found, _)), None) = (heads.next(), heads.next()) else {
            panic!("{} does not have exactly one item that begins with: {head}", self.name);
        };
        let mut first = found;
        while 0 < first && self.lines[first - 1].starts_with("#[") {
            first -= 1;
        }
        let is_one_line = self.lines[found].ends_with(';') || self.lines[found].ends_with('}');
        let last = if is_one_line { found } else { self.until(found, &["}", "]"]) };
        self.text(first, last + 1)
    }

    /// A method of the encoder.
    fn method(&self, name: &str) -> String {
        let of = self.find(0, "impl HcaEncoder {");
        let found = self.lines[of..].iter().position(|line| is_head_of(line, name));
        let first = of + found.unwrap_or_else(|| panic!("{} has no method {name}", self.name));
        self.text(first, self.until(first, &["    }"]) + 1)
    }

    /// The lines of a method from one that begins in this way to the next that begins in the other.
    fn part(&self, method: &str, from: &str, to: &str) -> String {
        let text = self.method(method);
        let inner = Source { name: self.name, lines: text.lines().map(str::to_string).collect() };
        let first = inner.find(1, from);
        inner.text(first, inner.until(first, &[to]))
    }
}

/// Does the line begin the method of this name?
fn is_head_of(line: &str, name: &str) -> bool {
    let rest = line.strip_prefix("    pub fn ").or_else(|| line.strip_prefix("    fn "));
    rest.and_then(|rest| rest.strip_prefix(name)).is_some_and(|rest| rest.starts_with(['(', '<']))
}

/// The errors without the derive of another crate.
fn plain_errors(text: &str) -> String {
    let lines = text.lines().filter(|line| !line.trim_start().starts_with("#[error("));
    lines.map(|line| format!("{}\n", line.replace(", Error)]", ")]").replace("#[from] ", ""))).collect()
}

/// What `encode` does before its header and for each frame before `encode_frame`, under heads of their own.
fn parts_of_encode(encoder: &Source) -> String {
    let begin = encoder.part("encode", "        if samples.is_empty()", "        self.write_header(");
    let channels = encoder.part("encode", "        let channels = ", "        let sample_frames");
    let size = encoder.part("encode", "        let frame_samples = ", "        for frame_idx");
    let data = encoder.part("encode", "            let start = ", "            self.encode_frame(");
    format!(
        "    fn begin(&mut self, samples: &[f32]) -> Result<u32, HcaEncoderError> {{\n{begin}        Ok(frame_count)\n    }}\n\
         \x20   fn frame_data(&self, samples: &[f32], frame_idx: usize) -> Vec<f32> {{\n{channels}{size}{data}            frame_data\n    }}\n"
    )
}

/// The transform once more, with its cosines from a table that its own line of the source fills: the same products, added in the same order
/// for each band, but band beside band, so that several go at a time.
fn tabulated(encoder: &Source) -> String {
    let text = encoder.item("fn mdct_transform(");
    let lines: Vec<&str> = text.lines().collect();
    let at = |head: &str| lines.iter().position(|line| line.starts_with(head)).unwrap_or_else(|| panic!("no line: {head}"));
    let (first, angle, put) =
        (at("    for k in 0.."), at("            let angle = "), at("        channel.spectra[subframe][k] = sum"));
    let shape: Vec<&str> = lines[first + 1..put].iter().map(|line| line.trim()).collect();
    let product = "sum += sample * angle.cos();";
    let expected =
        ["let mut sum = 0.0f32;", "for (n, &sample) in scratch.iter().enumerate() {", lines[angle].trim(), product, "}"];
    assert!(shape == expected && lines[put + 1] == "    }", "the transform's loops are not those that the table stands for");
    let head = lines[..first].join("\n").replace("fn mdct_transform(", "fn mdct_by_table(");
    format!(
        "fn cosine(n: usize, k: usize) -> f32 {{\n{}\n    angle.cos()\n}}\n\
         {head}\n    let sums = sums_by_table(&scratch);\n    for (k, &sum) in sums.iter().enumerate() {{\n{}\n    }}\n{}\n",
        lines[angle],
        lines[put],
        lines[put + 2..].join("\n")
    )
}

fn main() {
    let here = PathBuf::from(env::var_os("CARGO_MANIFEST_DIR").expect("cargo sets CARGO_MANIFEST_DIR"));
    let folder = here.join("../../compare/cridecoder/src/hca");
    let [encoder, decoder, tables] = ["encoder.rs", "decoder.rs", "tables.rs"].map(|name| Source::read(&folder, name));
    let mut out = String::new();
    for name in ["HCA_SUBFRAMES", "HCA_SAMPLES_PER_SUBFRAME", "HCA_SAMPLES_PER_FRAME", "HCA_MAX_CHANNELS"] {
        out += &decoder.item(&format!("const {name}: "));
    }
    for head in ["enum ChannelType {", "fn set_stereo_pair(", "fn assign_stereo_channel_types("] {
        out += &decoder.item(head);
    }
    for head in ["const fn f32_table<", "const IMDCT_WINDOW: "] {
        out += &tables.item(head);
    }
    for name in ["ENCODER_DELAY", "DEFAULT_TRACK_COUNT", "DEFAULT_CHANNEL_MAPPING", "VALID_CHANNEL_MAPPINGS"] {
        out += &encoder.item(&format!("const {name}: "));
    }
    out += &plain_errors(&encoder.item("enum HcaEncoderError {"));
    let structs = ["HcaEncoderConfig", "ChannelEncodeState", "HcaEncoder"].map(|name| format!("struct {name} {{"));
    let defaults = ["HcaEncoderConfig", "ChannelEncodeState"].map(|name| format!("impl Default for {name} {{"));
    let rest = ["impl HcaEncoderConfig {", "fn mdct_transform(", "fn ceil_div("].map(str::to_string);
    for head in structs.iter().chain(&defaults).chain(&rest) {
        out += &encoder.item(head);
    }
    out += &tabulated(&encoder);
    out += "impl HcaEncoder {\n";
    let steps = ["new", "calculate_frame_size", "calculate_band_counts", "default_channel_config", "set_channel_types"];
    for name in steps.iter().chain(&["pcm_to_float", "run_mdct"]) {
        out += &encoder.method(name);
    }
    let by_table = encoder.method("run_mdct").replace("fn run_mdct(", "fn run_mdct_by_table(");
    out += &by_table.replace("mdct_transform(", "mdct_by_table(");
    out += &parts_of_encode(&encoder);
    out += "}\n";
    let to = PathBuf::from(env::var_os("OUT_DIR").expect("cargo sets OUT_DIR")).join("front.rs");
    fs::write(&to, out).unwrap_or_else(|error| panic!("{}: {error}", to.display()));
}
