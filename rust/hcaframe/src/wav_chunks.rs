//! What a WAV file says of its samples beside what the library reads: how many bytes it claims, and of which form.

/// The data chunk of a WAV file, with what the format chunk before it says.
#[derive(Debug, PartialEq, Eq)]
pub struct Data {
    /// The bytes that the chunk claims.
    pub claimed: u64,
    /// Those of them that the file has.
    pub present: u64,
    /// Does the format say integers of 32 bits?
    pub has_wide_integers: bool,
}

/// The format tag of integers, and the one that tells the form in its first bytes of a longer chunk.
const INTEGERS: u32 = 1;
const EXTENSIBLE: u32 = 0xFFFE;

/// A number that stands low byte first.
fn low(bytes: &[u8]) -> u32 {
    bytes.iter().rev().fold(0, |n, &b| n << 8 | u32::from(b))
}

/// Walks the chunks as the library does; none where it finds no data.
pub fn data_of(wav: &[u8]) -> Option<Data> {
    let mut has_wide_integers = false;
    let mut rest = wav.get(12..)?;
    while let (Some(name), Some(size)) = (rest.get(..4), rest.get(4..8)) {
        let (size, body) = (low(size) as usize, &rest[8..]);
        if name == b"data" {
            let present = size.min(body.len()) as u64;
            return Some(Data { claimed: size as u64, present, has_wide_integers });
        }
        let chunk = body.get(..size)?;
        if name == b"fmt " && 16 <= size {
            has_wide_integers = says_wide_integers(chunk);
        }
        // an odd chunk has a byte behind it
        rest = body.get(size + size % 2..)?;
    }
    None
}

fn says_wide_integers(chunk: &[u8]) -> bool {
    let tag = match low(&chunk[..2]) {
        EXTENSIBLE => chunk.get(24..26).map_or(EXTENSIBLE, low),
        tag => tag,
    };
    tag == INTEGERS && low(&chunk[14..16]) == 32
}

#[cfg(test)]
mod tests {
    use super::*;

    fn chunk(name: &[u8; 4], size: u32, body: &[u8]) -> Vec<u8> {
        [name, &size.to_le_bytes()[..], body].concat()
    }

    fn format(tag: u16, depth: u8, more: &[u8]) -> Vec<u8> {
        let body = [&tag.to_le_bytes()[..], &[1, 0, 0x40, 0x1F, 0, 0, 0, 0, 0, 0, 0, 0, depth, 0], more].concat();
        chunk(b"fmt ", body.len() as u32, &body)
    }

    fn file(chunks: &[Vec<u8>]) -> Vec<u8> {
        [&b"RIFF\0\0\0\0WAVE"[..], &chunks.concat()].concat()
    }

    fn found(claimed: u64, present: u64, has_wide_integers: bool) -> Option<Data> {
        Some(Data { claimed, present, has_wide_integers })
    }

    #[test]
    fn claims_and_forms() {
        let odd = chunk(b"LIST", 3, &[1, 2, 3, 0]);
        assert_eq!(data_of(&file(&[odd, format(1, 24, &[]), chunk(b"data", 10, &[0; 10])])), found(10, 10, false));
        assert_eq!(data_of(&file(&[format(1, 32, &[]), chunk(b"data", 100, &[0; 10])])), found(100, 10, true));
        assert_eq!(data_of(&file(&[format(3, 32, &[]), chunk(b"data", 4, &[0; 9])])), found(4, 4, false));
        let long = |tag: u8| [&[22, 0, 32, 0, 0, 0, 0, 0, tag, 0][..], &[0; 14]].concat();
        assert_eq!(data_of(&file(&[format(0xFFFE, 32, &long(1)), chunk(b"data", 4, &[0; 4])])), found(4, 4, true));
        assert_eq!(data_of(&file(&[format(0xFFFE, 32, &long(3)), chunk(b"data", 4, &[0; 4])])), found(4, 4, false));
        assert_eq!(data_of(&file(&[format(1, 32, &[])])), None);
        assert_eq!(data_of(&file(&[chunk(b"LIST", 9, &[0; 8])])), None);
    }
}
