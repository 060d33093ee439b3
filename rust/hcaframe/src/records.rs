//! Records as a file has them: level and boundary, factors from byte 8 on, then side values, then codes; numbers low byte first.
use hca_frame::{Layout, Record};

/// A record's bytes.
pub fn size(layout: &Layout) -> usize {
    8 + layout.channels() * 4232
}

/// Puts the record behind what the bytes hold already.
pub fn put(record: &Record, bytes: &mut Vec<u8>) {
    bytes.extend_from_slice(&record.level.to_le_bytes());
    bytes.extend_from_slice(&record.boundary.to_le_bytes());
    bytes.extend_from_slice(&record.factors);
    bytes.extend_from_slice(&record.side);
    bytes.extend(record.codes.iter().flat_map(|code| code.to_le_bytes()));
}

/// Takes a record from as many bytes as it has.
pub fn take(bytes: &[u8], record: &mut Record) {
    let number = |at: usize| u32::from_le_bytes([bytes[at], bytes[at + 1], bytes[at + 2], bytes[at + 3]]);
    let (factors, side) = (record.factors.len(), record.side.len());
    record.level = number(0);
    record.boundary = number(4);
    record.factors.copy_from_slice(&bytes[8..8 + factors]);
    record.side.copy_from_slice(&bytes[8 + factors..8 + factors + side]);
    for (code, four) in record.codes.iter_mut().zip(bytes[8 + factors + side..].chunks_exact(4)) {
        *code = i32::from_le_bytes([four[0], four[1], four[2], four[3]]);
    }
}

#[cfg(test)]
mod tests {
    use super::*;
    use hca_frame::Kind;

    #[test]
    fn there_and_back() {
        let pair = [Kind::StereoPrimary, Kind::StereoSecondary];
        let layout = Layout::builder().channels(&pair).bands(1, 1, 3).frame_size(300).build().unwrap();
        let mut record = Record::silent(&layout);
        (record.level, record.boundary) = (511, 127);
        (record.factors[255], record.side[15], record.codes[0], record.codes[2047]) = (63, 15, -7, 8191);
        let mut bytes = Vec::new();
        put(&record, &mut bytes);
        assert_eq!(bytes.len(), size(&layout));
        assert_eq!(&bytes[..8], &[0xFF, 1, 0, 0, 127, 0, 0, 0]);
        let mut other = Record::silent(&layout);
        take(&bytes, &mut other);
        assert_eq!(other, record);
    }
}
