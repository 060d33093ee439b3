//! Cases for the comparing programs. A case is a pure function of seed and
//! index, so that one number names it.
pub mod bands;
pub mod convert;
pub mod corners;
pub mod header;
pub mod header_back;
pub mod limits;
pub mod line;
pub mod list;
pub mod records;
pub mod rng;
pub mod speech;
pub mod stage;
pub mod stereo;
pub mod stereo_line;
pub mod wav;

/// The kind of a case and its number among its kind. The shares, which add up to
/// 100, are spread, so that a few cases show every kind.
fn share_of(kinds: &[(&str, u64)], index: u64) -> (usize, u64) {
    let mut slot = index % 100 * 37 % 100;
    for (k, &(_, share)) in kinds.iter().enumerate() {
        if slot < share {
            return (k, index / 100 * share + slot);
        }
        slot -= share;
    }
    unreachable!("the shares add up to 100")
}
