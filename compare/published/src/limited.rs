//! The drivers over the second copy of the Rust; they are called by way of `limits`.
pub mod hca {
    pub use crate::hca::limited as encoder;
}
// the same lines over the other encoder: that is what they are here for
#[allow(clippy::duplicate_mod)]
#[path = "driver.rs"]
pub mod driver;
