//! The published Rust (`hca`, made by import.sh) and drivers over its functions.
pub mod call;
pub mod driver;
pub mod hca;
pub mod header;
pub mod limited;
pub mod limits;
pub mod line;
pub mod stereo;
pub mod wav;
