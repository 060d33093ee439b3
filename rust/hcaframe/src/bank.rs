//! A bank: every take in a folder, its words, the work on all processors and what is told of it.
pub mod leftovers;
pub mod table;
pub mod takes;
pub mod turns;
pub mod words;
pub mod work;
