//! Which pairs of limits a run has met.
use crate::Options;
use gen::limits::{pair, place, PAIRS};
use published::limits::{mode_fits, pair_fits, pair_of};
use std::sync::Mutex;

/// Of each right pair the calls that were delivered under it, and the calls with a wrong one.
#[derive(Default)]
pub struct Met(Mutex<(Vec<u64>, u64)>);

impl Met {
    /// One more call; says what is wrong with its number by the pair and the mode alone.
    pub fn note(&self, layout: &[u32], number: u32) -> Option<String> {
        let mut met = self.0.lock().unwrap();
        met.0.resize(PAIRS as usize, 0);
        if layout.len() < 5 {
            return None;
        }
        if !pair_fits(layout) {
            met.1 += 1;
            return (number != 1).then(|| format!("  a wrong pair: expected refusal 1, got {number}\n"));
        }
        if !mode_fits(layout) {
            return (number != 1).then(|| format!("  a wrong mode: expected refusal 1, got {number}\n"));
        }
        if number == 0 {
            met.0[place(pair_of(layout))] += 1;
        }
        None
    }

    /// A run with pairs has to deliver under every one of them, and to meet wrong ones.
    pub fn all(&self, o: &Options) -> bool {
        if !o.pairs || o.only.is_some() || o.cases < 3_000 {
            return true;
        }
        let met = self.0.lock().unwrap();
        let missing: Vec<_> = (0..PAIRS).filter(|&nth| met.0[nth as usize] == 0).map(pair).collect();
        let good = missing.is_empty() && met.1 > 0;
        let (least, most) = (met.0.iter().min().unwrap_or(&0), met.0.iter().max().unwrap_or(&0));
        match good {
            true => println!("{PAIRS} pairs: {least} to {most} calls delivered under each; {} calls with a wrong pair", met.1),
            false => println!("pairs NOT met: {missing:?}; {} calls with a wrong pair", met.1),
        }
        good
    }
}
