//! xorshift64*, started by splitmix64.

pub struct Rng {
    state: u64,
    /// what the case's layout has behind its fifth number
    pub behind: Vec<u32>,
}

impl Rng {
    /// The generator of one case.
    pub fn of_case(seed: u64, index: u64) -> Self {
        let mut z = seed.wrapping_mul(0x9E37_79B9_7F4A_7C15).wrapping_add(index.wrapping_mul(0xD1B5_4A32_D192_ED03));
        z = (z ^ (z >> 30)).wrapping_mul(0xBF58_476D_1CE4_E5B9);
        z = (z ^ (z >> 27)).wrapping_mul(0x94D0_49BB_1331_11EB);
        Rng { state: (z ^ (z >> 31)) | 1, behind: Vec::new() }
    }

    /// The generator of the same case under a pair of limits.
    pub fn under(self, behind: Vec<u32>) -> Self {
        Rng { behind, ..self }
    }

    /// A layout as far as its frame size gets the numbers behind it.
    pub fn complete(&self, layout: &mut Vec<u32>) {
        if layout.len() == 5 {
            layout.extend(&self.behind);
        }
    }

    pub fn word(&mut self) -> u64 {
        self.state ^= self.state << 13;
        self.state ^= self.state >> 7;
        self.state ^= self.state << 17;
        self.state.wrapping_mul(0x2545_F491_4F6C_DD1D) >> 11
    }

    /// Below k.
    pub fn below(&mut self, k: usize) -> usize {
        (self.word() % k as u64) as usize
    }

    /// From a to b, both included.
    pub fn range(&mut self, a: i64, b: i64) -> i64 {
        a + (self.word() % (b - a + 1) as u64) as i64
    }

    pub fn pick<T: Copy>(&mut self, from: &[T]) -> T {
        from[self.below(from.len())]
    }

    /// In [0, 1).
    pub fn unit(&mut self) -> f64 {
        (self.word() & ((1 << 40) - 1)) as f64 / (1u64 << 40) as f64
    }

    /// About normal, mean 0, deviation 1.
    pub fn normal(&mut self) -> f64 {
        ((0..6).map(|_| self.unit()).sum::<f64>() - 3.0) / 0.5f64.sqrt()
    }

    pub fn chance(&mut self, p: f64) -> bool {
        self.unit() < p
    }

    pub fn signed(&mut self, v: f32) -> f32 {
        if self.below(2) == 0 {
            v
        } else {
            -v
        }
    }
}

/// The float d steps away in magnitude, finite, with the sign of v.
pub fn ulps(v: f32, d: i64) -> f32 {
    let bits = i64::from(v.abs().to_bits()) + d;
    f32::from_bits(bits.clamp(0, 0x7F7F_FFFF) as u32).copysign(v)
}
