//! Random numbers from a seed (splitmix64), and random catalogs with a capacity for them and a rule.

use crate::plain::{LOAD_FIRST, WRITE_FIRST};

pub struct Random(pub u64);

impl Random {
    pub fn next(&mut self) -> u64 {
        self.0 = self.0.wrapping_add(0x9E37_79B9_7F4A_7C15);
        let mut z = self.0;
        z = (z ^ (z >> 30)).wrapping_mul(0xBF58_476D_1CE4_E5B9);
        z = (z ^ (z >> 27)).wrapping_mul(0x94D0_49BB_1331_11EB);
        z ^ (z >> 31)
    }

    /// A number below `end`.
    pub fn below(&mut self, end: u64) -> u64 {
        self.next() % end
    }

    /// A number from `low` to `high`, both included.
    pub fn between(&mut self, low: u64, high: u64) -> u64 {
        low + self.below(high - low + 1)
    }

    /// True once in `n` times.
    pub fn one_in(&mut self, n: u64) -> bool {
        self.below(n) == 0
    }

    pub fn pick<T: Copy>(&mut self, from: &[T]) -> T {
        from[self.below(from.len() as u64) as usize]
    }
}

/// A cost: small, so that ranks are often equal, or at the ends of its range, or any.
fn cost(r: &mut Random, style: u64) -> u16 {
    match style {
        0 => r.below(4) as u16,
        1 => r.pick(&[0, 1, 65_534, 65_535]),
        _ => r.next() as u16,
    }
}

/// A catalog of `n` items, 5 bytes each.
pub fn catalog(r: &mut Random, n: usize) -> Vec<u8> {
    let style = r.below(3);
    let most = r.pick(&[1, 2, 4, 16]);
    let mut bytes = Vec::with_capacity(5 * n);
    for _ in 0..n {
        bytes.push(r.between(1, most) as u8);
        bytes.extend(cost(r, style).to_le_bytes());
        bytes.extend(cost(r, style).to_le_bytes());
    }
    bytes
}

/// How many items a catalog has: mostly few, at times all 256.
pub fn some_n(r: &mut Random) -> usize {
    let few = r.below(12) as usize;
    let any = r.below(257) as usize;
    r.pick(&[few, few, few, 30, any, 256])
}

/// A rule of deduction: one of the two.
pub fn some_rule(r: &mut Random) -> u32 {
    r.pick(&[WRITE_FIRST, LOAD_FIRST])
}

/// A number that names no rule: just past them, one of them with a bit more, or any.
pub fn odd_rule(r: &mut Random) -> u32 {
    let bit = 1 << r.between(1, 31);
    let any = r.next() as u32;
    r.pick(&[2, 3, bit, bit | 1, u32::MAX, any.max(2)])
}

/// A capacity for a catalog: from one item's blocks to all of them.
pub fn some_k(r: &mut Random, catalog: &[u8]) -> u32 {
    let all: u64 = catalog.iter().step_by(5).map(|&b| u64::from(b)).sum();
    let part = r.between(1, all.clamp(1, 4096)) as u32;
    r.pick(&[part, part, part.min(16), all.clamp(1, 4096) as u32, 4096])
}
