//! Random numbers from a seed, the same on every machine: splitmix64.

/// The stream of numbers of one case.
pub struct Rng(u64);

// One step of splitmix64's mixing, so that neighbouring seeds and cases have nothing in common.
fn mix(x: u64) -> u64 {
    let x = (x ^ (x >> 30)).wrapping_mul(0xbf58_476d_1ce4_e5b9);
    let x = (x ^ (x >> 27)).wrapping_mul(0x94d0_49bb_1331_11eb);
    x ^ (x >> 31)
}

impl Rng {
    /// The stream of a case of a seed: it depends on nothing else, so that a case can be repeated alone.
    pub fn new(seed: u64, case: u64) -> Rng {
        Rng(mix(seed).wrapping_add(mix(case.wrapping_add(0x9e37_79b9_7f4a_7c15))))
    }

    pub fn next(&mut self) -> u64 {
        self.0 = self.0.wrapping_add(0x9e37_79b9_7f4a_7c15);
        mix(self.0)
    }

    /// 0 to n - 1; 0 where n is 0.
    pub fn below(&mut self, n: u64) -> u64 {
        self.next().checked_rem(n).unwrap_or(0)
    }

    /// a to b, both of them met.
    pub fn between(&mut self, a: u64, b: u64) -> u64 {
        a + self.below((b - a).wrapping_add(1))
    }

    /// True so many times in a hundred.
    pub fn chance(&mut self, percent: u64) -> bool {
        self.below(100) < percent
    }

    pub fn pick<A: Copy>(&mut self, from: &[A]) -> A {
        from[self.below(from.len() as u64) as usize]
    }

    pub fn bytes(&mut self, n: usize) -> Vec<u8> {
        (0..n).map(|_| self.next() as u8).collect()
    }
}

#[cfg(test)]
mod tests {
    use super::Rng;

    #[test]
    fn a_case_repeats_and_its_neighbours_differ() {
        let first = |seed, case| Rng::new(seed, case).bytes(16);
        assert_eq!(first(1, 7), first(1, 7));
        assert_ne!(first(1, 7), first(1, 8));
        assert_ne!(first(1, 7), first(2, 7));
    }

    #[test]
    fn both_ends_are_met() {
        let mut rng = Rng::new(1, 0);
        let met: Vec<u64> = (0..200).map(|_| rng.between(3, 5)).collect();
        assert!((3..=5).all(|n| met.contains(&n)) && met.iter().all(|n| (3..=5).contains(n)));
    }
}
