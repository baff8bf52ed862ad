//! A digest of every state of a replay: two programs that agree on it agree on every state.
use desk::{Bench, Ending, Refusal};

// FNV-1a, 64 bits.
struct Digest(u64);

impl Digest {
    fn new() -> Digest {
        Digest(14695981039346656037)
    }

    fn bytes(&mut self, bytes: &[u8]) {
        for byte in bytes {
            self.0 = (self.0 ^ u64::from(*byte)).wrapping_mul(1099511628211);
        }
    }

    // Takes in a state: its tick, and what each record of the list has left.
    fn state(&mut self, bench: &Bench) {
        self.bytes(&bench.now().to_le_bytes());
        let left = bench.left().iter();
        left.for_each(|left| self.bytes(&left.to_le_bytes()));
    }
}

/// The digest of the states at ticks 0 to the end's tick, and the ending. The state with which the bench stops has the
/// tick and the amounts of the one before it, and is not taken in again.
pub fn trace(table: &[u8], list: &[u8]) -> Result<(u64, Ending), Refusal> {
    let bench = desk::load(table, list)?;
    let mut digest = Digest::new();
    digest.state(&bench);
    let (_, ending) = bench.run(|_, after| digest.state(after));
    Ok((digest.0, ending))
}

#[cfg(test)]
mod tests {
    use super::*;

    #[test]
    fn the_digest_is_fnv_1a() {
        let mut digest = Digest::new();
        assert_eq!(digest.0, 0xcbf29ce484222325);
        digest.bytes(b"foobar");
        assert_eq!(digest.0, 0x85944171f73967e8, "its published digest");
    }
}
