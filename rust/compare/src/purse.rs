//! How much time a case may spend: a question is asked of both programs or of neither.

const MILLISECOND: u64 = 1_000_000;

pub struct Purse {
    /// What one question may cost.
    pub each: u64,
    left: u64,
}

impl Purse {
    /// One case in 503 may ask what takes seconds, one in 13 what takes a replay to the last tick. Neither
    /// number shares a factor with that of the kinds of tables, so that every kind has its turn.
    pub fn of(case: u64) -> Purse {
        let (each, left) = match (case % 503, case % 13) {
            (502, _) => (8_000, 12_000),
            (_, 12) => (200, 400),
            _ => (20, 60),
        };
        Purse {
            each: each * MILLISECOND,
            left: left * MILLISECOND,
        }
    }

    /// Whether a question of this cost can be asked; if so it is paid.
    pub fn pays(&mut self, cost: u64) -> bool {
        let can = cost <= self.each.min(self.left);
        if can {
            self.left -= cost;
        }
        can
    }
}
