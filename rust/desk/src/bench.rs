//! The replay bench, loaded with a list and stepped tick by tick.
use crate::answers::Ending;
use crate::{flat, raw};

/// The bench before a tick. It comes from `load`, so it holds a legal list.
#[derive(Debug, Clone, Copy, PartialEq, Eq)]
pub struct Bench {
    records: usize,
    state: raw::State,
}

impl Bench {
    pub(crate) fn of(said: &raw::Loaded) -> Bench {
        Bench {
            records: said.records,
            state: said.state,
        }
    }

    /// The bench after one tick. One that has stopped comes back unchanged.
    #[must_use]
    pub fn tick(self) -> Bench {
        Bench {
            state: flat::tick(self.state),
            ..self
        }
    }

    /// The tick that comes next, or at which the bench has stopped.
    pub fn now(&self) -> u32 {
        self.state.tick
    }

    /// How the bench ended; none while it runs.
    pub fn ending(&self) -> Option<Ending> {
        let (tick, record) = (self.state.tick, self.state.index);
        match self.state.outcome {
            raw::RUNNING => None,
            raw::MISSED => Some(Ending::Missed { tick, record }),
            raw::ALL_MET => Some(Ending::AllMet { tick }),
            other => unreachable!("a loaded bench has three outcomes, and {other} is none of them"),
        }
    }

    /// What each request has left, in the list's order.
    pub fn left(&self) -> &[u32] {
        &self.state.left[..self.records]
    }

    /// When each request is due, in the list's order.
    pub fn due(&self) -> &[u32] {
        &self.state.due[..self.records]
    }

    /// Runs to the end, and hands back the bench that has stopped and how it ended. `each` is shown every tick that
    /// goes on: the bench before it and after.
    pub fn run(self, mut each: impl FnMut(&Bench, &Bench)) -> (Bench, Ending) {
        let mut now = self;
        loop {
            let next = now.tick();
            if let Some(ending) = next.ending() {
                return (next, ending);
            }
            // A loaded bench ends by the last tick; a library that stands still would be waited for without end.
            assert!(
                next.now() > now.now(),
                "the bench stood still at tick {}",
                now.now()
            );
            each(&now, &next);
            now = next;
        }
    }
}
