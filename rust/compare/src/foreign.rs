//! Ticks of states that no load gives: any outcome number, any tick, any numbers in the slots.
use crate::ask::{Ask, Same};
use crate::bench::same_state;
use crate::counts::Section;
use crate::rng::Rng;
use crate::states::{flat_state, held, BLANK};
use desk::raw::{State, RUNNING};
use desk::{LAST_ARRIVAL, LAST_TICK, MOST_REQUESTS};

// A number near another one, or at an end of what 32 bits can be.
fn near(rng: &mut Rng, tick: u32) -> u32 {
    let any = rng.next() as u32;
    rng.pick(&[
        0,
        1,
        tick.wrapping_sub(1),
        tick,
        tick.wrapping_add(1),
        tick.wrapping_add(5),
        u32::MAX,
        any,
    ])
}

// Without a miss the tick serves a request: in most states no deadline is due.
fn deadline(rng: &mut Rng, tick: u32, calm: bool) -> u32 {
    if calm {
        tick.saturating_add(rng.between(1, 4) as u32)
    } else {
        near(rng, tick)
    }
}

// A state with its outcome and tick, and nothing in its slots.
fn blank(rng: &mut Rng) -> State {
    let any = rng.next() as u32;
    let tick = rng.pick(&[
        0,
        1,
        70,
        LAST_ARRIVAL,
        LAST_TICK - 1,
        LAST_TICK,
        LAST_TICK + 1,
        LAST_TICK + 2,
        u32::MAX,
        any,
    ]);
    let outcome = if rng.chance(75) {
        RUNNING
    } else {
        rng.pick(&[1, 2, 3, 4, 128, 255, any as u8])
    };
    let index = rng.pick(&[0, 0, 5, MOST_REQUESTS - 1, MOST_REQUESTS, usize::MAX]);
    State {
        tick,
        outcome,
        index,
        ..BLANK
    }
}

fn state(rng: &mut Rng) -> State {
    let mut s = blank(rng);
    let (calm, filled, high) = (
        rng.chance(70),
        rng.pick(&[0, 1, 10, 60, 100]),
        rng.pick(&[1, 3, 255]),
    );
    for i in 0..MOST_REQUESTS {
        if rng.chance(filled) {
            s.left[i] = rng.pick(&[0, 1, 2, 7, u32::MAX]);
            s.due[i] = deadline(rng, s.tick, calm);
            s.arrive[i] = near(rng, s.tick);
            s.release[i] = near(rng, s.tick);
            s.task[i] = rng.between(0, high) as u8;
        }
    }
    s
}

// What the second program makes of a state. It knows no outcome's number and no index of a bench that runs: a state
// that it hands back as it was is the same in every field.
fn ticked(before: &State) -> State {
    let Some(held) = held(before) else {
        return *before;
    };
    let after = second::tick(held.clone());
    if after == held {
        *before
    } else {
        flat_state(&after)
    }
}

/// Some ticks of a random state. A bench that has stopped, by whatever number, comes back as it is.
pub fn ticks(ask: &mut Ask) -> Same<()> {
    let mut one = state(&mut ask.rng);
    for _ in 0..3 {
        let before = one;
        one = ask.first.tick(before);
        let two = ticked(&before);
        same_state(ask, &before, &one, &two)?;
        if before.outcome != RUNNING {
            same_state(ask, &before, &one, &before)?;
        }
        ask.counts.add(Section::Compared, "ticks of foreign states", 1);
    }
    ask.counts.add(Section::Compared, "foreign states", 1);
    Ok(())
}
