//! The questions about a table and a request list, and the bench tick by tick, each state whole.
use crate::ask::{Ask, Same};
use crate::cost::TICK;
use crate::counts::Section;
use crate::expected;
use crate::must::ENDINGS;
use crate::states::flat_state;
use desk::raw::{State, RUNNING};
use desk::LAST_TICK;

/// Every question about the list, and each of its ticks.
pub fn about_the_list(ask: &mut Ask) -> Same<()> {
    let said = expected::listed(second::list(&ask.table, &ask.list));
    ask.answers("list", &[], ask.first.list(&ask.table, &ask.list), said)?;
    ask.list_line("list")?;
    let said = second::load(&ask.table, &ask.list);
    let first = ask.first.load(&ask.table, &ask.list);
    ask.answers("load", &[], first, expected::loaded(&said))?;
    let ticks = said.as_ref().map_or(0, |(_, state)| most_ticks(state));
    replays(ask, ticks)?;
    match said {
        Ok((_, state)) if ask.pays("ticks of a whole list", ticks * TICK) => all_ticks(ask, state),
        _ => Ok(()),
    }
}

// Every request is done or missed by the greatest deadline; and all are done once there was time for them
// after the last release.
fn most_ticks(loaded: &second::State) -> u64 {
    let greatest = |all: &[u32]| all.iter().copied().max().map_or(0, u64::from);
    let work: u64 = loaded.left.iter().copied().map(u64::from).sum();
    greatest(&loaded.due).min(greatest(&loaded.release) + work) + 2
}

// The replay's answer, as a call and as the lines of two commands.
fn replays(ask: &mut Ask, ticks: u64) -> Same<()> {
    if !ask.pays("replay", ticks * TICK / 2) {
        return Ok(());
    }
    let first = ask.first.replay(&ask.table, &ask.list);
    let said = expected::ending(second::replay(&ask.table, &ask.list));
    if let Some(ending) = ask.answers("replay", &[], first, said)? {
        ask.counts
            .add(Section::Endings, ENDINGS[usize::from(!ending.missed)], 1);
    }
    for command in ["replay", "trace"] {
        if ask.rng.chance(50) && ask.pays(command, ticks * TICK) {
            ask.list_line(command)?;
        }
    }
    Ok(())
}

// From the loaded state until it stops, and one tick more, which must change nothing.
fn all_ticks(ask: &mut Ask, loaded: second::State) -> Same<()> {
    let mut one = flat_state(&loaded);
    let mut two = loaded;
    for _ in 0..=LAST_TICK + 1 {
        let stopped = one.outcome != RUNNING;
        let before = one;
        one = ask.first.tick(one);
        two = second::tick(two);
        same_state(ask, &before, &one, &flat_state(&two))?;
        ask.counts.add(Section::Compared, "ticks of lists", 1);
        if stopped {
            return ask.equal(|| "a tick of a stopped bench".to_string(), &one, &before);
        }
    }
    Err(ask.difference(
        "ticks until the bench stops".to_string(),
        "none".to_string(),
        "none".to_string(),
    ))
}

/// Two states after a tick, every slot of every array.
pub fn same_state(ask: &Ask, before: &State, one: &State, two: &State) -> Same<()> {
    ask.equal(|| format!("tick of the state {before:?}"), one, two)
}
