//! One case: a table with its lists, everything about them asked of both programs. It depends on the seed and
//! the case's number only.
use crate::ask::{Ask, Same};
use crate::cost::Cost;
use crate::counts::{Counts, Section};
use crate::difference::Difference;
use crate::first::First;
use crate::kinds::{LISTS, OWN_LIST, TABLES};
use crate::purse::Purse;
use crate::record::tasks_of;
use crate::rng::Rng;
use crate::{bench, buffers, foreign, oddities, questions};
use std::panic::{catch_unwind, AssertUnwindSafe};

const FOREIGN_STATES: usize = 8;

/// What was compared, and the difference if there is one. A program that panics differs from one that
/// answers.
pub fn compare(first: &dyn First, seed: u64, case: u64) -> (Counts, Option<Difference>) {
    let mut ask = Ask {
        first,
        rng: Rng::new(seed, case),
        purse: Purse::of(case),
        counts: Counts::default(),
        cost: Cost::default(),
        table: Vec::new(),
        list: Vec::new(),
    };
    let found = match catch_unwind(AssertUnwindSafe(|| everything(&mut ask, case))) {
        Ok(same) => same.err(),
        Err(_) => {
            let said = "one of the two panicked, as is said above";
            Some(ask.difference(
                "a question of this case".to_string(),
                said.to_string(),
                said.to_string(),
            ))
        }
    };
    (ask.counts, found)
}

fn everything(ask: &mut Ask, case: u64) -> Same<()> {
    let (name, build) = TABLES[(case % TABLES.len() as u64) as usize];
    let lent = build(&mut ask.rng);
    ask.table = lent.clone();
    ask.counts.add(Section::Tables, name, 1);
    let good = questions::about_the_table(ask)?;
    let own = buffers::overload(ask)?;
    for _ in 0..if good { 4 } else { 1 } {
        let (name, build) = ask.rng.pick(&LISTS);
        let list = build(&mut ask.rng, &tasks_of(&ask.table));
        with_list(ask, name, list)?;
    }
    if let Some(list) = own {
        with_list(ask, OWN_LIST, list)?;
    }
    ask.list.clear();
    oddities::line(ask)?;
    for _ in 0..FOREIGN_STATES {
        foreign::ticks(ask)?;
    }
    unchanged(ask, &ask.table, &lent)
}

// "no lent byte changes": what was only to be read is what it was.
fn unchanged(ask: &Ask, now: &Vec<u8>, lent: &Vec<u8>) -> Same<()> {
    ask.equal(
        || "the bytes lent to be read, afterwards and before".to_string(),
        now,
        lent,
    )
}

fn with_list(ask: &mut Ask, name: &'static str, list: Vec<u8>) -> Same<()> {
    ask.list = list.clone();
    ask.counts.add(Section::Lists, name, 1);
    bench::about_the_list(ask)?;
    unchanged(ask, &ask.list, &list)
}
