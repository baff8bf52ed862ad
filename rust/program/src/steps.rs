//! `limpidorsa steps TABLE LIST`: the replay for people, runs of equal ticks joined.
use crate::lines::{self, Line};
use crate::output::{count, wrapped};
use crate::records::{self, Request};
use crate::refused;
use desk::{grouped, Bench, Ending, Refusal};

pub fn steps(table: &[u8], list: &[u8]) -> Line {
    match desk::load(table, list) {
        Err(no) => refused_steps(no, table, list),
        Ok(bench) => stepped(bench, &records::of_list(list)),
    }
}

fn refused_steps(no: Refusal, table: &[u8], list: &[u8]) -> Line {
    let Line { text, status } = lines::refusal(no);
    let (when, found) = (no.when(), refused::found(no, table, list));
    Line {
        text: wrapped(&format!("{text}: {when}. {found}")),
        status,
    }
}

// Ticks in a row that go to one record, or are idle.
struct Run {
    record: Option<usize>,
    from: u32,
    to: u32,
    left: u32,
}

// A line for each run, and one for the end.
fn stepped(bench: Bench, requests: &[Request]) -> Line {
    let mut runs: Vec<Run> = Vec::new();
    let (stopped, ending) = bench.run(|before, after| join(&mut runs, before, after));
    let mut rows: Vec<(String, String)> = Vec::new();
    rows.extend(
        runs.iter()
            .map(|run| (span(run.from, run.to), run.what(requests))),
    );
    rows.push((
        span(stopped.now(), stopped.now()),
        ended(&stopped, ending, requests),
    ));
    let width = rows.iter().map(|(ticks, _)| ticks.len()).max().unwrap_or(0);
    let lines = rows
        .iter()
        .map(|(ticks, what)| format!("{ticks:<width$}   {what}"));
    Line {
        text: lines.collect::<Vec<_>>().join("\n"),
        status: lines::ending(ending).status,
    }
}

// Takes one tick more into the last run, or begins a new one.
fn join(runs: &mut Vec<Run>, before: &Bench, after: &Bench) {
    let mut amounts = before.left().iter().zip(after.left());
    let record = amounts.position(|(before, after)| after < before);
    let (tick, left) = (before.now(), record.map_or(0, |i| after.left()[i]));
    match runs.last_mut() {
        Some(run) if run.record == record => (run.to, run.left) = (tick, left),
        _ => runs.push(Run {
            record,
            from: tick,
            to: tick,
            left,
        }),
    }
}

fn span(from: u32, to: u32) -> String {
    let [first, last] = [from, to].map(grouped);
    if from == to {
        format!("tick {first}")
    } else {
        format!("ticks {first} to {last}")
    }
}

fn named(record: usize, requests: &[Request]) -> String {
    let r = &requests[record];
    format!("task {} frame {} (record {record})", r.task, r.frame)
}

fn ended(stopped: &Bench, ending: Ending, requests: &[Request]) -> String {
    match ending {
        Ending::AllMet { .. } => "all met".into(),
        Ending::Missed { record, .. } => {
            let due = grouped(stopped.due()[record]);
            let left = count(stopped.left()[record].into(), "unit");
            let named = named(record, requests);
            format!("miss: {named} was due at {due} and has {left} left")
        }
    }
}

impl Run {
    fn what(&self, requests: &[Request]) -> String {
        let Some(record) = self.record else {
            return "idle".into();
        };
        let units = count((self.to - self.from + 1).into(), "unit");
        let rest = match self.left {
            0 => "done".into(),
            left => format!("{} left", grouped(left)),
        };
        format!("{}, {units}, {rest}", named(record, requests))
    }
}
