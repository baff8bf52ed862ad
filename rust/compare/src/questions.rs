//! The questions about a table alone, asked of both programs.
use crate::ask::{Ask, Same};
use crate::cost::Cost;
use crate::counts::Section;
use crate::expected;
use crate::must::{AT_LAST_T, NO_WINDOW, RESPONSES, VERDICTS};
use crate::record::tasks_of;
use desk::raw::OVERLOADED;
use desk::HORIZON;

/// Every question about the table. False where it was refused.
pub fn about_the_table(ask: &mut Ask) -> Same<bool> {
    let said = expected::shape(second::read(&ask.table));
    let shape = ask.answers("read", &[], ask.first.read(&ask.table), said)?;
    ask.table_line("read", &[])?;
    if shape.is_some() {
        ask.cost = Cost::of(&ask.table, ask.purse.each);
    }
    let near = verdict(ask)?;
    window(ask)?;
    let tasks = shape.map_or(1, |s| s.tasks as u64);
    for t in times(ask, &near, shape.is_some()) {
        numbers(ask, tasks, t)?;
    }
    responses(ask)?;
    Ok(shape.is_some())
}

// The verdict; and the numbers that it names, to be looked at more closely.
fn verdict(ask: &mut Ask) -> Same<Vec<u64>> {
    if !ask.pays("verdict", ask.cost.verdict()) {
        return Ok(Vec::new());
    }
    let said = expected::verdict(second::verdict(&ask.table));
    let Some(answer) = ask.answers("verdict", &[], ask.first.verdict(&ask.table), said)? else {
        ask.table_line("verdict", &[])?;
        return Ok(Vec::new());
    };
    ask.counts
        .add(Section::Verdicts, VERDICTS[answer.verdict as usize - 1], 1);
    if answer.verdict == OVERLOADED && answer.t == HORIZON {
        ask.counts.add(Section::Compared, AT_LAST_T, 1);
    }
    if ask.rng.chance(50) && ask.pays("verdict", ask.cost.verdict()) {
        ask.table_line("verdict", &[])?;
    }
    Ok(vec![answer.t, answer.window])
}

fn window(ask: &mut Ask) -> Same<()> {
    if !ask.pays("window", ask.cost.window()) {
        return Ok(());
    }
    let said = expected::window(second::window(&ask.table));
    let answer = ask.answers("window", &[], ask.first.window(&ask.table), said)?;
    if answer.is_some_and(|answer| !answer.closes) {
        ask.counts.add(Section::Compared, NO_WINDOW, 1);
    }
    if ask.rng.chance(50) && ask.pays("window", ask.cost.window()) {
        ask.table_line("window", &[])?;
    }
    Ok(())
}

// The t at which demand, work and margin are asked: the ends, where the verdict points, and anywhere.
fn times(ask: &mut Ask, near: &[u64], good: bool) -> Vec<u64> {
    let mut all = vec![
        0,
        1,
        ask.rng.below(200),
        ask.rng.between(0, HORIZON),
        HORIZON,
        HORIZON + 1,
        u64::MAX,
        ask.rng.next(),
    ];
    if !good {
        return vec![ask.rng.pick(&all)];
    }
    for &t in near {
        all.extend([t.saturating_sub(1), t, t + 1]);
    }
    all.sort_unstable();
    all.dedup();
    all
}

// Demand and work of every task at t, and of tasks that are not there; and the margin.
fn numbers(ask: &mut Ask, tasks: u64, t: u64) -> Same<()> {
    let missing = [tasks, ask.rng.pick(&[tasks + 1, 16, 255, 256, 1 << 32, u64::MAX])];
    for task in (0..tasks).chain(missing) {
        if !ask.pays("demand", ask.cost.number(t)) || !ask.pays("work", ask.cost.number(t)) {
            continue;
        }
        let said = expected::amount(second::demand(&ask.table, task, t));
        ask.answers("demand", &[task, t], ask.first.demand(&ask.table, task, t), said)?;
        let said = expected::amount(second::work(&ask.table, task, t));
        ask.answers("work", &[task, t], ask.first.work(&ask.table, task, t), said)?;
        if ask.rng.chance(15) && ask.pays("demand", 2 * ask.cost.number(t)) {
            ask.table_line("demand", &[task, t])?;
            ask.table_line("work", &[task, t])?;
        }
    }
    if ask.pays("margin", 2 * ask.cost.number(t)) {
        let said = expected::margin(second::margin(&ask.table, t));
        ask.answers("margin", &[t], ask.first.margin(&ask.table, t), said)?;
        ask.table_line("margin", &[t])?;
    }
    Ok(())
}

// The response of every frame, and of frames and tasks that are not there; all of them on one line too.
fn responses(ask: &mut Ask) -> Same<()> {
    let mut asked: Vec<(u64, u64)> = Vec::new();
    let tasks = tasks_of(&ask.table);
    for (k, frames) in tasks.iter().enumerate().take(16) {
        asked.extend((0..=frames.len() as u64).map(|frame| (k as u64, frame)));
    }
    let total: u64 = asked.iter().map(|&(k, f)| ask.cost.response(k, f)).sum();
    let far = ask.rng.pick(&[16, 255, 256, 1 << 32, u64::MAX]);
    asked.extend([(tasks.len() as u64, 0), (far, 0), (0, far)]);
    for (task, frame) in asked {
        response(ask, task, frame)?;
    }
    if ask.pays("responses", total) {
        ask.table_line("responses", &[])?;
    }
    Ok(())
}

fn response(ask: &mut Ask, task: u64, frame: u64) -> Same<()> {
    if !ask.pays("response", ask.cost.response(task, frame)) {
        return Ok(());
    }
    let first = ask.first.response(&ask.table, task, frame);
    let said = expected::response(second::response(&ask.table, task, frame));
    if let Some(answer) = ask.answers("response", &[task, frame], first, said)? {
        ask.counts
            .add(Section::Responses, RESPONSES[usize::from(answer.late)], 1);
    }
    if ask.rng.chance(15) && ask.pays("response", ask.cost.response(task, frame)) {
        ask.table_line("response", &[task, frame])?;
    }
    Ok(())
}
