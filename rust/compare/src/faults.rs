//! The faults of a table's records: each way in which a record can be refused, at any record.
#![allow(
    clippy::ptr_arg,
    reason = "some faults put records in, and all are of one type"
)]

use crate::record::Record;
use crate::rng::Rng;

/// A fault put into the records at one of them.
pub type Fault = fn(&mut Rng, &mut Vec<Record>, usize);

// A record of a task's first frame, found by going back from record i.
fn first_of(all: &[Record], i: usize) -> usize {
    (0..=i)
        .rev()
        .take_while(|&j| all[j].task == all[i].task)
        .last()
        .unwrap_or(i)
}

// Refusal 2: above 15, no run from 0 on, a jump, a step back, a seventeenth task.
fn task_above_15(rng: &mut Rng, all: &mut Vec<Record>, i: usize) {
    all[i].task = rng.pick(&[16, 17, 127, 128, 255]);
}

fn first_task_not_0(rng: &mut Rng, all: &mut Vec<Record>, _: usize) {
    let by = rng.pick(&[1, 2, 255]);
    all.iter_mut().for_each(|r| r.task = r.task.wrapping_add(by));
}

fn task_jumps(_: &mut Rng, all: &mut Vec<Record>, i: usize) {
    all[i..].iter_mut().for_each(|r| r.task = r.task.wrapping_add(1));
}

fn task_steps_back(_: &mut Rng, all: &mut Vec<Record>, i: usize) {
    all[i].task = all[i].task.wrapping_sub(1);
}

fn seventeenth_task(rng: &mut Rng, all: &mut Vec<Record>, i: usize) {
    all.truncate(i + 1);
    let (last, to) = (all[i].task, rng.pick(&[15, 16, 17]));
    let next = |task| Record {
        task,
        kind: 1,
        e: 1,
        d: 40,
        p: 40,
    };
    all.extend((last.saturating_add(1)..=to).map(next));
}

// Refusal 3: no such kind, another kind inside a task, a second frame of kind 1.
fn no_such_kind(rng: &mut Rng, all: &mut Vec<Record>, i: usize) {
    all[i].kind = rng.pick(&[0, 4, 5, 128, 255]);
}

fn kind_changes(rng: &mut Rng, all: &mut Vec<Record>, i: usize) {
    all[i].kind = 1 + all[i].kind.wrapping_add(rng.between(0, 1) as u8) % 3;
}

fn second_sporadic_frame(_: &mut Rng, all: &mut Vec<Record>, i: usize) {
    all[i].kind = 1;
    all.insert(i, all[i]);
}

// Refusal 4: a task of sixteen frames and one or two more.
fn seventeenth_frame(rng: &mut Rng, all: &mut Vec<Record>, i: usize) {
    let frames = all.iter().filter(|r| r.task == all[i].task).count() as u64;
    let more = rng.between(16, 18).saturating_sub(frames);
    (0..more).for_each(|_| all.insert(i, all[i]));
}

// Refusal 5.
fn a_zero(rng: &mut Rng, all: &mut Vec<Record>, i: usize) {
    match rng.below(3) {
        0 => all[i].e = 0,
        1 => all[i].d = 0,
        _ => all[i].p = 0,
    }
}

// Refusal 6: D is not P, or another P than the task's first, of a task that is made multiframe where it is
// none.
fn made_multiframe(all: &mut [Record], i: usize) {
    let first = first_of(all, i);
    let (task, p) = (all[first].task, all[first].p);
    for r in all[first..].iter_mut().take_while(|r| r.task == task) {
        (r.kind, r.d, r.p) = (2, p, p);
    }
}

fn d_is_not_p(rng: &mut Rng, all: &mut Vec<Record>, i: usize) {
    made_multiframe(all, i);
    all[i].d = all[i].d.wrapping_add(rng.pick(&[1, 256, 65_535])).max(1);
}

fn p_unlike_the_first(rng: &mut Rng, all: &mut Vec<Record>, i: usize) {
    made_multiframe(all, i);
    all[i].p = all[i].p.wrapping_add(rng.pick(&[1, 256, 65_535])).max(1);
    all[i].d = all[i].p;
}

pub const FAULTS: [Fault; 12] = [
    task_above_15,
    first_task_not_0,
    task_jumps,
    task_steps_back,
    seventeenth_task,
    no_such_kind,
    kind_changes,
    second_sporadic_frame,
    seventeenth_frame,
    a_zero,
    d_is_not_p,
    p_unlike_the_first,
];
