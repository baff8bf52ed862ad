//! A legal list spoilt: each way in which refusals 10 and 11 can show, at any record.
#![allow(
    clippy::ptr_arg,
    reason = "some faults put records in, and all are of one type"
)]

use crate::lists::any_legal;
use crate::pace::Tasks;
use crate::record::{list_of, Request};
use crate::rng::Rng;
use desk::{LAST_ARRIVAL, MOST_LIST_BYTES};

type Fault = fn(&mut Rng, &Tasks, &mut Vec<Request>, usize);

// Refusal 10.
fn pad_not_zero(rng: &mut Rng, _: &Tasks, all: &mut Vec<Request>, i: usize) {
    all[i].pad[rng.below(2) as usize] = rng.pick(&[1, 128, 255]);
}

fn unknown_task(rng: &mut Rng, tasks: &Tasks, all: &mut Vec<Request>, i: usize) {
    all[i].task = rng.pick(&[tasks.len() as u8, 16, 255]);
}

fn unknown_frame(rng: &mut Rng, tasks: &Tasks, all: &mut Vec<Request>, i: usize) {
    let frames = tasks.get(all[i].task as usize).map_or(0, Vec::len);
    all[i].frame = rng.pick(&[frames as u8, 16, 255]);
}

fn arrival_too_large(rng: &mut Rng, _: &Tasks, all: &mut Vec<Request>, i: usize) {
    all[i].arrival = rng.pick(&[LAST_ARRIVAL + 1, LAST_ARRIVAL + 2, 1 << 24, u32::MAX]);
}

fn order_broken(_: &mut Rng, _: &Tasks, all: &mut Vec<Request>, i: usize) {
    let j = i.saturating_sub(1);
    all.swap(i, j);
}

fn twice_at_one_arrival(rng: &mut Rng, tasks: &Tasks, all: &mut Vec<Request>, i: usize) {
    let mut again = all[i];
    let frames = tasks.get(again.task as usize).map_or(1, Vec::len);
    again.frame = again.frame.wrapping_add(rng.below(2) as u8) % frames as u8;
    all.insert(i + 1, again);
}

fn not_yet_or_already(rng: &mut Rng, _: &Tasks, all: &mut Vec<Request>, i: usize) {
    all[i].arrival = rng.between(0, 2 * u64::from(all[i].arrival) + 1) as u32;
}

// Refusal 11.
fn wrong_frame(rng: &mut Rng, tasks: &Tasks, all: &mut Vec<Request>, i: usize) {
    let frames = tasks.get(all[i].task as usize).map_or(1, Vec::len) as u64;
    all[i].frame = rng.below(frames) as u8;
}

fn too_soon(rng: &mut Rng, _: &Tasks, all: &mut Vec<Request>, i: usize) {
    let floor = all[..i].last().map_or(0, |r| r.arrival);
    all[i].arrival = all[i].arrival.saturating_sub(rng.between(1, 2) as u32).max(floor);
}

fn one_left_out(_: &mut Rng, _: &Tasks, all: &mut Vec<Request>, i: usize) {
    all.remove(i);
}

const FAULTS: [Fault; 10] = [
    pad_not_zero,
    unknown_task,
    unknown_frame,
    arrival_too_large,
    order_broken,
    twice_at_one_arrival,
    not_yet_or_already,
    wrong_frame,
    too_soon,
    one_left_out,
];

fn spoilt(rng: &mut Rng, tasks: &Tasks, faults: usize) -> Vec<u8> {
    let mut all = any_legal(rng, tasks);
    for _ in 0..faults {
        if !all.is_empty() {
            let i = rng.below(all.len() as u64) as usize;
            rng.pick(&FAULTS)(rng, tasks, &mut all, i);
        }
    }
    list_of(&all)
}

pub fn one_fault(rng: &mut Rng, tasks: &Tasks) -> Vec<u8> {
    spoilt(rng, tasks, 1)
}

pub fn two_faults(rng: &mut Rng, tasks: &Tasks) -> Vec<u8> {
    spoilt(rng, tasks, 2)
}

/// Bytes too few or too many for whole records, or more records than a list may have; faults in them or not.
pub fn wrong_length(rng: &mut Rng, tasks: &Tasks) -> Vec<u8> {
    let faults = rng.pick(&[0, 0, 1]);
    let mut list = spoilt(rng, tasks, faults);
    match rng.below(3) {
        0 => list.truncate(list.len().saturating_sub(rng.between(1, 7) as usize)),
        1 => list.extend(rng.bytes(5)),
        _ => list.resize(MOST_LIST_BYTES + rng.pick(&[1, 8, 16, 1_024]), 0),
    }
    list
}
