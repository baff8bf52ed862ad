//! The replay bench tick by tick, and ticks of states that no load gives.

use super::{b, request, requests, sporadic, task};
use crate::*;

fn empty(tick: u32) -> State {
    State {
        tick,
        left: [0; 128],
        due: [0; 128],
        arrive: [0; 128],
        release: [0; 128],
        task: [0; 128],
        end: End::Running,
    }
}

#[test]
fn the_empty_list_is_all_met_at_zero() {
    assert_eq!(list(&b(), &[]), Ok(0));
    assert_eq!(load(&b(), &[]), Ok((0, empty(0))));
    assert_eq!(replay(&b(), &[]), Ok((End::AllMet, 0)));
}

#[test]
fn each_state_of_the_list_of_b() {
    let list = overload_list(&b()).unwrap();
    let (records, loaded) = load(&b(), &list).unwrap();
    let mut expected = empty(0);
    expected.left[..2].copy_from_slice(&[2, 1]);
    expected.due[..2].copy_from_slice(&[2, 2]);
    expected.task[1] = 1;
    assert_eq!((records, &loaded), (2, &expected));
    let mut state = loaded;
    for left in [1, 0] {
        state = tick(state);
        expected.tick += 1;
        expected.left[0] = left;
        assert_eq!(state, expected);
    }
    state = tick(state);
    expected.end = End::Missed { record: 1 };
    assert_eq!(state, expected);
    assert_eq!(tick(state), expected, "a stopped bench stays");
}

#[test]
fn idle_ticks_and_the_tick_after_the_last_unit() {
    let table = sporadic(&[(2, 5, 5)]);
    let one = request(0, 0, 7);
    assert_eq!(replay(&table, &one), Ok((End::AllMet, 9)));
    let (_, mut state) = load(&table, &one).unwrap();
    for t in 1..=7 {
        state = tick(state);
        assert_eq!((state.tick, state.left[0]), (t, 2));
    }
    state = tick(state);
    assert_eq!((state.tick, state.left[0]), (8, 1));
}

#[test]
fn a_run_ends_by_the_last_tick() {
    let table = sporadic(&[(65_535, 65_535, 1)]);
    let one = request(0, 0, 65_535);
    assert_eq!(replay(&table, &one), Ok((End::AllMet, 131_070)));
    let two = requests(&[(0, 0, 65_534), (0, 0, 65_535)]);
    let end = End::Missed { record: 1 };
    assert_eq!(replay(&table, &two), Ok((end, 131_070)));
}

#[test]
fn all_of_128_records_are_taken() {
    let table = sporadic(&[(1, 200, 1)]);
    let pairs: Vec<(u8, u8, u32)> = (0..128).map(|n| (0, 0, n)).collect();
    assert_eq!(replay(&table, &requests(&pairs)), Ok((End::AllMet, 128)));
    let more: Vec<(u8, u8, u32)> = (0..129).map(|n| (0, 0, n)).collect();
    assert_eq!(load(&table, &requests(&more)), Err((10, 0)));
}

#[test]
fn equal_deadlines_within_one_task() {
    // Frame 0 at 0 and frame 1 at 1 are both due at 4: the earlier arrival goes first.
    let table = task(0, 3, &[(2, 4, 1), (1, 3, 9)]);
    let list = requests(&[(0, 0, 0), (0, 1, 1)]);
    let (_, state) = load(&table, &list).unwrap();
    let state = tick(tick(state));
    assert_eq!(state.left[..2], [0, 1]);
}

#[test]
fn the_lowest_record_of_all_missed() {
    let mut state = empty(9);
    state.left[5] = 1;
    state.due[5] = 9;
    state.left[90] = 1;
    state.due[90] = 1;
    state.left[2] = 1;
    state.due[2] = 10;
    let after = tick(state.clone());
    state.end = End::Missed { record: 5 };
    assert_eq!(after, state);
}

#[test]
fn ties_by_task_then_arrival_then_index() {
    let mut state = empty(9);
    for (index, task, arrive) in [(3, 200, 0), (7, 9, 2), (11, 9, 1), (100, 9, 1)] {
        state.left[index] = u32::MAX;
        state.due[index] = u32::MAX;
        state.task[index] = task;
        state.arrive[index] = arrive;
    }
    state.left[0] = 1;
    state.due[0] = 10;
    state.release[0] = 10;
    let after = tick(state.clone());
    state.tick = 10;
    state.left[11] -= 1;
    assert_eq!(after, state, "record 0 may not yet run");
}

#[test]
fn states_past_the_last_tick_stay() {
    for t in [131_071, u32::MAX] {
        assert_eq!(tick(empty(t)), empty(t));
        let mut state = empty(t);
        state.left[0] = 1;
        assert_eq!(tick(state.clone()), state);
    }
    let mut state = empty(131_070);
    assert_eq!(tick(state.clone()).end, End::AllMet);
    state.left[0] = 1;
    state.due[0] = 131_071;
    let after = tick(state.clone());
    state.tick = 131_071;
    state.left[0] = 0;
    assert_eq!(after, state, "the last tick is still taken");
    assert_eq!(tick(after.clone()), after);
}

#[test]
fn stopped_states_stay_whatever_they_hold() {
    for end in [End::AllMet, End::Missed { record: usize::MAX }] {
        let mut state = empty(3);
        state.left[4] = 2;
        state.end = end;
        assert_eq!(tick(state.clone()), state);
    }
}
