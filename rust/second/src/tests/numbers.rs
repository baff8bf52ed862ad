//! Every number of the document's section "Numbers to hold it to".

use super::{a, a_with, b, f, k7, record, request, requests, sporadic, task};
use crate::response::values;
use crate::table::parse;
use crate::*;

fn fits(window: u64, margin: i64, at: u64) -> Result<Verdict, No> {
    Ok(Verdict::Fits { window, margin, at })
}

fn overloaded(t: u64, margin: i64, first: &[u8]) -> Result<Verdict, No> {
    let mut starts = [0; 16];
    starts[..first.len()].copy_from_slice(first);
    Ok(Verdict::Overloaded { t, margin, starts })
}

#[test]
fn the_first_record_of_a() {
    assert_eq!(a()[..8], [0, 3, 1, 0, 2, 0, 3, 0]);
    assert_eq!(read(&a()), Ok((1, 4)));
    assert_eq!(read(&b()), Ok((2, 5)));
}

#[test]
fn k1_demand_of_a() {
    let expected = [(1, 0), (2, 2), (5, 3), (8, 6), (9, 7), (10, 8), (11, 9), (14, 11)];
    for (t, sum) in expected {
        assert_eq!(demand(&a(), 0, t), Ok(sum), "at {t}");
    }
}

#[test]
fn k2_k3_a_fits() {
    assert_eq!(verdict(&a()), fits(8, 0, 2));
    assert_eq!(window(&a()), Ok(Some(8)));
    assert_eq!(verdict(&a_with(1, 4, 12)), fits(10, 0, 2));
    assert_eq!(window(&a_with(1, 4, 12)), Ok(Some(10)));
}

#[test]
fn k4_b_is_overloaded() {
    let whole = [0, 1, 0, 0, 0, 0, 0, 0, 1, 0, 0, 0, 0, 0, 0, 0];
    assert_eq!(verdict(&b()), overloaded(2, -1, &[1, 0]));
    assert_eq!(margin(&b(), 2), Ok(-1));
    assert_eq!(overload_list(&b()), Ok(whole.to_vec()));
    assert_eq!(overload_size(&b()), Ok(16));
    let mut buffer = [0xee; 20];
    assert_eq!(overload(&b(), &mut buffer, 2), Ok(16));
    assert_eq!(buffer[2..18], whole);
    for place in [0, 1, 18, 19] {
        assert_eq!(buffer[place], 0xee);
    }
    let mut buffer = [0xee; 20];
    assert_eq!(overload(&b(), &mut buffer, 5), Err((12, 0)));
    assert_eq!(buffer, [0xee; 20]);
}

#[test]
fn k5_list_of_b_replayed() {
    let list = overload_list(&b()).unwrap();
    assert_eq!(replay(&b(), &list), Ok((End::Missed { record: 1 }, 2)));
}

#[test]
fn k6_the_smallest_task() {
    assert_eq!(verdict(&sporadic(&[(1, 1, 1)])), fits(1, 0, 1));
    let two = sporadic(&[(1, 1, 1), (1, 1, 1)]);
    assert_eq!(verdict(&two), overloaded(1, -1, &[]));
}

#[test]
fn k7_a_frame_after_one_that_does_not_fit() {
    assert_eq!(demand(&k7(), 0, 5), Ok(4));
}

#[test]
fn k7_with_a_second_task() {
    let table = [k7(), record(1, 1, 2, 5, 10)].concat();
    assert_eq!(verdict(&table), overloaded(5, -1, &[]));
    let four = requests(&[(0, 0, 0), (1, 0, 0), (0, 1, 2), (0, 2, 3)]);
    assert_eq!(overload_list(&table), Ok(four.clone()));
    assert_eq!(overload_size(&table), Ok(32));
    assert_eq!(list(&table, &four), Ok(4));
    assert!(matches!(replay(&table, &four), Ok((End::Missed { .. }, _))));
    // "Leaving the late-deadline frame out of an overload list: the four-request list above
    // would be refused 11."
    let three = [&four[..16], &four[24..]].concat();
    assert_eq!(list(&table, &three), Err((11, 2)));
}

#[test]
fn k8_k9_responses_of_f() {
    let on_time = |value, rounds| Ok(Response::OnTime { value, rounds });
    assert_eq!(response(&f(), 0, 0), on_time(1, 0));
    assert_eq!(response(&f(), 1, 0), on_time(3, 1));
    assert_eq!(response(&f(), 2, 0), on_time(8, 3));
    assert_eq!(response(&f(), 3, 0), on_time(14, 4));
    assert_eq!(response(&f(), 4, 0), on_time(32, 6));
    assert_eq!(response(&f(), 3, 1), on_time(9, 2));
    let tasks = parse(&f()).unwrap().tasks;
    let steps = values(&tasks[3].frames[0], &tasks[..3]);
    assert_eq!(steps, [2, 8, 10, 13, 14]);
}

#[test]
fn the_greatest_task_and_the_long_deadlines() {
    let whole = sporadic(&[(65_535, 65_535, 65_535)]);
    assert_eq!(verdict(&whole), fits(65_535, 0, 65_535));
    assert_eq!(margin(&whole, 65_535), Ok(0));
    let over = sporadic(&[(32_769, 65_535, 1)]);
    assert_eq!(verdict(&over), overloaded(65_536, -2, &[]));
    for e in [21_846, 2] {
        let table = sporadic(&[(e, 65_535, 1)]);
        assert_eq!(verdict(&table), Ok(Verdict::Undecided));
    }
}

#[test]
fn the_last_numbers_asked_about() {
    assert!(demand(&a(), 0, 65_536).is_ok());
    assert!(work(&a(), 0, 65_536).is_ok());
    assert!(margin(&a(), 65_536).is_ok());
    assert_eq!(demand(&a(), 0, 65_537), Err((7, 0)));
    assert_eq!(work(&a(), 0, 65_537), Err((7, 0)));
    assert_eq!(margin(&a(), 65_537), Err((7, 0)));
    let sixteen = [(1, 1, 1); 16];
    let four: Vec<u8> = (0..4).flat_map(|n| task(n, 3, &sixteen)).collect();
    assert_eq!(read(&four), Ok((4, 64)));
    let more = [four, record(4, 1, 1, 1, 1)].concat();
    assert_eq!(read(&more), Err((1, 0)));
}

#[test]
fn slips_seen_on_paper() {
    let tasks = parse(&a()).unwrap().tasks;
    // "A at 2 would still give 0 from frame 2."
    assert_eq!(demand::demand_from(&tasks[0], 2, 2), 0);
    // "Counting a frame with offset equal to the window as work in it: A's window would no
    // longer be 8": with it the work would be that of a window of one more.
    assert_eq!(work(&a(), 0, 8), Ok(8));
    assert_eq!(work(&a(), 0, 9), Ok(9));
    // "B's [utilization] is 0.85": 9 in 12 and 1 in 10.
    let rounds: u64 = tasks[0].frames.iter().map(|frame| frame.p).sum();
    let runs: u64 = tasks[0].frames.iter().map(|frame| frame.e).sum();
    assert_eq!(runs * 100 / rounds + 10, 85);
    assert_eq!(request(1, 0, 0), [1, 0, 0, 0, 0, 0, 0, 0]);
}
