//! Each refusal of a question and of a list in each way that it is given, and the order among them.

use super::{a, b, f, request, requests, sporadic};
use crate::*;

#[test]
fn refusals_7_and_9_of_questions() {
    let bad = [0; 8];
    for far in [65_537, 1 << 32, u64::MAX] {
        assert_eq!(demand(&a(), 0, far), Err((7, 0)));
        assert_eq!(work(&a(), 0, far), Err((7, 0)));
        assert_eq!(margin(&a(), far), Err((7, 0)));
        assert_eq!(demand(&a(), far, far), Err((9, 0)), "9 before 7");
        assert_eq!(work(&a(), 1, far), Err((9, 0)), "9 before 7");
        assert_eq!(demand(&bad, far, far), Err((3, 0)), "tables first");
        assert_eq!(work(&bad, far, far), Err((3, 0)));
        assert_eq!(margin(&bad, far), Err((3, 0)));
        assert_eq!(response(&bad, far, far), Err((3, 0)));
        assert_eq!(response(&f(), far, 0), Err((9, 0)));
        assert_eq!(response(&f(), 0, far), Err((9, 0)));
    }
    assert_eq!(demand(&a(), 256, 1), Err((9, 0)));
    assert_eq!(response(&f(), 0, 1), Err((9, 0)));
    assert_eq!(response(&f(), 0, 256), Err((9, 0)));
    assert_eq!(response(&f(), 5, 0), Err((9, 0)));
    assert_eq!(verdict(&bad), Err((3, 0)));
    assert_eq!(window(&bad), Err((3, 0)));
}

#[test]
fn refusal_8_deadline_above_period() {
    let table = sporadic(&[(1, 3, 3), (1, 5, 4), (1, 9, 8)]);
    for asked in 0..3 {
        assert_eq!(response(&table, asked, 0), Err((8, 1)), "also below");
    }
    assert_eq!(response(&table, 3, 0), Err((9, 0)), "9 before 8");
    assert_eq!(response(&table, 0, 1), Err((9, 0)), "9 before 8");
    assert_eq!(response(&a(), 0, 0), Err((8, 2)));
}

#[test]
fn refusal_10_length_and_records() {
    let two = sporadic(&[(1, 5, 5), (1, 5, 5)]);
    for length in [1, 7, 9, 1_023, 1_025, 1_032] {
        assert_eq!(list(&two, &vec![9; length]), Err((10, 0)), "{length}");
    }
    let first = request(0, 0, 3);
    let then = |bytes: Vec<u8>| list(&two, &[first.clone(), bytes].concat());
    assert_eq!(then(vec![1, 0, 1, 0, 9, 0, 0, 0]), Err((10, 1)), "pad");
    assert_eq!(then(vec![1, 0, 0, 1, 9, 0, 0, 0]), Err((10, 1)), "pad");
    assert_eq!(then(request(2, 0, 9)), Err((10, 1)), "unknown task");
    assert_eq!(then(request(1, 1, 9)), Err((10, 1)), "unknown frame");
    assert_eq!(then(request(1, 0, 65_536)), Err((10, 1)), "too large");
    assert_eq!(then(request(1, 0, u32::MAX)), Err((10, 1)), "too large");
    assert_eq!(then(request(1, 0, 65_535)), Ok(2));
    assert_eq!(then(request(1, 0, 2)), Err((10, 1)), "earlier");
    assert_eq!(then(request(0, 0, 3)), Err((10, 1)), "one task twice");
    let falling = requests(&[(1, 0, 3), (0, 0, 3)]);
    assert_eq!(list(&two, &falling), Err((10, 1)), "falling tasks");
    assert_eq!(list(&[0; 8], &[0; 7]), Err((3, 0)), "tables first");
    assert_eq!(load(&two, &falling), Err((10, 1)));
    assert_eq!(replay(&two, &falling), Err((10, 1)));
}

#[test]
fn refusal_11_next_request() {
    let legal = |pairs: &[(u8, u8, u32)]| list(&b(), &requests(pairs));
    assert_eq!(legal(&[(0, 2, 0), (0, 3, 3), (0, 0, 7), (0, 1, 10)]), Ok(4));
    assert_eq!(legal(&[(0, 2, 0), (0, 2, 9)]), Err((11, 1)), "wrong frame");
    assert_eq!(legal(&[(0, 3, 0), (0, 1, 9)]), Err((11, 1)), "wrong frame");
    assert_eq!(legal(&[(0, 2, 0), (0, 3, 2)]), Err((11, 1)), "too soon");
    let between = [(0, 2, 0), (1, 0, 1), (0, 3, 2)];
    assert_eq!(legal(&between), Err((11, 2)), "another task between");
    let both = [request(0, 2, 0), vec![0, 2, 1, 0, 1, 0, 0, 0]].concat();
    assert_eq!(list(&b(), &both), Err((10, 1)), "10 before 11");
    assert_eq!(legal(&[(0, 2, 0), (0, 2, 0)]), Err((10, 1)), "never 11");
    assert_eq!(
        legal(&[(0, 2, 0), (0, 3, 2), (9, 0, 2)]),
        Err((11, 1)),
        "records in order"
    );
}

#[test]
fn refusals_12_and_13() {
    for (length, place) in [(0, 0), (15, 0), (16, 1), (16, 16), (16, 17), (40, 25)] {
        let mut buffer = vec![0xee; length];
        assert_eq!(overload(&b(), &mut buffer, place), Err((12, 0)));
        assert_eq!(buffer, vec![0xee; length]);
        assert_eq!(overload(&a(), &mut buffer, place), Err((13, 0)), "first");
        assert_eq!(overload(&[0; 8], &mut buffer, place), Err((3, 0)));
        assert_eq!(buffer, vec![0xee; length]);
    }
    let mut buffer = [0xee; 40];
    assert_eq!(overload(&b(), &mut buffer, u64::MAX), Err((12, 0)));
    assert_eq!(overload(&b(), &mut buffer, 24), Ok(16), "just enough");
    assert_eq!(overload_list(&a()), Err((13, 0)));
    assert_eq!(overload_size(&a()), Err((13, 0)));
    assert_eq!(overload_size(&[0; 8]), Err((3, 0)), "tables first");
    let undecided = sporadic(&[(2, 65_535, 1)]);
    assert_eq!(overload_list(&undecided), Err((13, 0)));
    assert_eq!(overload_size(&undecided), Err((13, 0)));
}
