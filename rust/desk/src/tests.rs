//! Each question through the safe functions, on document 01's tables: the answer in its type, and the refusal as an
//! error.
use crate::*;

// A record of a table: task, kind, E, D, P.
fn record((task, kind, e, d, p): (u8, u8, u16, u16, u16)) -> Vec<u8> {
    let numbers = [e, d, p].map(u16::to_le_bytes).concat();
    [vec![task, kind], numbers].concat()
}

fn table(records: &[(u8, u8, u16, u16, u16)]) -> Vec<u8> {
    records.iter().copied().flat_map(record).collect()
}

fn a() -> Vec<u8> {
    table(&[(0, 3, 1, 2, 3), (0, 3, 2, 2, 2), (0, 3, 5, 8, 3), (0, 3, 1, 5, 4)])
}

fn b() -> Vec<u8> {
    [a(), record((1, 1, 1, 2, 10))].concat()
}

// Above full load, and the first deadlines come too late to show it.
fn endless() -> Vec<u8> {
    table(&[(0, 1, 1001, 65_535, 1000)])
}

const LIST_OF_B: [u8; 16] = [0, 1, 0, 0, 0, 0, 0, 0, 1, 0, 0, 0, 0, 0, 0, 0];

fn no<A>(number: u8, index: usize) -> Result<A, Refusal> {
    Err(Refusal { number, index })
}

#[test]
fn numbers_of_a_table() {
    assert_eq!(read(&b()), Ok(Shape { tasks: 2, records: 5 }));
    assert_eq!(demand(&a(), 0, 8), Ok(6));
    assert_eq!(work(&a(), 0, 2), Ok(5));
    assert_eq!(margin(&b(), 2), Ok(-1));
    assert_eq!(window(&a()), Ok(Some(8)));
    assert_eq!(window(&endless()), Ok(None));
}

#[test]
fn each_verdict() {
    let fits = Verdict::Fits {
        window: 8,
        margin: 0,
        t: 2,
    };
    assert_eq!(verdict(&a()), Ok(fits));
    let mut starts = [0; MOST_TASKS];
    starts[0] = 1;
    let overloaded = Verdict::Overloaded {
        t: 2,
        margin: -1,
        starts,
    };
    assert_eq!(verdict(&b()), Ok(overloaded));
    assert_eq!(verdict(&endless()), Ok(Verdict::Undecided));
}

#[test]
fn each_response() {
    let two = table(&[(0, 1, 2, 5, 5), (1, 1, 3, 4, 9)]);
    assert_eq!(response(&two, 0, 0), Ok(Response::OnTime { value: 2, rounds: 0 }));
    assert_eq!(response(&two, 1, 0), Ok(Response::Late { value: 5, round: 1 }));
    assert_eq!(response(&two, 1, 1), no(9, 0));
    assert_eq!(response(&a(), 0, 0), no(8, 2));
}

#[test]
fn the_overload_list_and_its_size() {
    assert_eq!(overload_size(&b()), Ok(LIST_OF_B.len()));
    assert_eq!(overload_list(&b()), Ok(LIST_OF_B.to_vec()));
    let mut buffer = [0xee; 20];
    assert_eq!(overload(&b(), &mut buffer, 5), no(12, 0));
    assert_eq!(buffer, [0xee; 20]);
    assert_eq!(overload(&b(), &mut buffer, 2), Ok(16));
    assert_eq!(
        (buffer[1], &buffer[2..18], buffer[18]),
        (0xee, &LIST_OF_B[..], 0xee)
    );
    assert_eq!(overload_size(&a()), no(13, 0));
    assert_eq!(overload_list(&a()), no(13, 0));
    assert_eq!(overload_size(&[]), no(1, 0));
}

#[test]
fn a_list_replayed_and_stepped() {
    let missed = Ending::Missed { tick: 2, record: 1 };
    assert_eq!(list(&b(), &LIST_OF_B), Ok(2));
    assert_eq!(replay(&b(), &LIST_OF_B), Ok(missed));
    assert_eq!(replay(&b(), &[]), Ok(Ending::AllMet { tick: 0 }));
    let loaded = load(&b(), &LIST_OF_B).unwrap();
    assert_eq!((loaded.now(), loaded.ending()), (0, None));
    assert_eq!((loaded.left(), loaded.due()), (&[2, 1][..], &[2, 2][..]));
    let mut shown = Vec::new();
    let (stopped, ending) = loaded.run(|before, after| shown.push((before.now(), after.left().to_vec())));
    assert_eq!(shown, [(0, vec![1, 1]), (1, vec![0, 1])]);
    assert_eq!((ending, stopped.ending()), (missed, Some(missed)));
    assert_eq!(stopped.tick(), stopped, "a stopped bench stays");
    assert_eq!(load(&a(), &LIST_OF_B), no(10, 1));
}

#[test]
fn the_limits_are_the_librarys() {
    assert!(margin(&a(), HORIZON).is_ok());
    assert_eq!(margin(&a(), HORIZON + 1), no(7, 0));
    let most = record((0, 3, 1, 9, 9)).repeat(16).len();
    assert_eq!(MOST_TABLE_BYTES, most * MOST_RECORDS / 16);
    assert_eq!(list(&a(), &vec![0; MOST_LIST_BYTES + 8]), no(10, 0));
    assert_eq!(read(&vec![0; MOST_TABLE_BYTES + 8]), no(1, 0));
    let arriving = |at: u32| [vec![0; 4], at.to_le_bytes().to_vec()].concat();
    assert_eq!(list(&a(), &arriving(LAST_ARRIVAL)), Ok(1));
    assert_eq!(list(&a(), &arriving(LAST_ARRIVAL + 1)), no(10, 0));
    let longest = table(&[(0, 1, 65_535, 65_535, 65_535)]);
    let end = Ending::AllMet { tick: LAST_TICK };
    assert_eq!(replay(&longest, &arriving(LAST_ARRIVAL)), Ok(end));
}

#[test]
fn a_refusal_is_an_error_with_words() {
    let said = |refused: Refusal| Box::<dyn std::error::Error>::from(refused).to_string();
    let [zero, short] = [(5, 1), (1, 0)].map(|(number, index)| said(Refusal { number, index }));
    assert_eq!(zero, "refused 5 at record 1: E, D or P is zero");
    assert_eq!(
        short,
        format!("refused 1: the table's length is 0, above {MOST_TABLE_BYTES} bytes, or not a multiple of 8")
    );
}

#[test]
fn every_refusal_has_words() {
    let numbers = refusals::ALL.iter().map(|meaning| meaning.number);
    assert!(numbers.eq(1..=LAST_REFUSAL));
    for meaning in &refusals::ALL {
        let answer = format!("refused {} ", meaning.number);
        assert!(meaning.answer.starts_with(&answer), "{}", meaning.number);
        assert!(!meaning.when().is_empty() && !meaning.command().is_empty());
    }
    assert!(refusals::of(LAST_REFUSAL + 1).is_none());
}
