//! Time per verdict and time per tick of the proved library beside the second program, as a Markdown table.
mod tables;

use desk::{Verdict, MOST_REQUESTS};
use std::hint::black_box;
use std::time::{Duration, Instant};
use tables::tables;

const ROUNDS: usize = 9;
const LEAST_ROUND: Duration = Duration::from_millis(40);

// One round: the questions asked again and again until the round is long enough. Nanoseconds per question.
fn round(ask: &mut dyn FnMut() -> usize) -> f64 {
    let (start, mut asked) = (Instant::now(), 0);
    while start.elapsed() < LEAST_ROUND {
        asked += ask();
    }
    start.elapsed().as_nanos() as f64 / asked as f64
}

fn median(mut all: Vec<f64>) -> f64 {
    all.sort_by(f64::total_cmp);
    all[all.len() / 2]
}

// A row of the table: the two programs in turn, round by round, so that both meet the same load of the
// machine.
fn row(name: &str, rounds: usize, first: &mut dyn FnMut() -> usize, second: &mut dyn FnMut() -> usize) {
    let rounds: Vec<(f64, f64)> = (0..rounds).map(|_| (round(first), round(second))).collect();
    let one = median(rounds.iter().map(|r| r.0).collect());
    let two = median(rounds.iter().map(|r| r.1).collect());
    let ratio = median(rounds.iter().map(|r| r.0 / r.1).collect());
    println!(
        "| {name} | {:.2} | {:.2} | {ratio:.3} |",
        one / 1_000.0,
        two / 1_000.0
    );
}

// Asks about every table; how many there are.
fn each<A>(tables: &[Vec<u8>], ask: fn(&[u8]) -> A) -> usize {
    for table in tables {
        black_box(ask(black_box(table)));
    }
    tables.len()
}

// Asserts that a kind of table is what it is said to be, and times it.
fn verdicts(name: &str, said: fn(&Verdict) -> bool, tables: &[Vec<u8>]) {
    for table in tables {
        let verdict = desk::verdict(table).expect("the table is good");
        assert!(said(&verdict), "{name}: {table:?}: {verdict:?}");
    }
    timed(name, ROUNDS, tables);
}

fn timed(name: &str, rounds: usize, tables: &[Vec<u8>]) {
    let mut first = || each(tables, desk::verdict);
    let mut second = || each(tables, second::verdict);
    row(name, rounds, &mut first, &mut second);
}

// The ticks of a full list, from its loading to its end.
fn ticks() {
    let (table, list) = tables::full_list();
    let mut first = || {
        let mut bench = desk::load(&table, &list).expect("the list is legal");
        while bench.ending().is_none() {
            bench = black_box(bench).tick();
        }
        bench.now() as usize + 1
    };
    let mut second = || {
        let mut state = second::load(&table, &list).expect("the list is legal").1;
        while matches!(state.end, second::End::Running) {
            state = second::tick(black_box(state));
        }
        state.tick as usize + 1
    };
    let name = format!("a tick, {MOST_REQUESTS} requests");
    row(&name, ROUNDS, &mut first, &mut second);
}

fn main() {
    println!("| microseconds for | the library | the second program | library / second |");
    println!("|---|---|---|---|");
    let fits = |v: &Verdict| matches!(v, Verdict::Fits { .. });
    let overloaded = |v: &Verdict| matches!(v, Verdict::Overloaded { .. });
    let undecided = |v: &Verdict| *v == Verdict::Undecided;
    let [small_fits, small_overloaded] =
        [tables::SMALL_FITS, tables::SMALL_OVERLOADED].map(|all| tables(&all));
    let [late, never] = [tables::LATE_OVERLOAD, tables::UNDECIDED].map(|all| tables(&all));
    verdicts("a verdict, small, fits", fits, &small_fits);
    verdicts("a verdict, small, overloaded", overloaded, &small_overloaded);
    verdicts("a verdict, 64 records, fits", fits, &tables::of_64_records());
    verdicts("a verdict, overloaded at a late t", overloaded, &late);
    verdicts("a verdict, undecided", undecided, &never);
    timed(
        "the verdict of (2,65535,1), once",
        1,
        &tables(&[&[(2, 65_535, 1)]]),
    );
    ticks();
    println!();
    println!(
        "Each number but that of (2,65535,1) is the median of {ROUNDS} rounds of at least {} ms over three or four \
         tables of the kind, the two programs in turn within a round, in one run of \
         `cargo run --release --bin figures`; the ratio is the median of the rounds' ratios. The second program \
         looks at every t to the limit before it says *fits* or *undecided*.",
        LEAST_ROUND.as_millis()
    );
}
