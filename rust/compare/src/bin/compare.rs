//! The program that compares the proved library with the second program on random tables and lists.
use compare::first::Proved;
use compare::must::never_met;
use compare::run::{alone, run, Found, Until};
use std::process::ExitCode;
use std::time::Instant;

const HELP: &str = "\
compare [--seed N] [--cases N | --minutes N | --case N]

Asks the proved library and the second program the same questions about random tables and request
lists, and stops at the first difference. It says how many of each kind were compared, and fails
too where a question, a refusal, a verdict, a response or an ending was never met.

  --seed N      another stream of cases
  --cases N     so many cases, from 0 on
  --minutes N   as many cases as there is time for
  --case N      this case alone, to repeat a difference
  --help        this page";

const SEED: u64 = 1;
// Some 90 seconds of one core.
const CASES: u64 = 5_700;

#[derive(Clone, Copy)]
enum Which {
    Many(Until),
    Alone(u64),
}

struct Options {
    seed: u64,
    which: Which,
}

// The options, none where help is asked for, or what is wrong with them.
fn options(words: &[String]) -> Result<Option<Options>, String> {
    let mut options = Options {
        seed: SEED,
        which: Which::Many(Until::Cases(CASES)),
    };
    let mut rest = words.iter();
    while let Some(word) = rest.next() {
        if word == "--help" {
            return Ok(None);
        }
        let number = rest.next().and_then(|n| n.parse().ok());
        let number = number.ok_or_else(|| format!("{word}: a number must follow; see --help"))?;
        match word.as_str() {
            "--seed" => options.seed = number,
            "--cases" => options.which = Which::Many(Until::Cases(number)),
            "--minutes" => options.which = Which::Many(Until::Minutes(number)),
            "--case" => options.which = Which::Alone(number),
            _ => return Err(format!("{word}: no such option; see --help")),
        }
    }
    Ok(Some(options))
}

fn go(options: &Options) -> ExitCode {
    let start = Instant::now();
    let (found, whole) = match options.which {
        Which::Many(until) => (run(&Proved, options.seed, until), true),
        Which::Alone(case) => (alone(&Proved, options.seed, case), false),
    };
    print!("{}", found.counts.report());
    let (seed, seconds) = (options.seed, start.elapsed().as_secs());
    println!("{} cases of seed {seed} in {seconds} seconds", found.cases);
    conclude(&found, seed, whole)
}

// A single case need not meet everything.
fn conclude(found: &Found, seed: u64, whole: bool) -> ExitCode {
    if let Some((case, difference)) = &found.difference {
        println!("{}", difference.report(seed, *case));
        return ExitCode::from(1);
    }
    let never = never_met(&found.counts);
    if whole && !never.is_empty() {
        println!(
            "no difference, but never met, so that the run says too little: {}",
            never.join(", ")
        );
        return ExitCode::from(1);
    }
    println!("no difference");
    ExitCode::SUCCESS
}

fn main() -> ExitCode {
    let words: Vec<String> = std::env::args().skip(1).collect();
    match options(&words) {
        Ok(Some(options)) => go(&options),
        Ok(None) => {
            println!(
                "{HELP}\n\nWithout options: --seed {SEED} --cases {CASES}, about a minute on two cores."
            );
            ExitCode::SUCCESS
        }
        Err(why) => {
            eprintln!("compare: {why}");
            ExitCode::from(3)
        }
    }
}
