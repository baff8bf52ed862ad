//! What `limpidorsa help` says.
use crate::command::ForPeople;
use crate::lines::Line;
use crate::questions::QUESTIONS;
use desk::{HORIZON, LAST_REFUSAL};

/// The whole help.
pub fn help() -> Line {
    Line::fine(format!(
        "limpidorsa judges task tables: can every deadline be held?\n\n\
         For people:\n{}\n\
         Questions, each with one answer line, and what it looks like:\n{}\n\
         {ANSWERS}\n\n{}\n\n{STATUS_AND_EXAMPLES}",
        for_people(),
        questions(),
        words()
    ))
}

// A command, and what help says of it beside.
fn row(usage: &str, says: &str) -> String {
    format!("  {usage:<28}  {says}\n")
}

fn for_people() -> String {
    let judge = "each table in plain words; many files: a line each, and a total";
    let explain = format!("what refusal N (1 to {LAST_REFUSAL}) means, with an example");
    row(&ForPeople::Judge.usage(), judge)
        + &row(
            &ForPeople::Steps.usage(),
            "the replay of a request list, tick by tick",
        )
        + &row(&ForPeople::Explain.usage(), &explain)
        + &format!("  {}, {}\n", ForPeople::Help.usage(), ForPeople::Version.usage())
}

fn questions() -> String {
    let each = QUESTIONS.iter().map(|q| row(&q.usage(), q.example));
    let batch = "such questions on standard input, one a line; an answer line each";
    each.collect::<String>() + &row(&ForPeople::Batch.usage(), batch)
}

const ANSWERS: &str = "  \
  Any question may also answer 'refused NUMBER INDEX': see 'limpidorsa explain NUMBER'.
  verdict is fits, overloaded or undecided, under earliest deadline first. demand is the run time
  of a task that can arrive and be due within T ticks, margin is T less all demands; work is the
  run time of a task that can arrive within W ticks, window the least W that holds all work.
  response is a frame's under fixed priorities, task 0 highest, each higher task counted from its
  greatest E (another start can bring more: see README.md).
  overload writes the list that shows an overload into a buffer of BUFLEN bytes, all ee before,
  from PLACE on, and says the whole buffer; overload-list says the list alone, overload-size how
  many bytes it has.";

fn words() -> String {
    format!(
        "\
TABLE and LIST are a file's name, '-' for standard input, or the bytes themselves: \"hex:00 03 ..\".
  (A file whose name begins with hex: or is '-' is named by its folder: ./-)
  A table is records of 8 bytes: task, kind, then E, D and P, 16 bits each, low byte first.
    Kind 1 is sporadic, 2 multiframe, 3 generalized; a record is a frame of its task. E is its
    run time, D its deadline from arrival, P the least time until the next frame arrives.
  A list is records of 8 bytes: task, frame, two zero bytes, arrival, 32 bits, low byte first.
The others are decimal numbers: TASK and FRAME count from 0; T and W are ticks, up to {HORIZON}."
    )
}

const STATUS_AND_EXAMPLES: &str = "\
Exit status: 0 answered, nothing bad; 1 answered, bad news (overloaded, undecided, late, miss);
  2 refused; 3 could not be asked. Of several files or lines, the greatest.

Examples:
  limpidorsa judge examples/*
  limpidorsa verdict \"hex:00 01 01 00 01 00 01 00\"
  printf '\\0\\1\\1\\0\\5\\0\\5\\0' | limpidorsa judge -
  limpidorsa steps examples/B lists/B";
