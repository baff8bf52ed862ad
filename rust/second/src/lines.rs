//! One command line to its one answer line.

use crate::bench::run;
use crate::table::parse;
use crate::words::{bytes, digest, hex, number, DIGEST};
use crate::{demand, list, load, margin, overload, overload_list, overload_size, read, replay, response};
use crate::{verdict, window, work, End, No, Response, Verdict};

/// The longest buffer that a line may ask for.
const LONGEST: u64 = 16_777_216;

pub fn answer(line: &str) -> String {
    let words: Vec<&str> = line.split_ascii_whitespace().collect();
    match asked(&words) {
        None => "error this line cannot be asked".to_string(),
        Some(Ok(text)) => text,
        Some(Err((number, index))) => format!("refused {number} {index}"),
    }
}

/// The answer to the words of a line, or none if it cannot be asked.
fn asked(words: &[&str]) -> Option<Result<String, No>> {
    Some(match words {
        ["read", table] => read_line(&bytes(table)?),
        ["verdict", table] => verdict(&bytes(table)?).map(verdict_text),
        ["window", table] => window(&bytes(table)?).map(window_text),
        ["demand", table, task, t] => {
            demand(&bytes(table)?, number(task)?, number(t)?).map(|sum| format!("demand {sum}"))
        }
        ["work", table, task, w] => {
            work(&bytes(table)?, number(task)?, number(w)?).map(|sum| format!("work {sum}"))
        }
        ["margin", table, t] => margin(&bytes(table)?, number(t)?).map(|margin| format!("margin {margin}")),
        ["response", table, task, frame] => {
            response(&bytes(table)?, number(task)?, number(frame)?).map(|end| response_text(end, ' '))
        }
        ["responses", table] => responses_line(&bytes(table)?),
        ["overload-size", table] => overload_size(&bytes(table)?).map(|size| format!("size {size}")),
        ["overload", table, length, place] => {
            let length = number(length).filter(|length| *length <= LONGEST)?;
            overload_line(&bytes(table)?, length as usize, number(place)?)
        }
        ["overload-list", table] => overload_list(&bytes(table)?).map(|list| format!("list {}", hex(&list))),
        ["list", table, requests] => {
            list(&bytes(table)?, &bytes(requests)?).map(|records| format!("legal records={records}"))
        }
        ["replay", table, requests] => {
            replay(&bytes(table)?, &bytes(requests)?).map(|(end, tick)| end_text(&end, tick))
        }
        ["trace", table, requests] => trace_line(&bytes(table)?, &bytes(requests)?),
        _ => return None,
    })
}

fn read_line(table: &[u8]) -> Result<String, No> {
    let (tasks, records) = read(table)?;
    Ok(format!("table tasks={tasks} records={records}"))
}

fn verdict_text(verdict: Verdict) -> String {
    match verdict {
        Verdict::Overloaded { t, margin, starts } => {
            let starts: Vec<String> = starts.iter().map(u8::to_string).collect();
            let starts = starts.join(",");
            format!("overloaded t={t} margin={margin} starts={starts}")
        }
        Verdict::Fits { window, margin, at } => {
            format!("fits window={window} margin={margin} at={at}")
        }
        Verdict::Undecided => "undecided".to_string(),
    }
}

fn window_text(window: Option<u64>) -> String {
    match window {
        Some(w) => format!("window {w}"),
        None => "window none".to_string(),
    }
}

/// A response with its parts set off by blanks, or by strokes where many stand on one line.
fn response_text(response: Response, between: char) -> String {
    match response {
        Response::OnTime { value, rounds } => {
            format!("on-time{between}value={value}{between}rounds={rounds}")
        }
        Response::Late { value, round } => {
            format!("late{between}value={value}{between}round={round}")
        }
    }
}

/// Every frame in table order; the first frame's refusal comes before all others.
fn responses_line(bytes: &[u8]) -> Result<String, No> {
    let table = parse(bytes)?;
    let mut parts = Vec::new();
    for (number, task) in table.tasks.iter().enumerate() {
        for frame in 0..task.frames.len() {
            let response = response(bytes, number as u64, frame as u64)?;
            parts.push(format!("{number}.{frame}:{}", response_text(response, '/')));
        }
    }
    Ok(parts.join(" "))
}

fn overload_line(table: &[u8], length: usize, place: u64) -> Result<String, No> {
    let mut buffer = vec![0xee; length];
    let written = overload(table, &mut buffer, place)?;
    Ok(format!("written {written} {}", hex(&buffer)))
}

/// A replay's end; no legal list leaves the bench running.
fn end_text(end: &End, tick: u32) -> String {
    match end {
        End::Running => format!("running tick={tick}"),
        End::Missed { record } => format!("miss tick={tick} record={record}"),
        End::AllMet => format!("all-met tick={tick}"),
    }
}

/// The digest takes each state as its tick and then what each record of the list has left.
fn trace_line(table: &[u8], list: &[u8]) -> Result<String, No> {
    let (records, state) = load(table, list)?;
    let mut sum = DIGEST;
    let state = run(state, |state| {
        sum = digest(sum, &state.tick.to_le_bytes());
        for left in &state.left[..records] {
            sum = digest(sum, &left.to_le_bytes());
        }
    });
    let end = end_text(&state.end, state.tick);
    Ok(format!("trace {sum:016x} {end}"))
}
