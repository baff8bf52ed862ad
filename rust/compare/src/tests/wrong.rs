//! A first program that is wrong in one thing.
use crate::ask::status_of;
use crate::first::First;
use desk::raw::{Margin, Response, Shape, State, Verdict, Written, FITS};
use desk::{flat, HORIZON, MOST_LIST_BYTES, MOST_REQUESTS};
use limpidorsa::lines::Line;
use limpidorsa::status::Status;
use std::ops::Range;

#[derive(Debug, Clone, Copy, PartialEq, Eq)]
pub enum Slip {
    None,
    RefusedIndex,
    RefusedField,
    MarginAtLimit,
    LastStart,
    Round,
    Size,
    GuardByte,
    RefusedWrites,
    OneTickOneSlot,
    StoppedTicks,
    Word,
    ErrorAnswered,
    Status,
    Panic,
}

/// The library with one slip in it. Its lines are the second program's, so that only the slip differs.
pub struct Wrong(pub Slip);

impl First for Wrong {
    fn line(&self, line: &str) -> Line {
        let text = second::answer(line);
        let status = status_of(&text);
        let (text, status) = match self.0 {
            Slip::Word => (text.replace("all-met", "all met"), status),
            Slip::ErrorAnswered if text.starts_with("error") => ("refused 1 0".to_string(), status),
            Slip::Status if text.starts_with("late") => (text, Status::Fine),
            _ => (text, status),
        };
        Line { text, status }
    }
    fn read(&self, table: &[u8]) -> Shape {
        assert!(self.0 != Slip::Panic || table.len() != 8, "this slip is a panic");
        let mut said = flat::read(table);
        said.refusal.index += usize::from(self.0 == Slip::RefusedIndex && said.refusal.number == 6);
        said
    }
    fn margin(&self, table: &[u8], t: u64) -> Margin {
        let mut said = flat::margin(table, t);
        said.margin += i64::from(self.0 == Slip::MarginAtLimit && t == HORIZON);
        said
    }
    fn verdict(&self, table: &[u8]) -> Verdict {
        let mut said = flat::verdict(table);
        said.starts[15] += u8::from(self.0 == Slip::LastStart && said.verdict == FITS);
        said.t += u64::from(self.0 == Slip::RefusedField && said.refusal.number == 2);
        said
    }
    fn response(&self, table: &[u8], task: u64, frame: u64) -> Response {
        let mut said = flat::response(table, task, frame);
        said.round += u64::from(self.0 == Slip::Round && said.late);
        said
    }
    fn overload_size(&self, table: &[u8]) -> Written {
        let mut said = flat::overload_size(table);
        said.bytes += 8 * usize::from(self.0 == Slip::Size && said.bytes > MOST_LIST_BYTES);
        said
    }
    fn overload(&self, table: &[u8], memory: &mut [u8], lent: Range<usize>, place: u64) -> Written {
        let end = lent.end;
        let said = flat::overload(table, &mut memory[lent], place as usize);
        match self.0 {
            Slip::GuardByte if said.refusal.number == 0 => memory[end] ^= 1,
            Slip::RefusedWrites if said.refusal.number != 0 => memory[end - 1] ^= 1,
            _ => {}
        }
        said
    }
    fn tick(&self, state: State) -> State {
        let mut next = flat::tick(state);
        next.task[MOST_REQUESTS - 1] ^= u8::from(self.0 == Slip::OneTickOneSlot && next.tick == 9);
        next.tick += u32::from(self.0 == Slip::StoppedTicks && state.outcome > 2 && next.tick < 9);
        next
    }
}
