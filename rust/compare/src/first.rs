//! The first program, the proved library, as the comparison asks it: each answer flat, as it comes, so that no field of
//! it is passed over. A test puts a wrong answer in place of one of these.
use desk::flat;
use desk::raw::{Amount, Ending, Listed, Loaded, Margin, Response, Shape, State, Verdict, Window, Written};
use limpidorsa::batch;
use limpidorsa::lines::Line;
use std::ops::Range;

pub trait First: Sync {
    /// The answer line to a command line, and its exit status.
    fn line(&self, line: &str) -> Line {
        batch::answer_line(line)
    }
    fn read(&self, table: &[u8]) -> Shape {
        flat::read(table)
    }
    fn demand(&self, table: &[u8], task: u64, t: u64) -> Amount {
        flat::demand(table, task, t)
    }
    fn work(&self, table: &[u8], task: u64, w: u64) -> Amount {
        flat::work(table, task, w)
    }
    fn margin(&self, table: &[u8], t: u64) -> Margin {
        flat::margin(table, t)
    }
    fn window(&self, table: &[u8]) -> Window {
        flat::window(table)
    }
    fn verdict(&self, table: &[u8]) -> Verdict {
        flat::verdict(table)
    }
    fn response(&self, table: &[u8], task: u64, frame: u64) -> Response {
        flat::response(table, task, frame)
    }
    fn overload_size(&self, table: &[u8]) -> Written {
        flat::overload_size(table)
    }
    /// The overload list into the part of the memory that is lent.
    fn overload(&self, table: &[u8], memory: &mut [u8], lent: Range<usize>, place: u64) -> Written {
        flat::overload(table, &mut memory[lent], place as usize)
    }
    fn list(&self, table: &[u8], list: &[u8]) -> Listed {
        flat::list(table, list)
    }
    fn replay(&self, table: &[u8], list: &[u8]) -> Ending {
        flat::replay(table, list)
    }
    fn load(&self, table: &[u8], list: &[u8]) -> Loaded {
        flat::load(table, list)
    }
    fn tick(&self, state: State) -> State {
        flat::tick(state)
    }
}

/// The library and its command line as they are.
pub struct Proved;

impl First for Proved {}
