//! The earliest arrivals of a task from a start frame: the one walk that all sums use.

use crate::table::{Frame, Task};

/// One arrival of a walk: its offset from the start, the frame's number, and the frame.
pub struct Arrival<'a> {
    pub offset: u64,
    pub number: usize,
    pub frame: &'a Frame,
}

/// "Start at frame s at time 0 and let each next frame come as early as allowed", for the
/// arrivals with an offset below `end`. "A task's frames come round in order." Each P is at
/// least 1, so the offsets rise and the walk ends.
pub struct Walk<'a> {
    frames: &'a [Frame],
    number: usize,
    offset: u64,
    end: u64,
}

pub fn walk(task: &Task, start: usize, end: u64) -> Walk<'_> {
    Walk {
        frames: &task.frames,
        number: start,
        offset: 0,
        end,
    }
}

impl<'a> Iterator for Walk<'a> {
    type Item = Arrival<'a>;

    fn next(&mut self) -> Option<Arrival<'a>> {
        if self.offset >= self.end {
            return None;
        }
        let arrival = Arrival {
            offset: self.offset,
            number: self.number,
            frame: &self.frames[self.number],
        };
        // "A task's next request is its next frame, and comes at least P of the earlier frame
        // after it."
        self.offset += arrival.frame.p;
        self.number += 1;
        if self.number == self.frames.len() {
            self.number = 0;
        }
        Some(arrival)
    }
}
