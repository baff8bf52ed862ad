//! A table read record by record, with its refusals and the search for a task or frame (9).

use crate::No;

/// One frame: "E is run time, D the deadline from arrival, P the least time to the next
/// frame's arrival."
#[derive(Debug, Clone, PartialEq)]
pub(crate) struct Frame {
    pub e: u64,
    pub d: u64,
    pub p: u64,
}

/// "A task is a run of records with one number".
#[derive(Debug, Clone, PartialEq)]
pub(crate) struct Task {
    pub kind: u8,
    pub frames: Vec<Frame>,
}

/// The tasks of a table in table order; the task number is the place in this vector.
#[derive(Debug, Clone, PartialEq)]
pub(crate) struct Table {
    pub tasks: Vec<Task>,
}

/// Tasks and records of a table.
pub fn read(table: &[u8]) -> Result<(usize, usize), No> {
    let table = parse(table)?;
    let records = table.tasks.iter().map(|task| task.frames.len()).sum();
    Ok((table.tasks.len(), records))
}

/// "Tables are tested first: length, then records in order, in each record 2, 3, 4, 5, 6."
pub(crate) fn parse(bytes: &[u8]) -> Result<Table, No> {
    // 1: "table length 0, above 512, or not a multiple of 8"
    let records = bytes.chunks_exact(8);
    if bytes.is_empty() || bytes.len() > 512 || !records.remainder().is_empty() {
        return Err((1, 0));
    }
    let mut tasks: Vec<Task> = Vec::new();
    for (index, record) in records.enumerate() {
        match add(&mut tasks, record) {
            Ok(()) => {}
            Err(number) => return Err((number, index)),
        }
    }
    Ok(Table { tasks })
}

/// Adds one record to the tasks before it, or gives the number of its refusal.
fn add(tasks: &mut Vec<Task>, record: &[u8]) -> Result<(), u8> {
    let number = usize::from(record[0]);
    let kind = record[1];
    // 2: "task number above 15, or not the run described above", that is "the first is task 0
    // and each next task is one more".
    let next = number == tasks.len();
    let same = number + 1 == tasks.len();
    if number > 15 || !(next || same) {
        return Err(2);
    }
    // The task so far: without frames where this record is its first.
    if next {
        let frames = Vec::new();
        tasks.push(Task { kind, frames });
    }
    let task = &mut tasks[number];
    let frame = frame(task, kind, record)?;
    task.frames.push(frame);
    Ok(())
}

/// The frame of a record that comes next in its task, or 3, 4, 5 or 6 in this order.
fn frame(task: &Task, kind: u8, record: &[u8]) -> Result<Frame, u8> {
    let first = task.frames.first();
    // 3: "kind not 1 to 3, differs inside a task, or second frame of kind 1"
    if !(1..=3).contains(&kind) || kind != task.kind || (kind == 1 && first.is_some()) {
        return Err(3);
    }
    // 4: "seventeenth frame of a task"
    if task.frames.len() == 16 {
        return Err(4);
    }
    // "then E, D, P, each 16 bits, low byte first"
    let e = sixteen_bits(record[2], record[3]);
    let d = sixteen_bits(record[4], record[5]);
    let p = sixteen_bits(record[6], record[7]);
    // 5: "E, D or P is zero"
    if e == 0 || d == 0 || p == 0 {
        return Err(5);
    }
    // 6: "kind 2 with D not P, or P unlike the task's first"
    if kind == 2 && (d != p || first.is_some_and(|first| first.p != p)) {
        return Err(6);
    }
    Ok(Frame { e, d, p })
}

fn sixteen_bits(low: u8, high: u8) -> u64 {
    u64::from(u16::from_le_bytes([low, high]))
}

impl Table {
    /// 9: "no such task or frame", asked about a task.
    pub fn task(&self, number: u64) -> Result<&Task, No> {
        let number = usize::try_from(number).map_err(|_| (9, 0))?;
        self.tasks.get(number).ok_or((9, 0))
    }
}

impl Task {
    /// 9: "no such task or frame", asked about a frame of this task.
    pub fn frame(&self, number: u64) -> Result<&Frame, No> {
        let number = usize::try_from(number).map_err(|_| (9, 0))?;
        self.frames.get(number).ok_or((9, 0))
    }
}
