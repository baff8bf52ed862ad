//! Tests of the module, and the tables of the document that they share.

mod bench;
mod edges;
mod lines;
mod numbers;
mod refusals;
mod refused;
mod sums;

/// One table record: task number, kind, then E, D, P.
pub fn record(task: u8, kind: u8, e: u16, d: u16, p: u16) -> Vec<u8> {
    let mut bytes = vec![task, kind];
    for number in [e, d, p] {
        bytes.extend(number.to_le_bytes());
    }
    bytes
}

/// One task of the given kind from its frames (E,D,P).
pub fn task(number: u8, kind: u8, frames: &[(u16, u16, u16)]) -> Vec<u8> {
    let records = frames.iter().map(|&(e, d, p)| record(number, kind, e, d, p));
    records.flatten().collect()
}

/// A table of sporadic tasks (E,D,P).
pub fn sporadic(tasks: &[(u16, u16, u16)]) -> Vec<u8> {
    let numbered = tasks.iter().enumerate();
    let records = numbered.map(|(number, &(e, d, p))| record(number as u8, 1, e, d, p));
    records.flatten().collect()
}

/// "A is task 0, kind 3 [..]: E 1,2,5,1; D 2,2,8,5; P 3,2,3,4."
pub fn a() -> Vec<u8> {
    task(0, 3, &[(1, 2, 3), (2, 2, 2), (5, 8, 3), (1, 5, 4)])
}

/// A with a sporadic task as task 1.
pub fn a_with(e: u16, d: u16, p: u16) -> Vec<u8> {
    [a(), record(1, 1, e, d, p)].concat()
}

/// "B is A with (1,2,10) as task 1".
pub fn b() -> Vec<u8> {
    a_with(1, 2, 10)
}

/// "kind 3, E 2,1,2; D 2,20,2; P 2,1,10"
pub fn k7() -> Vec<u8> {
    task(0, 3, &[(2, 2, 2), (1, 20, 1), (2, 2, 10)])
}

/// "F [..] kind 2, D = P: (1) at 3; (2) at 9; (3,1) at 18; (2,1) at 20; (6,3) at 60."
pub fn f() -> Vec<u8> {
    [
        task(0, 2, &[(1, 3, 3)]),
        task(1, 2, &[(2, 9, 9)]),
        task(2, 2, &[(3, 18, 18), (1, 18, 18)]),
        task(3, 2, &[(2, 20, 20), (1, 20, 20)]),
        task(4, 2, &[(6, 60, 60), (3, 60, 60)]),
    ]
    .concat()
}

/// One request record: task, frame, two zero bytes, arrival.
pub fn request(task: u8, frame: u8, arrival: u32) -> Vec<u8> {
    let mut bytes = vec![task, frame, 0, 0];
    bytes.extend(arrival.to_le_bytes());
    bytes
}

/// A request list from (task, frame, arrival).
pub fn requests(requests: &[(u8, u8, u32)]) -> Vec<u8> {
    let records = requests.iter();
    let records = records.map(|&(task, frame, arrival)| request(task, frame, arrival));
    records.flatten().collect()
}

/// A small source of numbers that look random, the same on each run.
pub struct Source(pub u64);

impl Source {
    /// A number from 1 to the greatest.
    pub fn up_to(&mut self, greatest: u64) -> u64 {
        self.0 = self.0.wrapping_mul(6_364_136_223_846_793_005);
        self.0 = self.0.wrapping_add(1_442_695_040_888_963_407);
        (self.0 >> 33) % greatest + 1
    }

    /// A legal table of up to four tasks whose numbers go up to the greatest.
    pub fn table(&mut self, greatest: u64) -> Vec<u8> {
        let mut table = Vec::new();
        for number in 0..self.up_to(4) as u8 {
            let kind = self.up_to(3) as u8;
            let frames = if kind == 1 { 1 } else { self.up_to(4) };
            let period = self.up_to(greatest) as u16;
            for _ in 0..frames {
                let e = self.up_to(greatest / 4 + 1) as u16;
                let d = self.up_to(greatest) as u16;
                let p = self.up_to(greatest) as u16;
                let (d, p) = if kind == 2 { (period, period) } else { (d, p) };
                table.extend(record(number, kind, e, d, p));
            }
        }
        table
    }
}
