//! Records of tables and of request lists, as the generator holds them before they are bytes.

/// A frame's record in a table.
#[derive(Debug, Clone, Copy, PartialEq, Eq)]
pub struct Record {
    pub task: u8,
    pub kind: u8,
    pub e: u16,
    pub d: u16,
    pub p: u16,
}

/// A request's record in a list.
#[derive(Debug, Clone, Copy, PartialEq, Eq)]
pub struct Request {
    pub task: u8,
    pub frame: u8,
    pub pad: [u8; 2],
    pub arrival: u32,
}

impl Record {
    fn bytes(self) -> [u8; 8] {
        let [e, d, p] = [self.e, self.d, self.p].map(u16::to_le_bytes);
        [self.task, self.kind, e[0], e[1], d[0], d[1], p[0], p[1]]
    }

    fn of(b: &[u8]) -> Record {
        let word = |i: usize| u16::from_le_bytes([b[i], b[i + 1]]);
        Record {
            task: b[0],
            kind: b[1],
            e: word(2),
            d: word(4),
            p: word(6),
        }
    }
}

impl Request {
    fn bytes(self) -> [u8; 8] {
        let a = self.arrival.to_le_bytes();
        [
            self.task,
            self.frame,
            self.pad[0],
            self.pad[1],
            a[0],
            a[1],
            a[2],
            a[3],
        ]
    }
}

pub fn table_of(records: &[Record]) -> Vec<u8> {
    records.iter().flat_map(|r| r.bytes()).collect()
}

pub fn list_of(requests: &[Request]) -> Vec<u8> {
    requests.iter().flat_map(|r| r.bytes()).collect()
}

/// The whole records of any bytes.
pub fn records_of(table: &[u8]) -> Vec<Record> {
    table.chunks_exact(8).map(Record::of).collect()
}

/// The records of any bytes, each run with one number together: the tasks, where the bytes are a good table.
pub fn tasks_of(table: &[u8]) -> Vec<Vec<Record>> {
    let mut tasks: Vec<Vec<Record>> = Vec::new();
    for record in records_of(table) {
        match tasks.last_mut() {
            Some(run) if run[0].task == record.task => run.push(record),
            _ => tasks.push(vec![record]),
        }
    }
    tasks
}
