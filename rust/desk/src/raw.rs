// Written from crates/desk/src by the program in rust/header: do not edit.

pub const HORIZON: u64 = 65536;

pub const LAST_ARRIVAL: u32 = 65535;

pub const LAST_TICK: u32 = 131070;

pub const MOST_RECORDS: usize = 64;
pub const MOST_TABLE_BYTES: usize = 512;

pub const MOST_REQUESTS: usize = 128;
pub const MOST_LIST_BYTES: usize = 1024;

pub const LAST_REFUSAL: u8 = 13;

#[repr(C)]
#[derive(Debug, Clone, Copy, PartialEq, Eq)]
pub struct Refusal {
    pub number: u8,
    pub index: usize,
}

#[repr(C)]
#[derive(Debug, Clone, Copy, PartialEq, Eq)]
pub struct Shape {
    pub refusal: Refusal,
    pub tasks: usize,
    pub records: usize,
}

#[repr(C)]
#[derive(Debug, Clone, Copy, PartialEq, Eq)]
pub struct Amount {
    pub refusal: Refusal,
    pub amount: u64,
}

#[repr(C)]
#[derive(Debug, Clone, Copy, PartialEq, Eq)]
pub struct Margin {
    pub refusal: Refusal,
    pub margin: i64,
}

#[repr(C)]
#[derive(Debug, Clone, Copy, PartialEq, Eq)]
pub struct Window {
    pub refusal: Refusal,
    pub closes: bool,
    pub window: u64,
}

pub const OVERLOADED: u8 = 1;
pub const FITS: u8 = 2;
pub const UNDECIDED: u8 = 3;

#[repr(C)]
#[derive(Debug, Clone, Copy, PartialEq, Eq)]
pub struct Verdict {
    pub refusal: Refusal,
    pub verdict: u8,
    pub t: u64,
    pub margin: i64,
    pub window: u64,
    pub starts: [u8; 16],
}

#[repr(C)]
#[derive(Debug, Clone, Copy, PartialEq, Eq)]
pub struct Response {
    pub refusal: Refusal,
    pub late: bool,
    pub value: u64,
    pub round: u64,
}

#[repr(C)]
#[derive(Debug, Clone, Copy, PartialEq, Eq)]
pub struct Written {
    pub refusal: Refusal,
    pub bytes: usize,
}

#[repr(C)]
#[derive(Debug, Clone, Copy, PartialEq, Eq)]
pub struct Listed {
    pub refusal: Refusal,
    pub records: usize,
}

#[repr(C)]
#[derive(Debug, Clone, Copy, PartialEq, Eq)]
pub struct Ending {
    pub refusal: Refusal,
    pub missed: bool,
    pub tick: u32,
    pub index: usize,
}

pub const RUNNING: u8 = 0;
pub const MISSED: u8 = 1;
pub const ALL_MET: u8 = 2;

#[repr(C)]
#[derive(Debug, Clone, Copy, PartialEq, Eq)]
pub struct State {
    pub tick: u32,
    pub outcome: u8,
    pub index: usize,
    pub left: [u32; MOST_REQUESTS],
    pub due: [u32; MOST_REQUESTS],
    pub arrive: [u32; MOST_REQUESTS],
    pub release: [u32; MOST_REQUESTS],
    pub task: [u8; MOST_REQUESTS],
}

#[repr(C)]
#[derive(Debug, Clone, Copy, PartialEq, Eq)]
pub struct Loaded {
    pub refusal: Refusal,
    pub records: usize,
    pub state: State,
}

// A slice of Rattle is a pointer and then a length.
extern "C" {
    pub fn limpidorsa_read(table: *const u8, table_len: usize) -> Shape;
    pub fn limpidorsa_demand(table: *const u8, table_len: usize, task: u64, t: u64) -> Amount;
    pub fn limpidorsa_work(table: *const u8, table_len: usize, task: u64, w: u64) -> Amount;
    pub fn limpidorsa_margin(table: *const u8, table_len: usize, t: u64) -> Margin;
    pub fn limpidorsa_window(table: *const u8, table_len: usize) -> Window;
    pub fn limpidorsa_verdict(table: *const u8, table_len: usize) -> Verdict;
    pub fn limpidorsa_response(table: *const u8, table_len: usize, task: u64, frame: u64) -> Response;
    pub fn limpidorsa_overload_size(table: *const u8, table_len: usize) -> Written;
    pub fn limpidorsa_overload(
        table: *const u8,
        table_len: usize,
        buffer: *mut u8,
        buffer_len: usize,
        place: usize,
    ) -> Written;
    pub fn limpidorsa_list(table: *const u8, table_len: usize, list: *const u8, list_len: usize) -> Listed;
    pub fn limpidorsa_load(table: *const u8, table_len: usize, list: *const u8, list_len: usize) -> Loaded;
    pub fn limpidorsa_replay(table: *const u8, table_len: usize, list: *const u8, list_len: usize) -> Ending;
    pub fn limpidorsa_tick(state: State) -> State;
}
