// Written from crates/desk/src by the program in rust/header: do not edit.

pub const LAST_TICK: u32 = 131070;

pub const MOST_REQUESTS: usize = 128;
pub const MOST_LIST_BYTES: usize = 1024;

#[repr(C)]
#[derive(Debug, Clone, Copy, PartialEq, Eq)]
pub struct Refusal {
    pub number: u8,
    pub index: usize,
}

#[repr(C)]
#[derive(Debug, Clone, Copy, PartialEq, Eq)]
pub struct Window {
    pub refusal: Refusal,
    pub closes: bool,
    pub window: u64,
}

#[repr(C)]
#[derive(Debug, Clone, Copy, PartialEq, Eq)]
pub struct Written {
    pub refusal: Refusal,
    pub bytes: usize,
}

pub const RUNNING: u8 = 0;
pub const MISSED: u8 = 1;
pub const ALL_MET: u8 = 2;

#[repr(C)]
#[derive(Debug, Clone, Copy, PartialEq, Eq)]
pub struct State {
    pub tick: u32,
    pub outcome: u8,
    pub left: [u32; MOST_REQUESTS],
    pub task: [u8; MOST_REQUESTS],
    pub starts: [u8; 16],
}

// A slice of Rattle is a pointer and then a length.
extern "C" {
    pub fn limpidorsa_window(table: *const u8, table_len: usize) -> Window;
    pub fn limpidorsa_overload(
        table: *const u8,
        table_len: usize,
        buffer: *mut u8,
        buffer_len: usize,
        place: usize,
    ) -> Written;
    pub fn limpidorsa_tick(state: State) -> State;
}
