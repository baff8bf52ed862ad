//! The library's functions on Rust's slices, each with its flat answer as it comes: the refusal in front, and zero in
//! every field that the answer has no use for. Any bytes and any numbers may be handed in, and nothing is kept after a
//! call.
use crate::raw::{
    self, Amount, Ending, Listed, Loaded, Margin, Response, Shape, State, Verdict, Window, Written,
};

/// What the bytes are as a table.
pub fn read(table: &[u8]) -> Shape {
    // SAFETY: a slice's own pointer and length, and the library only reads from it.
    unsafe { raw::limpidorsa_read(table.as_ptr(), table.len()) }
}

/// The demand of a task at t.
pub fn demand(table: &[u8], task: u64, t: u64) -> Amount {
    // SAFETY: a slice's own pointer and length, and the library only reads from it.
    unsafe { raw::limpidorsa_demand(table.as_ptr(), table.len(), task, t) }
}

/// The work of a task in a window w.
pub fn work(table: &[u8], task: u64, w: u64) -> Amount {
    // SAFETY: a slice's own pointer and length, and the library only reads from it.
    unsafe { raw::limpidorsa_work(table.as_ptr(), table.len(), task, w) }
}

/// The margin of the whole table at t.
pub fn margin(table: &[u8], t: u64) -> Margin {
    // SAFETY: a slice's own pointer and length, and the library only reads from it.
    unsafe { raw::limpidorsa_margin(table.as_ptr(), table.len(), t) }
}

/// The closing window of the table.
pub fn window(table: &[u8]) -> Window {
    // SAFETY: a slice's own pointer and length, and the library only reads from it.
    unsafe { raw::limpidorsa_window(table.as_ptr(), table.len()) }
}

/// The earliest-deadline verdict on the table.
pub fn verdict(table: &[u8]) -> Verdict {
    // SAFETY: a slice's own pointer and length, and the library only reads from it.
    unsafe { raw::limpidorsa_verdict(table.as_ptr(), table.len()) }
}

/// The response of a frame under fixed priorities.
pub fn response(table: &[u8], task: u64, frame: u64) -> Response {
    // SAFETY: a slice's own pointer and length, and the library only reads from it.
    unsafe { raw::limpidorsa_response(table.as_ptr(), table.len(), task, frame) }
}

/// How many bytes the overload list has.
pub fn overload_size(table: &[u8]) -> Written {
    // SAFETY: a slice's own pointer and length, and the library only reads from it.
    unsafe { raw::limpidorsa_overload_size(table.as_ptr(), table.len()) }
}

/// The overload list, written into the buffer from the place on.
pub fn overload(table: &[u8], buffer: &mut [u8], place: usize) -> Written {
    // SAFETY: each slice's own pointer and length. The library only reads from the table; the buffer is borrowed by
    // this call alone, so it overlaps nothing.
    unsafe {
        raw::limpidorsa_overload(
            table.as_ptr(),
            table.len(),
            buffer.as_mut_ptr(),
            buffer.len(),
            place,
        )
    }
}

/// What the bytes are as a request list of the table.
pub fn list(table: &[u8], list: &[u8]) -> Listed {
    // SAFETY: each slice's own pointer and length, and the library only reads from them.
    unsafe { raw::limpidorsa_list(table.as_ptr(), table.len(), list.as_ptr(), list.len()) }
}

/// The replay of a list.
pub fn replay(table: &[u8], list: &[u8]) -> Ending {
    // SAFETY: each slice's own pointer and length, and the library only reads from them.
    unsafe { raw::limpidorsa_replay(table.as_ptr(), table.len(), list.as_ptr(), list.len()) }
}

/// The bench loaded with a list.
pub fn load(table: &[u8], list: &[u8]) -> Loaded {
    // SAFETY: each slice's own pointer and length, and the library only reads from them.
    unsafe { raw::limpidorsa_load(table.as_ptr(), table.len(), list.as_ptr(), list.len()) }
}

/// One tick of a bench, of any state.
pub fn tick(state: State) -> State {
    // SAFETY: numbers in and numbers out; no pointer is handed over.
    unsafe { raw::limpidorsa_tick(state) }
}
