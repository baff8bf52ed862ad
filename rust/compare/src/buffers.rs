//! The overload list: its size, and the list written into buffers of many lengths from many places, each with guard
//! bytes on both sides.
use crate::ask::{Ask, Same};
use crate::counts::Section;
use crate::expected;
use crate::must::{LONG_LIST, SIZES};
use desk::MOST_LIST_BYTES;

const GUARD: usize = 24;

// The longest list that is asked for as a line, in bytes.
const LONGEST: usize = 100_000;

// What the writer spends on a byte of the list, in nanoseconds, over the verdict.
const BYTE: u64 = 4;

/// The overload list in every way. The list, where there is one and it could be paid.
pub fn overload(ask: &mut Ask) -> Same<Option<Vec<u8>>> {
    if !ask.pays("overload", ask.cost.verdict()) {
        return Ok(None);
    }
    let list = second::overload_list(&ask.table).ok();
    let once = ask.cost.verdict() + list.as_ref().map_or(0, |l| l.len() as u64 * BYTE);
    size(ask, list.as_ref().map(Vec::len), once)?;
    for (length, place) in rooms(ask, list.as_ref().map(Vec::len)) {
        if ask.pays("overload", once) {
            into_buffer(ask, length, place, list.as_deref())?;
        }
    }
    lines(ask, list.as_ref().map(Vec::len), once)?;
    if list.as_ref().is_some_and(|l| l.len() > MOST_LIST_BYTES) {
        ask.counts.add(Section::Compared, LONG_LIST, 1);
    }
    Ok(list)
}

// The size, which is the length of the list that the second program writes.
fn size(ask: &mut Ask, list: Option<usize>, once: u64) -> Same<()> {
    if !ask.pays("overload-size", once) {
        return Ok(());
    }
    let said = expected::written(second::overload_size(&ask.table));
    let size = ask.answers("overload-size", &[], ask.first.overload_size(&ask.table), said)?;
    let asked = || "overload-size, and the length of the list".to_string();
    ask.equal(asked, &size.map(|size| size.bytes), &list)?;
    if size.is_some() {
        ask.counts.add(Section::Compared, SIZES, 1);
    }
    if ask.pays("overload-size", once) {
        ask.table_line("overload-size", &[])?;
    }
    Ok(())
}

// Length of the buffer and place: exact room, one byte short, the place at the end, past it and far past it.
// Where there is nothing to write one of them will do.
fn rooms(ask: &mut Ask, list: Option<usize>) -> Vec<(usize, u64)> {
    let n = list.unwrap_or(16);
    let at = ask.rng.between(1, 40);
    let end = n as u64;
    let some = (ask.rng.below(2 * end + 40) as usize, ask.rng.below(end + 20));
    let all = vec![
        (n, 0),
        (n + at as usize, at),
        (n + at as usize + 9, at),
        (n - 1, 0),
        (n + at as usize - 1, at),
        (n, end),
        (n, end + 1),
        (n, u64::MAX),
        (n, u64::MAX - end + 1),
        (0, 0),
        (0, u64::MAX),
        some,
    ];
    if list.is_some() {
        all
    } else {
        vec![ask.rng.pick(&all)]
    }
}

// One buffer: both answers, and every byte of the memory that it is a part of.
fn into_buffer(ask: &mut Ask, length: usize, place: u64, list: Option<&[u8]>) -> Same<()> {
    let lent = GUARD..GUARD + length;
    let before = ask.rng.bytes(length + 2 * GUARD);
    let (mut one, mut two) = (before.clone(), before.clone());
    let first = ask.first.overload(&ask.table, &mut one, lent.clone(), place);
    let said = expected::written(second::overload(&ask.table, &mut two[lent], place));
    let asked = [length as u64, place];
    let written = ask.answers("overload", &asked, first, said)?;
    if let Some(at) = one.iter().zip(&two).position(|(a, b)| a != b) {
        let what = format!(
            "overload into {length} bytes from place {place}: byte {} of the buffer afterwards (below 0 and from the \
             length on it is a guard byte), which was {:02x}",
            at as i64 - GUARD as i64,
            before[at]
        );
        return Err(ask.difference(what, format!("{:02x}", one[at]), format!("{:02x}", two[at])));
    }
    if let (Some(written), Some(list)) = (written, list) {
        let from = GUARD + place as usize;
        let whole = &one[from..from + written.bytes];
        ask.equal(|| format!("overload-list, written from {place}"), &whole, &list)?;
        ask.counts.add(Section::Compared, "overload lists, whole", 1);
    }
    ask.counts.add(Section::Compared, "buffers with guard bytes", 1);
    ask.counts
        .add(Section::Compared, "bytes of buffers and guards", one.len() as u64);
    Ok(())
}

// The same as command lines, one of the buffers, where the line would not be too long.
fn lines(ask: &mut Ask, list: Option<usize>, once: u64) -> Same<()> {
    if list.is_some_and(|n| n > LONGEST) {
        ask.counts.add(Section::PassedOver, "overload-list", 1);
        return Ok(());
    }
    let rooms = rooms(ask, list);
    let (length, place) = ask.rng.pick(&rooms);
    if ask.rng.chance(50) && ask.pays("overload", once) {
        ask.table_line("overload", &[length as u64, place])?;
    }
    if ask.rng.chance(50) && ask.pays("overload-list", once) {
        ask.table_line("overload-list", &[])?;
    }
    Ok(())
}
