//! Command lines that cannot be asked: both programs must say `error`.
use crate::ask::{Ask, Same};
use limpidorsa::lines::hex;

/// One of the ways to write a line wrong, about the case's table.
pub fn line(ask: &mut Ask) -> Same<()> {
    let table = format!("hex:{}", hex(&ask.table));
    let n = ask.rng.below(70_000);
    let lines = [
        String::new(),
        "no-such-command".to_string(),
        format!("no-such-command {table}"),
        format!("READ {table}"),
        "read".to_string(),
        format!("read {table} {n}"),
        format!("read {table}0"),
        format!("read {table}0g"),
        format!("margin {table}"),
        format!("margin {table} {n} {n}"),
        format!("margin {table} -{n}"),
        format!("margin {table} {n}x"),
        format!("margin {table} {}", "9".repeat(20)),
        format!("demand {table} {n}"),
        format!("response {table} 0 {n}.5"),
        format!("overload {table} {n}"),
        format!("overload-size {table} {n}"),
        format!("list {table}"),
        format!("replay {table} {n}"),
        format!("trace {table} hex:0"),
    ];
    let line = &lines[ask.rng.below(lines.len() as u64) as usize];
    ask.line("lines that cannot be asked", line)
}
