//! A progress line, which the next one overwrites, for a person at a terminal.
use std::io::{self, IsTerminal, Stderr, Write};

/// Longer lines would be broken by the terminal and could not be overwritten.
const WIDTH: usize = 79;

pub struct Progress<W: Write> {
    to: Option<W>,
    width: usize,
}

impl Progress<Stderr> {
    /// On standard error, or nowhere unless that is a terminal.
    pub fn on_terminal() -> Progress<Stderr> {
        let err = io::stderr();
        Progress {
            to: err.is_terminal().then_some(err),
            width: 0,
        }
    }
}

impl<W: Write> Progress<W> {
    /// Shows a line in place of the one before.
    pub fn show(&mut self, text: &str) {
        self.clear();
        let text: String = text.chars().take(WIDTH).collect();
        self.width = text.chars().count();
        self.write(&text);
    }

    /// Leaves an empty line for what is said next.
    pub fn clear(&mut self) {
        if self.width > 0 {
            self.write(&format!("\r{}\r", " ".repeat(self.width)));
            self.width = 0;
        }
    }

    // Progress that cannot be shown is no reason to stop.
    fn write(&mut self, text: &str) {
        if let Some(to) = &mut self.to {
            let _ = write!(to, "{text}").and_then(|()| to.flush());
        }
    }
}

#[cfg(test)]
mod tests {
    use super::*;

    #[test]
    fn lines_are_overwritten_and_cut() {
        let mut p = Progress {
            to: Some(Vec::new()),
            width: 0,
        };
        p.show("1 of 2: a ..");
        p.show(&"x".repeat(200));
        p.clear();
        p.clear();
        let blank = |many| format!("\r{}\r", " ".repeat(many));
        let expected = format!("1 of 2: a ..{}{}{}", blank(12), "x".repeat(79), blank(79));
        assert_eq!(String::from_utf8(p.to.unwrap()).unwrap(), expected);
    }
}
