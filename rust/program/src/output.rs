//! What the program says: standard output line by line, complaints on standard error, and words shown in messages.
use crate::lines::Line;
use crate::status::Status;
use desk::grouped;
use std::io::{self, ErrorKind, Write};

/// Standard output. A reader that has gone away (`limpidorsa help | head -1`) is no error: nothing more is said.
pub struct Out {
    stopped: Option<io::Error>,
}

impl Out {
    pub fn new() -> Out {
        Out { stopped: None }
    }

    /// Says the text and ends the line, at once, so that another program can wait for it.
    pub fn line(&mut self, text: &str) {
        if self.is_open() {
            let mut out = io::stdout().lock();
            self.stopped = writeln!(out, "{text}").and_then(|()| out.flush()).err();
        }
    }

    /// Says an answer line, and hands back its exit status.
    pub fn say(&mut self, line: &Line) -> Status {
        self.line(&line.text);
        line.status
    }

    /// Whether more can be said.
    pub fn is_open(&self) -> bool {
        self.stopped.is_none()
    }

    /// The exit status, once all is said.
    pub fn end(self, status: Status) -> Status {
        match self.stopped {
            Some(e) if e.kind() != ErrorKind::BrokenPipe => {
                complain(&format!(
                    "the answer could not be written ({e}); free some space or name another place"
                ));
                Status::NotAsked
            }
            _ => status,
        }
    }
}

impl Default for Out {
    fn default() -> Out {
        Out::new()
    }
}

/// Says on standard error what went wrong. There is nobody to tell where that fails too.
pub fn complain(why: &str) {
    let _ = writeln!(io::stderr(), "limpidorsa: {why}");
}

/// A word as a message shows it: on one line, and not longer than a person reads.
pub fn shown(word: &str) -> String {
    const MOST: usize = 200;
    let mut text = String::new();
    for c in word.chars().take(MOST) {
        if c.is_control() {
            text.extend(c.escape_default());
        } else {
            text.push(c);
        }
    }
    if word.chars().count() > MOST {
        text.push_str("..");
    }
    text
}

/// A number with a word for what is counted, which gets an s unless there is one.
pub fn count(many: u64, what: &str) -> String {
    let s = if many == 1 { "" } else { "s" };
    format!("{} {what}{s}", grouped(many))
}

pub fn ticks(many: u64) -> String {
    count(many, "tick")
}

/// The text in lines of at most 80 columns, broken at blanks.
pub fn wrapped(text: &str) -> String {
    const WIDTH: usize = 80;
    let mut lines: Vec<String> = Vec::new();
    for word in text.split(' ') {
        match lines.last_mut() {
            Some(line) if line.chars().count() + 1 + word.chars().count() <= WIDTH => {
                line.push(' ');
                line.push_str(word);
            }
            _ => lines.push(word.to_string()),
        }
    }
    lines.join("\n")
}

#[cfg(test)]
mod tests {
    use super::*;

    #[test]
    fn text_is_broken_at_blanks_before_81_columns() {
        let text = wrapped(&"ten signs. ".repeat(20));
        assert!(text.lines().count() > 2);
        assert!(text.lines().all(|l| l.len() <= 80));
        assert!(text.lines().next().unwrap().len() > 70);
        assert_eq!(text.replace('\n', " "), "ten signs. ".repeat(20));
    }

    #[test]
    fn words_are_shown_on_one_line_and_cut() {
        assert_eq!(shown("a\nb 'c'"), "a\\nb 'c'");
        assert_eq!(shown(&"x".repeat(1000)).len(), 202);
    }

    #[test]
    fn counts_as_people_read_them() {
        assert_eq!(count(1234567, "tick"), "1,234,567 ticks");
        assert_eq!(count(1, "tick"), "1 tick");
        assert_eq!(count(0, "tick"), "0 ticks");
    }
}
