//! Questions on standard input, one a line, and one answer line for each.
use crate::ask;
use crate::command::ForPeople;
use crate::input::Input;
use crate::lines::Line;
use crate::output::{complain, shown, Out};
use crate::questions::Question;
use crate::split::words;
use crate::status::Status;
use std::io::{self, BufRead, Read};

/// No longer line is taken: its bytes are passed over, and it answers an error. The longest table and list are a few
/// thousand digits, so no line that is not refused is near this.
const LONGEST_LINE: u64 = 16 << 20;

/// Answers every line of standard input. The exit status is the greatest of its lines.
pub fn batch(out: &mut Out) -> Status {
    let mut from = io::stdin().lock();
    let mut greatest = Status::Fine;
    while out.is_open() {
        match next_line(&mut from) {
            Ok(None) => break,
            Ok(Some(line)) => greatest = greatest.max(out.say(&answer_bytes(&line))),
            Err(e) => {
                complain(&format!(
                    "standard input: it cannot be read ({e}); give the lines again"
                ));
                return Status::NotAsked;
            }
        }
    }
    greatest
}

/// The answer line of one line of a batch.
pub fn answer_line(line: &str) -> Line {
    match question(line) {
        Ok(question) => ask::answer(&question),
        Err(why) => Line::error(&why),
    }
}

fn question(line: &str) -> Result<Question, String> {
    let words = words(line)?;
    let Some((name, rest)) = words.split_first() else {
        return Err("the line is empty; write a command and its words".into());
    };
    if ForPeople::of(name).is_some() {
        let name = shown(name);
        return Err(format!(
            "{name}: this command is not for a batch; give it to limpidorsa itself"
        ));
    }
    Question::of(name, rest, &mut Input::of_batch())
}

// A line may be any bytes; None stands for one that is too long.
fn answer_bytes(line: &Option<Vec<u8>>) -> Line {
    let Some(bytes) = line else {
        return Line::error(&format!(
            "the line is longer than {LONGEST_LINE} bytes; name a file"
        ));
    };
    match std::str::from_utf8(bytes) {
        Ok(text) => answer_line(text),
        Err(e) => Line::error(&format!(
            "the line is not text: byte {} is not UTF-8; write the line in UTF-8",
            e.valid_up_to() + 1
        )),
    }
}

// The next line without its line feed, if there is one. A last line may have no line feed.
fn next_line(from: &mut impl BufRead) -> io::Result<Option<Option<Vec<u8>>>> {
    let mut line = Vec::new();
    if from.take(LONGEST_LINE + 1).read_until(b'\n', &mut line)? == 0 {
        return Ok(None);
    }
    if line.last() == Some(&b'\n') {
        line.pop();
    } else if line.len() as u64 > LONGEST_LINE {
        pass_line(from)?;
        return Ok(Some(None));
    }
    Ok(Some(Some(line)))
}

// Passes over the rest of a line.
fn pass_line(from: &mut impl BufRead) -> io::Result<()> {
    loop {
        let some = from.fill_buf()?;
        let (many, ended) = match some.iter().position(|&b| b == b'\n') {
            Some(at) => (at + 1, true),
            None => (some.len(), some.is_empty()),
        };
        from.consume(many);
        if ended {
            return Ok(());
        }
    }
}

#[cfg(test)]
mod tests {
    use super::*;

    #[test]
    fn a_line_that_is_too_long_is_passed_over_whole() {
        let long = io::repeat(b'x').take(LONGEST_LINE + 9).chain(&b"\nread\nx"[..]);
        let mut from = io::BufReader::new(long);
        assert_eq!(next_line(&mut from).unwrap(), Some(None));
        assert_eq!(next_line(&mut from).unwrap(), Some(Some(b"read".to_vec())));
        assert_eq!(next_line(&mut from).unwrap(), Some(Some(b"x".to_vec())));
        assert_eq!(next_line(&mut from).unwrap(), None);
    }

    #[test]
    fn the_longest_line_is_taken() {
        let line = io::repeat(b'x').take(LONGEST_LINE).chain(&b"\n"[..]);
        let taken = next_line(&mut io::BufReader::new(line))
            .unwrap()
            .unwrap()
            .unwrap();
        assert_eq!(taken.len() as u64, LONGEST_LINE);
    }
}
