//! The words after a command's name, taken one by one as what the command says that it takes.
use crate::input::Input;
use crate::output::{count, shown};

/// What a word stands for.
#[derive(Debug, Clone, Copy, PartialEq, Eq)]
pub enum Word {
    Table,
    List,
    Task,
    Frame,
    T,
    W,
    Buflen,
    Place,
    Number,
    Files,
}

impl Word {
    /// The word as help and messages name it.
    pub fn name(self) -> &'static str {
        match self {
            Word::Table => "TABLE",
            Word::List => "LIST",
            Word::Task => "TASK",
            Word::Frame => "FRAME",
            Word::T => "T",
            Word::W => "W",
            Word::Buflen => "BUFLEN",
            Word::Place => "PLACE",
            Word::Number => "N",
            Word::Files => "FILE..",
        }
    }
}

/// A command as it is written.
pub fn usage(command: &str, takes: &[Word]) -> String {
    let words = takes.iter().map(|word| word.name());
    std::iter::once(command)
        .chain(words)
        .collect::<Vec<_>>()
        .join(" ")
}

/// The words that are left to be taken.
pub struct Arguments<'a> {
    command: &'static str,
    left: Vec<(Word, &'a str)>,
    input: &'a mut Input,
}

impl<'a> Arguments<'a> {
    /// Err, saying what the command takes, unless there are just as many words.
    pub fn new(
        command: &'static str,
        takes: &[Word],
        words: &'a [String],
        input: &'a mut Input,
    ) -> Result<Arguments<'a>, String> {
        if words.len() != takes.len() {
            return Err(wrong_number(&usage(command, takes), command, words));
        }
        let both = takes.iter().copied().zip(words.iter().map(String::as_str));
        Ok(Arguments {
            command,
            left: both.rev().collect(),
            input,
        })
    }

    /// The next word as it stands.
    pub fn word(&mut self) -> &'a str {
        self.next().1
    }

    /// The bytes that the next word names.
    pub fn bytes(&mut self) -> Result<Vec<u8>, String> {
        let (_, word) = self.next();
        self.input.bytes(word)
    }

    /// The next word as a number.
    pub fn number(&mut self) -> Result<u64, String> {
        let (what, word) = self.next();
        let digits = !word.is_empty() && word.bytes().all(|b| b.is_ascii_digit());
        let number = if digits { word.parse().ok() } else { None };
        number.ok_or_else(|| {
            format!(
                "{}: {} is '{}'; write a decimal number from 0 to {}",
                self.command,
                what.name(),
                shown(word),
                u64::MAX
            )
        })
    }

    fn next(&mut self) -> (Word, &'a str) {
        self.left
            .pop()
            .expect("a command takes no more words than it says")
    }
}

fn wrong_number(usage: &str, command: &str, words: &[String]) -> String {
    let quotes = if words.iter().any(|w| w.starts_with("hex:")) {
        "; bytes with blanks go between quotes: \"hex:00 03 ..\""
    } else {
        ""
    };
    let given = count(words.len() as u64, "word");
    format!("{command}: {given} given; it is '{usage}'{quotes}")
}
