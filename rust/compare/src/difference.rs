//! A question on which the two programs differ, as it is said loudly.
use limpidorsa::lines::hex;
use std::fmt::Debug;

#[derive(Debug, Clone)]
pub struct Difference {
    pub question: String,
    pub first: String,
    pub second: String,
    pub table: Vec<u8>,
    pub list: Vec<u8>,
}

// Whole states and buffers are long: an answer is cut where a reader would stop.
pub fn shown(answer: &impl Debug) -> String {
    let text = format!("{answer:?}");
    if text.len() <= 4_000 {
        return text;
    }
    let cut: String = text.chars().take(4_000).collect();
    format!("{cut}.. ({} characters)", text.len())
}

impl Difference {
    pub fn report(&self, seed: u64, case: u64) -> String {
        let bar = "!".repeat(72);
        format!(
            "{bar}\nTHE TWO PROGRAMS DIFFER\n  asked:   {}\n  first:   {}\n  second:  {}\n  table:   hex:{}\n  \
             list:    hex:{}\n  seed {seed}, case {case}; to repeat it alone:\n  \
             compare --seed {seed} --case {case}\n{bar}",
            self.question,
            self.first,
            self.second,
            hex(&self.table),
            hex(&self.list)
        )
    }
}
