//! One question asked of both programs, its answers compared and counted.
use crate::answer::Answer;
use crate::cost::Cost;
use crate::counts::{Counts, Section};
use crate::difference::{shown, Difference};
use crate::first::First;
use crate::must::NUMBERS;
use crate::purse::Purse;
use crate::rng::Rng;
use limpidorsa::lines::{hex, Line};
use limpidorsa::status::Status;
use std::fmt::Debug;

pub type Same<A> = Result<A, Difference>;

/// What a case has in hand.
pub struct Ask<'a> {
    pub first: &'a dyn First,
    pub rng: Rng,
    pub purse: Purse,
    pub counts: Counts,
    pub cost: Cost,
    pub table: Vec<u8>,
    pub list: Vec<u8>,
}

/// The exit status that goes with an answer line.
pub fn status_of(answer: &str) -> Status {
    let word = answer.split(' ').next().unwrap_or_default();
    let late = answer.contains(":late/");
    let missed = word == "trace" && answer.contains(" miss ");
    match word {
        "error" => Status::NotAsked,
        "refused" => Status::Refused,
        "overloaded" | "undecided" | "late" | "miss" => Status::BadNews,
        _ if late || missed => Status::BadNews,
        _ => Status::Fine,
    }
}

impl Ask<'_> {
    pub fn difference(&self, question: String, first: String, second: String) -> Difference {
        Difference {
            question,
            first,
            second,
            table: self.table.clone(),
            list: self.list.clone(),
        }
    }

    /// Two values that must be the same; `what` names them where they are not.
    pub fn equal<A: PartialEq + Debug>(&self, what: impl Fn() -> String, first: &A, second: &A) -> Same<()> {
        if first == second {
            return Ok(());
        }
        Err(self.difference(what(), shown(first), shown(second)))
    }

    /// Two answers to a command with these numbers, every field of them. The answer that both gave, or none where both
    /// refused.
    pub fn answers<A: Answer>(
        &mut self,
        command: &'static str,
        numbers: &[u64],
        first: A,
        second: A,
    ) -> Same<Option<A>> {
        let asked = || format!("{command} with the numbers {numbers:?}");
        self.equal(asked, &first, &second)?;
        self.counts.add(Section::Questions, command, 1);
        let number = first.refusal().number as usize;
        if number == 0 {
            return Ok(Some(first));
        }
        let known = NUMBERS.get(number - 1).map(String::as_str);
        self.counts
            .add(Section::Refusals, known.unwrap_or("of no number"), 1);
        Ok(None)
    }

    /// Whether a question can be paid; if not, it is counted as passed over.
    pub fn pays(&mut self, command: &'static str, cost: u64) -> bool {
        let can = self.purse.pays(cost);
        if !can {
            self.counts.add(Section::PassedOver, command, 1);
        }
        can
    }

    /// A command line about the table, with numbers after it.
    pub fn table_line(&mut self, command: &'static str, numbers: &[u64]) -> Same<()> {
        let mut line = format!("{command} hex:{}", hex(&self.table));
        numbers.iter().for_each(|n| line += &format!(" {n}"));
        self.line(command, &line)
    }

    /// A command line about the table and the list.
    pub fn list_line(&mut self, command: &'static str) -> Same<()> {
        let line = format!("{command} hex:{} hex:{}", hex(&self.table), hex(&self.list));
        self.line(command, &line)
    }

    /// A whole line. Where a line cannot be asked, what follows `error` is each program's own.
    pub fn line(&mut self, command: &'static str, line: &str) -> Same<()> {
        let (Line { text, status }, second) = (self.first.line(line), second::answer(line));
        let errors = text.starts_with("error") && second.starts_with("error");
        if !errors {
            self.equal(|| format!("the line: {line}"), &text, &second)?;
        }
        let asked = || format!("the exit status of: {line}");
        self.equal(asked, &status, &status_of(&second))?;
        self.counts.add(Section::Lines, command, 1);
        Ok(())
    }
}
