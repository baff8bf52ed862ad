//! How a question is made of the words of the command line.
use crate::arguments::{usage, Arguments, Word};
use crate::input::Input;
use crate::output::shown;
use crate::questions::{List, Question, Table, QUESTIONS};
use crate::records::REQUEST_SIZE;
use desk::{grouped, LAST_ARRIVAL, MOST_TASKS};

/// The longest buffer that `overload` may be asked for.
const LONGEST_BUFFER: u64 = 16_777_216;

/// What a question takes, a table always first, and the question that it makes.
pub enum Form {
    Table(fn(Table) -> Question),
    List(fn(Table, List) -> Question),
    Number(Word, fn(Table, u64) -> Question),
    Numbers(Word, Word, fn(Table, u64, u64) -> Question),
}

/// A question's words: its name, what it takes, and what an answer looks like.
pub struct Words {
    pub name: &'static str,
    pub form: Form,
    pub example: &'static str,
}

impl Question {
    /// The question of this name, asked with these words, or why it cannot be asked.
    pub fn of(name: &str, words: &[String], input: &mut Input) -> Result<Question, String> {
        let Some(asked) = QUESTIONS.iter().find(|asked| asked.name == name) else {
            let name = shown(name);
            return Err(format!("{name}: there is no such command; see 'limpidorsa help'"));
        };
        let takes = asked.form.takes();
        let question = asked
            .form
            .question(&mut Arguments::new(asked.name, &takes, words, input)?)?;
        question.unless_too_long()
    }

    fn unless_too_long(self) -> Result<Question, String> {
        match self {
            Question::Overload(_, length, _) if length > LONGEST_BUFFER => {
                // Each task has at most one request at each arrival.
                let any_list = MOST_TASKS as u64 * (u64::from(LAST_ARRIVAL) + 1) * REQUEST_SIZE as u64;
                Err(format!(
                    "overload: BUFLEN is {length}; at most {LONGEST_BUFFER} can be asked for, and any list goes into \
                     {} bytes",
                    grouped(any_list)
                ))
            }
            _ => Ok(self),
        }
    }
}

impl Form {
    fn takes(&self) -> Vec<Word> {
        match self {
            Form::Table(_) => vec![Word::Table],
            Form::List(_) => vec![Word::Table, Word::List],
            Form::Number(number, _) => vec![Word::Table, *number],
            Form::Numbers(first, second, _) => vec![Word::Table, *first, *second],
        }
    }

    // The words are taken in their order, so that the first that is wrong is named.
    fn question(&self, words: &mut Arguments) -> Result<Question, String> {
        let table = words.bytes()?;
        Ok(match self {
            Form::Table(question) => question(table),
            Form::List(question) => question(table, words.bytes()?),
            Form::Number(_, question) => question(table, words.number()?),
            Form::Numbers(_, _, question) => question(table, words.number()?, words.number()?),
        })
    }
}

impl Words {
    /// The question as it is written.
    pub fn usage(&self) -> String {
        usage(self.name, &self.form.takes())
    }
}
