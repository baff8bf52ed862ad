//! What the program is called for: a question, or one of the commands that are for people.
use crate::arguments::{usage, Arguments, Word};
use crate::input::Input;
use crate::output::shown;
use crate::questions::Question;
use desk::{refusals, Meaning, LAST_REFUSAL};

const NO_COMMAND: &str =
    "no command was given; for example 'limpidorsa judge FILE..', and 'limpidorsa help' has them all";
const NO_FILE: &str = "judge: no file is named; it is 'judge FILE..', for example 'judge examples/*'";

/// A call with all its words taken.
pub enum Command {
    Judge { files: Vec<String> },
    Steps { table: Vec<u8>, list: Vec<u8> },
    Explain { meaning: &'static Meaning },
    Batch,
    Help,
    Version,
    Ask(Question),
}

/// The commands that are for people, and so not for a line of a batch.
#[derive(Clone, Copy, PartialEq, Eq)]
pub enum ForPeople {
    Judge,
    Steps,
    Explain,
    Batch,
    Help,
    Version,
}

impl Command {
    /// The command of the program's words, or why there is none. `--help` asks for help wherever it stands.
    pub fn of_call(words: &[String]) -> Result<Command, String> {
        let Some((name, rest)) = words.split_first() else {
            return Err(NO_COMMAND.into());
        };
        if words.iter().any(|word| word == "--help") {
            return Ok(Command::Help);
        }
        let mut input = Input::of_call();
        match ForPeople::of(name) {
            Some(command) => command.with(rest, &mut input),
            None => Question::of(name, rest, &mut input).map(Command::Ask),
        }
    }
}

impl ForPeople {
    pub fn of(name: &str) -> Option<ForPeople> {
        match name {
            "judge" => Some(ForPeople::Judge),
            "steps" => Some(ForPeople::Steps),
            "explain" => Some(ForPeople::Explain),
            "batch" => Some(ForPeople::Batch),
            "help" | "-h" | "--help" => Some(ForPeople::Help),
            "version" | "--version" => Some(ForPeople::Version),
            _ => None,
        }
    }

    // Its name and what it takes. Help and version do not look at what follows.
    fn words(self) -> (&'static str, &'static [Word]) {
        match self {
            ForPeople::Judge => ("judge", &[Word::Files]),
            ForPeople::Steps => ("steps", &[Word::Table, Word::List]),
            ForPeople::Explain => ("explain", &[Word::Number]),
            ForPeople::Batch => ("batch", &[]),
            ForPeople::Help => ("help", &[]),
            ForPeople::Version => ("--version", &[]),
        }
    }

    /// The command as it is written.
    pub fn usage(self) -> String {
        let (name, takes) = self.words();
        usage(name, takes)
    }

    fn with(self, words: &[String], input: &mut Input) -> Result<Command, String> {
        match self {
            ForPeople::Judge if words.is_empty() => Err(NO_FILE.into()),
            ForPeople::Judge => Ok(Command::Judge {
                files: words.to_vec(),
            }),
            ForPeople::Steps => {
                let mut a = self.arguments(words, input)?;
                let (table, list) = (a.bytes()?, a.bytes()?);
                Ok(Command::Steps { table, list })
            }
            ForPeople::Explain => explained(self.arguments(words, input)?.word()),
            ForPeople::Batch => self.arguments(words, input).map(|_| Command::Batch),
            ForPeople::Help => Ok(Command::Help),
            ForPeople::Version => Ok(Command::Version),
        }
    }

    fn arguments<'a>(self, words: &'a [String], input: &'a mut Input) -> Result<Arguments<'a>, String> {
        let (name, takes) = self.words();
        Arguments::new(name, takes, words, input)
    }
}

// A refusal number is written in one way: not 01.
fn explained(word: &str) -> Result<Command, String> {
    let meaning = refusals::ALL.iter().find(|m| m.number.to_string() == word);
    let wrong = || {
        let word = shown(word);
        format!("explain: N is '{word}'; write a refusal number, 1 to {LAST_REFUSAL}")
    };
    Ok(Command::Explain {
        meaning: meaning.ok_or_else(wrong)?,
    })
}
