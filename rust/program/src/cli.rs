//! The command line: its words become a command, and the command is carried out.
use crate::command::Command;
use crate::output::{complain, shown, Out};
use crate::status::Status;
use crate::{ask, batch, explain, help, judge, steps};
use std::ffi::OsString;

const VERSION: &str = concat!("limpidorsa ", env!("CARGO_PKG_VERSION"));

/// Answers the arguments, without the program's name, and gives the exit status.
pub fn run(arguments: impl Iterator<Item = OsString>) -> Status {
    let mut out = Out::new();
    let status = match texts(arguments).and_then(|words| Command::of_call(&words)) {
        Ok(command) => carry_out(&command, &mut out),
        Err(why) => {
            complain(&why);
            Status::NotAsked
        }
    };
    out.end(status)
}

fn carry_out(command: &Command, out: &mut Out) -> Status {
    match command {
        Command::Judge { files } => judge::judge(files, out),
        Command::Steps { table, list } => out.say(&steps::steps(table, list)),
        Command::Explain { meaning } => out.say(&explain::explained(meaning)),
        Command::Batch => batch::batch(out),
        Command::Help => out.say(&help::help()),
        Command::Version => out.say(&crate::lines::Line::fine(VERSION.into())),
        Command::Ask(question) => out.say(&ask::answer(question)),
    }
}

// The arguments as text. A name of other bytes cannot be told in a message, so it is not taken.
fn texts(arguments: impl Iterator<Item = OsString>) -> Result<Vec<String>, String> {
    let text = |a: OsString| {
        a.into_string().map_err(|a| {
            let name = shown(&a.to_string_lossy());
            format!(
                "{name}: this word is not UTF-8; give such a file by standard input: limpidorsa .. - <FILE"
            )
        })
    };
    arguments.map(text).collect()
}
