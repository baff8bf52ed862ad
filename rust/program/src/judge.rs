//! `limpidorsa judge FILE..`: verdicts for people. One table gets a paragraph; of several each gets a line, with a
//! total below them.
use crate::input::Input;
use crate::lines::{self, unless_refused};
use crate::output::{complain, count, shown, wrapped, Out};
use crate::paragraph::{self, Judged};
use crate::progress::Progress;
use crate::status::Status;
use desk::Verdict;

pub fn judge(files: &[String], out: &mut Out) -> Status {
    let alone = files.len() == 1;
    let mut input = Input::of_call();
    let mut progress = Progress::on_terminal();
    let mut total = Total::new();
    for (i, file) in files.iter().enumerate() {
        progress.show(&format!("{} of {}: {} ..", i + 1, files.len(), shown(file)));
        let judged = input.bytes(file).map(Judged::of);
        total.count(&judged);
        let text = judged.map(|j| told(file, &j, alone));
        progress.clear();
        match text {
            Ok(text) => out.line(&text),
            Err(why) => complain(&why),
        }
        if !out.is_open() {
            break;
        }
    }
    if !alone {
        out.line(&total.line());
    }
    total.greatest
}

// What is said of a file: a paragraph where it is alone.
fn told(file: &str, judged: &Judged, alone: bool) -> String {
    let name = match file {
        "-" => "standard input".into(),
        _ => shown(file),
    };
    if alone {
        wrapped(&format!("{name}: {}", paragraph::paragraph(judged)))
    } else {
        format!("{name}: {}", paragraph::line(judged))
    }
}

struct Total {
    fit: u64,
    overloaded: u64,
    undecided: u64,
    refused: u64,
    unread: u64,
    greatest: Status,
}

impl Total {
    fn new() -> Total {
        Total {
            fit: 0,
            overloaded: 0,
            undecided: 0,
            refused: 0,
            unread: 0,
            greatest: Status::Fine,
        }
    }

    fn count(&mut self, judged: &Result<Judged, String>) {
        let verdict = judged.as_ref().map(|j| j.verdict);
        let counted = match verdict {
            Err(_) => &mut self.unread,
            Ok(Err(_)) => &mut self.refused,
            Ok(Ok(Verdict::Fits { .. })) => &mut self.fit,
            Ok(Ok(Verdict::Overloaded { .. })) => &mut self.overloaded,
            Ok(Ok(Verdict::Undecided)) => &mut self.undecided,
        };
        *counted += 1;
        let status = verdict.map_or(Status::NotAsked, |v| unless_refused(v, lines::verdict).status);
        self.greatest = self.greatest.max(status);
    }

    fn line(&self) -> String {
        let judged = self.fit + self.overloaded + self.undecided + self.refused;
        let unread = match self.unread {
            0 => String::new(),
            many => format!(", {many} could not be read"),
        };
        format!(
            "{}: {} fit, {} overloaded, {} undecided, {} refused{unread}",
            count(judged + self.unread, "table"),
            self.fit,
            self.overloaded,
            self.undecided,
            self.refused
        )
    }
}
