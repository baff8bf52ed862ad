//! `limpidorsa explain N`: what refusal N means, and a call that gets it.
use crate::lines::Line;
use crate::output::wrapped;
use desk::Meaning;

pub fn explained(meaning: &Meaning) -> Line {
    let (number, when, index) = (meaning.number, meaning.when(), meaning.index.says());
    let means = wrapped(&format!("Refusal {number} is given when {when}. {index}"));
    Line::fine(format!(
        "{means}\n\nFor example, {}:\n\n    limpidorsa {}\n    {}",
        meaning.because,
        meaning.command(),
        meaning.answer
    ))
}
