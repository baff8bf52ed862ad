//! The values of constants: numbers, names of other constants, in this crate or another, products and sums of these.
use crate::error::Error;
use crate::item::{Const, Item};
use crate::source::{File, Source};
use crate::types::number;

/// No chain of constants is longer, unless it goes round.
const LONGEST_CHAIN: usize = 32;

/// The value of an expression in a line of a file.
pub fn value(source: &Source, file: &File, line: usize, text: &str) -> Result<i128, Error> {
    Chain {
        source,
        left: LONGEST_CHAIN,
    }
    .sum(file, line, text)
}

// How many more names may be followed.
struct Chain<'a> {
    source: &'a Source,
    left: usize,
}

impl Chain<'_> {
    fn sum(&self, file: &File, line: usize, text: &str) -> Result<i128, Error> {
        let too_large = || file.place.error(line, format!("'{text}' is too large"));
        text.split(" + ").try_fold(0i128, |sum, term| {
            let product = term.split(" * ").try_fold(1i128, |product, factor| {
                let factor = self.factor(file, line, factor)?;
                product.checked_mul(factor).ok_or_else(too_large)
            })?;
            sum.checked_add(product).ok_or_else(too_large)
        })
    }

    fn factor(&self, file: &File, line: usize, text: &str) -> Result<i128, Error> {
        if text.starts_with(|c: char| c.is_ascii_digit()) {
            let digits: String = text.chars().filter(|c| *c != '_').collect();
            return digits.parse().map_err(|_| unknown(file, line, text));
        }
        let is_path = text.chars().all(|c| c.is_alphanumeric() || c == '_' || c == ':');
        if !is_path || text.is_empty() {
            return Err(unknown(file, line, text));
        }
        self.named(file, line, text)
    }

    // The constant of that name, wherever it is declared.
    fn named(&self, file: &File, line: usize, text: &str) -> Result<i128, Error> {
        if self.left == 0 {
            return Err(file
                .place
                .error(line, format!("the constant {text} goes round in a circle")));
        }
        let (place, name) = self.source.declared(file, text);
        let there = self.source.file(&place)?;
        let found = there.entries.iter().find_map(|entry| match &entry.item {
            Item::Const(one) if one.name == name => Some((entry.line, one)),
            _ => None,
        });
        let (at, one) = found.ok_or_else(|| {
            let what = format!(
                "there is no constant {text}: it was looked for in {}",
                place.file()
            );
            file.place.error(line, what)
        })?;
        let next = Chain {
            source: self.source,
            left: self.left - 1,
        };
        within(&there, at, one, next.sum(&there, at, &one.value)?)
    }
}

// A value that its type holds.
fn within(file: &File, line: usize, one: &Const, value: i128) -> Result<i128, Error> {
    let Some(of) = number(&one.of) else {
        return Err(file
            .place
            .error(line, format!("the constant {} is no number", one.name)));
    };
    if value < of.least || of.most < value {
        let what = format!("the constant {} is {value}, which is no {}", one.name, one.of);
        return Err(file.place.error(line, what));
    }
    Ok(value)
}

/// The value of a constant of a file.
pub fn value_of(source: &Source, file: &File, line: usize, one: &Const) -> Result<i128, Error> {
    within(file, line, one, value(source, file, line, &one.value)?)
}

fn unknown(file: &File, line: usize, text: &str) -> Error {
    let what = format!("the value '{text}' is not known here: numbers, names, products and sums of them are");
    file.place.error(line, what)
}
