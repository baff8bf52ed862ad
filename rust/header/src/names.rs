//! The types of fields and parameters, by the names in them: a struct that is not written yet is written first.
use crate::declared::{Declared, Length, Type};
use crate::error::Error;
use crate::gather::Gathered;
use crate::item::Item;
use crate::source::{Entry, File};
use crate::types::{written, Written};
use crate::value::value;

impl Gathered<'_> {
    pub(crate) fn type_of(&mut self, file: &File, line: usize, text: &str) -> Result<Type, Error> {
        match written(text) {
            None => Err(file
                .place
                .error(line, format!("the type '{text}' is not known here"))),
            Some(Written::Plain(plain)) => Ok(Type::Plain(plain)),
            Some(Written::Slice { of, mutable }) => Ok(Type::Slice { of, mutable }),
            Some(Written::Array { of, length }) => Ok(Type::Array {
                of,
                length: self.length(file, line, length)?,
            }),
            Some(Written::Named(path)) => self.named(file, line, path),
        }
    }

    // A constant that is written before goes by its name.
    fn length(&mut self, file: &File, line: usize, text: &str) -> Result<Length, Error> {
        let many = value(self.source, file, line, text)?;
        let name = text.rsplit("::").next().unwrap_or(text);
        let is_written = self.all.iter().any(|declared| match declared {
            Declared::Constants { all, .. } => all.iter().any(|one| one.name == name && one.value == many),
            _ => false,
        });
        if is_written {
            return Ok(Length::Constant(name.into()));
        }
        self.lengths.push((file.place.clone(), line, name.into()));
        Ok(Length::Number(many))
    }

    // The struct of that name, wherever it is declared.
    fn named(&mut self, file: &File, line: usize, path: &str) -> Result<Type, Error> {
        let (place, name) = self.source.declared(file, path);
        let there = self.source.file(&place)?;
        let found = there.entries.iter().find_map(|entry| match &entry.item {
            Item::Struct(one) if one.name == name => Some((entry, one)),
            _ => None,
        });
        let (entry, one) = found.ok_or_else(|| {
            let what = format!("there is no struct {path}: it was looked for in {}", place.file());
            file.place.error(line, what)
        })?;
        self.structure(&there, entry, one)?;
        Ok(Type::Struct(name))
    }

    /// Takes a name, which nothing else may have.
    pub(crate) fn take_name(&mut self, file: &File, entry: &Entry, name: &str) -> Result<(), Error> {
        match self.places.insert(name.into(), (file.place.clone(), entry.line)) {
            None => Ok(()),
            Some((other, line)) => {
                let what = format!(
                    "{name} is declared in {}:{line} too: one name cannot be two things",
                    other.file()
                );
                Err(file.place.error(entry.line, what))
            }
        }
    }
}
