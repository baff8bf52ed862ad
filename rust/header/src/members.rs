//! Structs with their fields, functions with their parameters, and the comments above them.
use crate::declared::{Declared, Named, Note, Type};
use crate::error::Error;
use crate::gather::Gathered;
use crate::item::{Function, Struct};
use crate::source::{Entry, File};

/// What the names of exported functions begin with.
pub const PREFIX: &str = "limpidorsa_";

impl Gathered<'_> {
    pub(crate) fn structure(&mut self, file: &File, entry: &Entry, one: &Struct) -> Result<(), Error> {
        let error = |what: String| file.place.error(entry.line, what);
        if self.places.get(&one.name) == Some(&(file.place.clone(), entry.line)) {
            return Ok(());
        }
        let Some(fields) = &one.fields else {
            return Err(error(format!(
                "the struct {} is handed out, and has no #[repr(C)]",
                one.name
            )));
        };
        self.take_name(file, entry, &one.name)?;
        let mut typed = Vec::new();
        // Each field stands in a line of its own, below the struct's first.
        for ((name, text), line) in fields.iter().zip(entry.line + 1..) {
            match self.type_of(file, line, text)? {
                Type::Slice { .. } => {
                    let what = format!("the field {name} of {} is lent, and not held: {text}", one.name);
                    return Err(file.place.error(line, what));
                }
                of => typed.push((name.clone(), of)),
            }
        }
        self.all.push(Declared::Struct {
            note: note(file, entry)?,
            name: one.name.clone(),
            fields: typed,
        });
        Ok(())
    }

    pub(crate) fn function(&mut self, file: &File, entry: &Entry, one: &Function) -> Result<(), Error> {
        if one.exported {
            let what = format!("{} is exported here, and a library exports nothing", one.name);
            return Err(file.place.error(entry.line, what));
        }
        self.take_name(file, entry, &one.name)?;
        let (parameters, result) = self.signature(file, entry, one)?;
        self.all.push(Declared::Function {
            note: note(file, entry)?,
            name: one.name.clone(),
            parameters,
            result,
        });
        Ok(())
    }

    /// What a function takes and what it answers.
    pub(crate) fn signature(
        &mut self,
        file: &File,
        entry: &Entry,
        one: &Function,
    ) -> Result<(Vec<Named>, Option<Type>), Error> {
        let error = |what: String| file.place.error(entry.line, what);
        let mut parameters = Vec::new();
        for (name, text) in &one.parameters {
            match self.type_of(file, entry.line, text)? {
                Type::Array { .. } => {
                    return Err(error(format!("C takes no array by value: {name}: {text}")))
                }
                of => parameters.push((name.clone(), of)),
            }
        }
        let result = one
            .result
            .as_deref()
            .map(|text| self.type_of(file, entry.line, text))
            .transpose()?;
        if let Some(Type::Array { .. } | Type::Slice { .. }) = result {
            return Err(error(format!(
                "{} answers neither a number nor a struct",
                one.name
            )));
        }
        Ok((parameters, result))
    }
}

/// The comment above an item, where it can only be the item's.
pub fn note(file: &File, entry: &Entry) -> Result<Note, Error> {
    if entry.opens_file {
        let what =
            "the comment that opens the file stands right above an item: leave a line free between them";
        return Err(file.place.error(entry.line, what));
    }
    for_c(file, entry.line, &entry.note)
}

/// A note that can stand in a comment of C.
pub fn for_c(file: &File, line: usize, note: &Note) -> Result<Note, Error> {
    let is_taken = |words: &String| words.contains("/*") || words.contains("*/");
    if note.iter().any(is_taken) {
        let what = "a comment has /* or */ in it, which C would take for its own";
        return Err(file.place.error(line, what));
    }
    Ok(note.clone())
}
