//! Gathers what is written, in its order: the constants, structs and functions of the files that lib.rt makes public,
//! and before a struct or a function the structs that it is made of, wherever they are declared. Then it holds the
//! exports to it.
use crate::declared::{Constant, Declarations, Declared};
use crate::error::Error;
use crate::item::{Const, Item};
use crate::members::{for_c, note};
use crate::source::{Entry, File, Place, Source};
use crate::types::number;
use crate::value::value_of;
use std::collections::BTreeMap;

/// What is written of a crate whose functions the static library exports.
pub fn gather(source: &Source, krate: &str, archive: &str) -> Result<Declarations, Error> {
    let lib = source.file(&Place::new(krate, &[]))?;
    let mut gathered = Gathered {
        source,
        all: Vec::new(),
        places: BTreeMap::new(),
        lengths: Vec::new(),
        after_constant: false,
    };
    gathered.file(&lib, true)?;
    gathered.no_length_too_soon()?;
    gathered.exports(archive)?;
    let opening = for_c(&lib, 1, &lib.opening)?;
    Ok(Declarations {
        opening,
        all: gathered.all,
    })
}

/// What is gathered so far.
pub(crate) struct Gathered<'a> {
    pub(crate) source: &'a Source,
    pub(crate) all: Vec<Declared>,
    /// The file and the line of each name that is written.
    pub(crate) places: BTreeMap<String, (Place, usize)>,
    /// The names of lengths that are written as numbers, for no constant of that name was written before.
    pub(crate) lengths: Vec<(Place, usize, String)>,
    /// Whether the item before this one, in the same file, is a constant that is written.
    after_constant: bool,
}

impl Gathered<'_> {
    // Where a constant is written after the array that has it for its length, the files are in the wrong order.
    fn no_length_too_soon(&self) -> Result<(), Error> {
        let mut lengths = self.lengths.iter();
        let Some((place, line, name)) = lengths.find(|(_, _, name)| self.places.contains_key(name)) else {
            return Ok(());
        };
        let what = format!(
            "{name} is written after this, and so its name is not known here: let its file come first in lib.rt, \
             with a comment behind it, for without one `rt fmt` sorts the `pub mod` lines"
        );
        Err(place.error(*line, what))
    }

    // The files that a file names as its modules, and then its own items. Of what is not public nothing is written, so
    // that nothing may be exported there.
    fn file(&mut self, file: &File, public: bool) -> Result<(), Error> {
        for entry in &file.entries {
            if let Item::Module { name, public: here } = &entry.item {
                let mut place = file.place.clone();
                place.modules.push(name.clone());
                self.file(&*self.source.file(&place)?, public && *here)?;
            }
        }
        self.after_constant = false;
        for entry in &file.entries {
            let is_constant = match &entry.item {
                Item::Function(one) if !public => {
                    let what = format!(
                        "{} is exported from a file that is not public in lib.rt",
                        one.name
                    );
                    return Err(file.place.error(entry.line, what));
                }
                _ => public && self.entry(file, entry)?,
            };
            self.after_constant = is_constant;
        }
        Ok(())
    }

    // Writes an item, if it is one to be written, and says whether it is a constant.
    fn entry(&mut self, file: &File, entry: &Entry) -> Result<bool, Error> {
        match &entry.item {
            Item::Const(one) if one.public && number(&one.of).is_some() => {
                self.constant(file, entry, one)?;
                return Ok(true);
            }
            Item::Struct(one) if one.fields.is_some() => self.structure(file, entry, one)?,
            Item::Function(one) => self.function(file, entry, one)?,
            _ => {}
        }
        Ok(false)
    }

    fn constant(&mut self, file: &File, entry: &Entry, one: &Const) -> Result<(), Error> {
        let error = |what: String| file.place.error(entry.line, what);
        let of = number(&one.of).ok_or_else(|| error(format!("the constant {} is no number", one.name)))?;
        let value = value_of(self.source, file, entry.line, one)?;
        if i32::try_from(value).is_err() {
            return Err(error(format!(
                "the constant {} is {value}, which an enum of C does not hold",
                one.name
            )));
        }
        self.take_name(file, entry, &one.name)?;
        let constant = Constant {
            name: one.name.clone(),
            of,
            value,
        };
        let note = note(file, entry)?;
        match self.all.last_mut() {
            Some(Declared::Constants { all, .. }) if self.after_constant && note.is_empty() => {
                all.push(constant)
            }
            _ => self.all.push(Declared::Constants {
                note,
                all: vec![constant],
            }),
        }
        Ok(())
    }
}
