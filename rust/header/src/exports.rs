//! Holds the static library to what is written: it exports each function, and no other, with the function's parameters,
//! result and clauses.
use crate::declared::Declared;
use crate::error::Error;
use crate::gather::Gathered;
use crate::item::{Function, Item};
use crate::members::PREFIX;
use crate::source::{Entry, File, Place};
use std::collections::BTreeSet;

impl Gathered<'_> {
    /// Every export of the static library, in whatever file.
    pub(crate) fn exports(&mut self, archive: &str) -> Result<(), Error> {
        let mut met = BTreeSet::new();
        self.exports_of(&Place::new(archive, &[]), &mut met)?;
        let missing = self.all.iter().find_map(|declared| match declared {
            Declared::Function { name, .. } if !met.contains(name) => Some(name),
            _ => None,
        });
        let Some(name) = missing else {
            return Ok(());
        };
        let (place, line) = &self.places[name];
        Err(place.error(*line, format!("{name} is not exported by the crate {archive}")))
    }

    fn exports_of(&mut self, place: &Place, met: &mut BTreeSet<String>) -> Result<(), Error> {
        let file = self.source.file(place)?;
        for entry in &file.entries {
            match &entry.item {
                Item::Module { name, .. } => {
                    let mut place = place.clone();
                    place.modules.push(name.clone());
                    self.exports_of(&place, met)?;
                }
                Item::Function(one) if one.exported => {
                    self.export(&file, entry, one)?;
                    if !met.insert(one.name.clone()) {
                        return Err(place.error(entry.line, format!("{} is exported twice", one.name)));
                    }
                }
                _ => {}
            }
        }
        Ok(())
    }

    // It has to say what the function of its name says.
    fn export(&mut self, file: &File, entry: &Entry, one: &Function) -> Result<(), Error> {
        let error = |what: String| Err(file.place.error(entry.line, what));
        let name = &one.name;
        if !name.starts_with(PREFIX) {
            return error(format!(
                "{name} is exported, and its name does not begin with {PREFIX}"
            ));
        }
        let Some((place, line)) = self.places.get(name).cloned() else {
            return error(format!("{name} is exported, and no public function has its name"));
        };
        let signature = self.signature(file, entry, one)?;
        let is_same = self.all.iter().any(|declared| match declared {
            Declared::Function {
                name: its,
                parameters,
                result,
                ..
            } => its == name && (parameters, result) == (&signature.0, &signature.1),
            _ => false,
        });
        let there = self.source.file(&place)?;
        let is_promised = there.entries.iter().any(|entry| match &entry.item {
            Item::Function(its) => entry.line == line && its.contract == one.contract,
            _ => false,
        });
        let what = match (is_same, is_promised) {
            (true, true) => return Ok(()),
            (true, false) => "clauses",
            _ => "parameters or another result",
        };
        error(format!(
            "{name} is exported with other {what} than in {}:{line}",
            place.file()
        ))
    }
}
