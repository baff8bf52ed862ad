//! The source of all crates: its files, and what a name in one of them stands for.
use crate::error::Error;
use crate::item::Item;
use crate::parse::item;
use crate::piece::{opening, pieces};
use std::cell::RefCell;
use std::collections::BTreeMap;
use std::rc::Rc;

/// A file of the source, as `bench::state` for crates/bench/src/state.rt. A crate's lib.rt is the crate alone.
#[derive(Debug, Clone, PartialEq, Eq, PartialOrd, Ord)]
pub struct Place {
    pub krate: String,
    pub modules: Vec<String>,
}

impl Place {
    pub fn new(krate: &str, modules: &[&str]) -> Place {
        let modules = modules.iter().map(|name| name.to_string()).collect();
        Place {
            krate: krate.into(),
            modules,
        }
    }

    pub fn file(&self) -> String {
        let module = if self.modules.is_empty() {
            "lib".into()
        } else {
            self.modules.join("/")
        };
        format!("crates/{}/src/{module}.rt", self.krate)
    }

    /// What is wrong in a line of it.
    pub fn error(&self, line: usize, what: impl Into<String>) -> Error {
        Error {
            file: self.file(),
            line,
            what: what.into(),
        }
    }
}

/// A file that has been read.
pub struct File {
    pub place: Place,
    pub opening: Vec<String>,
    pub entries: Vec<Entry>,
}

/// An item of a file, with its line and the comment above it.
pub struct Entry {
    pub line: usize,
    pub note: Vec<String>,
    /// Whether the comment is the one that opens the file, so that it cannot be told which of the two it speaks of.
    pub opens_file: bool,
    pub item: Item,
}

type Read = dyn Fn(&str) -> Result<String, String>;

/// All crates. A file is read when it is first asked for.
pub struct Source {
    read: Box<Read>,
    files: RefCell<BTreeMap<Place, Rc<File>>>,
}

impl Source {
    /// `read` gives the text of a file such as crates/desk/src/lib.rt, or says why it cannot.
    pub fn new(read: impl Fn(&str) -> Result<String, String> + 'static) -> Source {
        Source {
            read: Box::new(read),
            files: RefCell::default(),
        }
    }

    pub fn file(&self, place: &Place) -> Result<Rc<File>, Error> {
        if let Some(file) = self.files.borrow().get(place) {
            return Ok(file.clone());
        }
        let text = (self.read)(&place.file()).map_err(|why| place.error(0, why))?;
        let file = Rc::new(File {
            place: place.clone(),
            opening: opening(&text),
            entries: entries(place, &text)?,
        });
        self.files.borrow_mut().insert(place.clone(), file.clone());
        Ok(file)
    }

    /// The file in which a name or path of another file is declared, and its name there.
    pub fn declared(&self, from: &File, path: &str) -> (Place, String) {
        let mut brought = from.entries.iter().flat_map(|entry| match &entry.item {
            Item::Use(names) => names.as_slice(),
            _ => &[],
        });
        let behind = brought.find(|(name, _)| name == path);
        let mut names: Vec<&str> = behind.map_or(path, |(_, path)| path).split("::").collect();
        let name = names.pop().unwrap_or_default().to_string();
        let place = match names.split_first() {
            None => from.place.clone(),
            Some((&"crate", modules)) => Place::new(&from.place.krate, modules),
            Some((krate, modules)) if (self.read)(&Place::new(krate, &[]).file()).is_ok() => {
                Place::new(krate, modules)
            }
            Some(_) => Place::new(&from.place.krate, &names),
        };
        (place, name)
    }
}

fn entries(place: &Place, text: &str) -> Result<Vec<Entry>, Error> {
    let pieces = pieces(text).map_err(|(line, what)| place.error(line, what))?;
    let entry = pieces.into_iter().map(|piece| {
        let item = item(&piece).map_err(|what| place.error(piece.line, what))?;
        Ok(Entry {
            line: piece.line,
            note: piece.above.note,
            opens_file: piece.above.opens_file,
            item,
        })
    });
    entry.collect()
}
