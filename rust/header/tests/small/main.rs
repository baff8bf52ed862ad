//! Small texts of source: what is written of them, and what is said of a line that is not known.
mod exports;
mod files;
mod functions;
mod unknown;
mod written;

use header::{texts, Source, Texts};
use std::collections::BTreeMap;

// What files of the source are written to, or the error in words. Each begins with its name: `desk/src/lib:`. Where
// none is the static library, it exports nothing.
fn of_files(files: &[&str]) -> Result<Texts, String> {
    let named = files.iter().map(|file| {
        let (name, text) = file.split_once(":\n").unwrap();
        (format!("crates/{name}.rt"), text.to_string())
    });
    let mut files: BTreeMap<String, String> = named.collect();
    let exports = files.entry("crates/desk_c/src/lib.rt".into());
    exports.or_insert("// The exports.\n".into());
    let gone = "there is no such file";
    let source = Source::new(move |file| files.get(file).cloned().ok_or_else(|| gone.into()));
    texts(&source).map_err(|error| error.to_string())
}

// Of a desk with one file more, in which the text stands from line 3 on. The functions at its end are exported.
fn of(text: &str) -> Result<Texts, String> {
    let floor = format!("desk/src/floor:\n// The floor.\n\n{text}");
    let functions = text.find("pub fn limpidorsa_").map_or("", |at| &text[at..]);
    let exports = functions.replace(
        "pub fn limpidorsa_",
        "#[unsafe(no_mangle)]\npub extern \"C\" fn limpidorsa_",
    );
    of_files(&[
        "desk/src/lib:\n// Opens.\npub mod floor;\n",
        &floor,
        "table/src/lib:\n// The table.\n",
        &format!("desk_c/src/lib:\n// The exports.\n\n{exports}"),
    ])
}

// What stands between the header's begin and its end.
fn declared(texts: &Texts) -> &str {
    let (_, rest) = texts.header.split_once("extern \"C\" {\n#endif\n\n").unwrap();
    rest.split_once("\n#ifdef __cplusplus\n}").unwrap().0
}
