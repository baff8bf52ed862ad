//! Reads items from their text.
use crate::item::{Const, Function, Item, Struct};
use crate::members::PREFIX;
use crate::piece::Piece;

/// The item that a piece is, or what is not known about it.
pub fn item(piece: &Piece) -> Result<Item, String> {
    let attributes = piece.above.attributes.iter().map(String::as_str);
    let attributes: Vec<&str> = attributes.filter(|one| !is_of_rattle(one)).collect();
    let attribute = match attributes.as_slice() {
        [] => "",
        [one] => one,
        _ => return Err("more than one attribute is not known here".into()),
    };
    let text = piece.text.as_str();
    let (public, rest) = match text.strip_prefix("pub ") {
        Some(rest) => (true, rest),
        None => (false, text),
    };
    let (keyword, rest) = rest.split_once(' ').unwrap_or((rest, ""));
    match (attribute, keyword) {
        ("", "use") => brought(rest),
        ("", "mod") => Ok(Item::Module {
            name: rest.trim_end_matches(';').into(),
            public,
        }),
        ("", "const") => constant(rest, public),
        ("", "struct") => Ok(Item::Struct(Struct {
            name: name_of(rest).into(),
            fields: None,
        })),
        ("#[repr(C)]", "struct") => structure(rest),
        ("", "fn") if public && rest.starts_with(PREFIX) => function(rest, false),
        ("#[unsafe(no_mangle)]", "extern") if public => function(rest, true),
        ("", "fn" | "enum" | "ghost" | "impl") => Ok(Item::Other),
        ("", _) => Err(format!(
            "'{}' begins no item that is known here",
            first_line(text)
        )),
        _ => Err(format!(
            "{attribute} above '{}' is not known here",
            first_line(text)
        )),
    }
}

// What says nothing of how an item lies in memory, or of its name.
fn is_of_rattle(attribute: &str) -> bool {
    ["#[derive(", "#[inline(", "#[tactic("]
        .iter()
        .any(|begin| attribute.starts_with(begin))
}

fn first_line(text: &str) -> &str {
    text.lines().next().unwrap_or_default()
}

fn name_of(rest: &str) -> &str {
    let end = rest.find(|c: char| !c.is_alphanumeric() && c != '_');
    &rest[..end.unwrap_or(rest.len())]
}

// `a::b::C;`, `a::B as C;` or `a::{B, C as D};`
fn brought(rest: &str) -> Result<Item, String> {
    let path = rest.trim_end_matches(';');
    let (begin, names) = match path.split_once('{') {
        Some((begin, names)) => (begin, names.trim_end_matches('}')),
        None => ("", path),
    };
    let names = names.split(',').map(str::trim).filter(|name| !name.is_empty());
    let paths: Vec<String> = names.map(|name| format!("{begin}{name}")).collect();
    if paths
        .iter()
        .any(|path| path.contains(['{', '*']) || path.ends_with("self"))
    {
        return Err(format!(
            "'use {}' brings in more than names, one by one",
            first_line(rest)
        ));
    }
    Ok(Item::Use(paths.iter().map(|path| named(path)).collect()))
}

// The name under which a path is brought in, and the path.
fn named(path: &str) -> (String, String) {
    let (path, name) = match path.split_once(" as ") {
        Some((path, name)) => (path, name),
        None => (path, path.rsplit("::").next().unwrap_or(path)),
    };
    (name.into(), path.into())
}

// `NAME: TYPE = VALUE;`, where a long value goes on in more lines
fn constant(rest: &str, public: bool) -> Result<Item, String> {
    let words = rest.trim_end_matches(';').split_whitespace();
    let line = words.collect::<Vec<&str>>().join(" ");
    let parts = line.split_once(" = ");
    let named = parts.and_then(|(left, value)| Some((left.split_once(": ")?, value)));
    let ((name, of), value) = named.ok_or_else(|| format!("the constant '{line}' is not known"))?;
    let [name, of, value] = [name, of, value].map(String::from);
    Ok(Item::Const(Const {
        name,
        of,
        value,
        public,
    }))
}

// `NAME {`, fields each in a line of its own, `}`
fn structure(rest: &str) -> Result<Item, String> {
    let parts = rest.strip_suffix("\n}").and_then(|rest| rest.split_once(" {\n"));
    let unknown = || {
        format!(
            "the struct '{}' is not laid out as `rt fmt` does",
            first_line(rest)
        )
    };
    let (name, body) = parts.ok_or_else(unknown)?;
    if name != name_of(name) {
        return Err(format!(
            "the struct '{name}' takes parameters, which C does not know"
        ));
    }
    let fields = body.lines().map(|line| {
        let line = line.trim();
        let field = line
            .strip_prefix("pub ")
            .and_then(|field| field.strip_suffix(','));
        let named = field.and_then(name_and_type);
        named.ok_or_else(|| format!("'{line}' in the struct {name} is no field"))
    });
    Ok(Item::Struct(Struct {
        name: name.into(),
        fields: Some(fields.collect::<Result<_, _>>()?),
    }))
}

// `NAME<'a>(PARAMETERS) -> RESULT`, with `"C" fn ` before it where it is exported, then the contract and the body
fn function(rest: &str, exported: bool) -> Result<Item, String> {
    let rest = rest.strip_prefix("\"C\" fn ").unwrap_or(rest);
    let unknown = || format!("the exported function '{}' is not known", first_line(rest));
    let (head, rest) = rest.split_once('(').ok_or_else(unknown)?;
    let (parameters, rest) = rest.split_once(')').ok_or_else(unknown)?;
    let name = name_of(head);
    let lifetimes = head[name.len()..].trim_start_matches('<').trim_end_matches('>');
    if !lifetimes.is_empty() && !lifetimes.split(", ").all(|one| one.starts_with('\'')) {
        return Err(format!(
            "the exported function {name} takes types, which C does not know"
        ));
    }
    let parameters = parameters.split(',').map(str::trim).filter(|one| !one.is_empty());
    let parameters = parameters.map(|one| name_and_type(one).ok_or_else(unknown));
    let clauses = rest.lines().skip(1).take_while(|line| line.starts_with(' '));
    let is_whole = first_line(rest).ends_with(['{', '}']);
    let contract: Vec<&str> = clauses.filter(|_| !is_whole).collect();
    if contract.iter().any(|line| line.starts_with("    requires")) {
        return Err(format!(
            "the exported function {name} requires something, to which C is not held"
        ));
    }
    let result = match first_line(rest).trim_end_matches(['{', '}']).trim() {
        "" => None,
        result => Some(result.strip_prefix("-> ").ok_or_else(unknown)?.to_string()),
    };
    Ok(Item::Function(Function {
        name: name.into(),
        parameters: parameters.collect::<Result<_, _>>()?,
        result,
        contract: contract.join("\n"),
        exported,
    }))
}

fn name_and_type(text: &str) -> Option<(String, String)> {
    let (name, of) = text.split_once(": ")?;
    Some((name.into(), of.into()))
}
