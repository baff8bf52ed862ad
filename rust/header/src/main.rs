//! `header` writes crates/desk/limpidorsa.h and rust/desk/src/raw.rs from the Rattle source. `header --check` writes
//! nothing, and says which of the two is not what it would write. A folder behind that is another copy of the
//! repository.
use header::{texts, Source};
use std::path::{Path, PathBuf};
use std::process::ExitCode;
use std::{env, fs};

const USAGE: &str = "it is 'header [--check] [FOLDER]'";

fn main() -> ExitCode {
    let mut words: Vec<String> = env::args().skip(1).collect();
    let checks = words.first().is_some_and(|word| word == "--check");
    if checks {
        words.remove(0);
    }
    let folder = match words.as_slice() {
        [] => Path::new(env!("CARGO_MANIFEST_DIR")).join("../.."),
        [folder] if !folder.starts_with('-') => PathBuf::from(folder),
        _ => return stopped(USAGE),
    };
    match written(&folder, checks) {
        Ok(true) => ExitCode::SUCCESS,
        Ok(false) => ExitCode::FAILURE,
        Err(why) => stopped(&why),
    }
}

fn stopped(why: &str) -> ExitCode {
    eprintln!("header: {why}");
    ExitCode::FAILURE
}

// Whether both files are, or have become, what the source says.
fn written(folder: &Path, checks: bool) -> Result<bool, String> {
    let top = folder.to_path_buf();
    let source = Source::new(move |file| read(&top, file));
    let texts = texts(&source).map_err(|error| error.to_string())?;
    let mut all_same = true;
    for (file, text) in [
        ("crates/desk/limpidorsa.h", texts.header),
        ("rust/desk/src/raw.rs", texts.raw),
    ] {
        if checks {
            all_same &= is_same(folder, file, &text);
        } else {
            fs::write(folder.join(file), text).map_err(|e| format!("{file}: it cannot be written ({e})"))?;
        }
    }
    Ok(all_same)
}

fn read(folder: &Path, file: &str) -> Result<String, String> {
    fs::read_to_string(folder.join(file)).map_err(|e| format!("it cannot be read ({e})"))
}

fn is_same(folder: &Path, file: &str, text: &str) -> bool {
    let why = match read(folder, file) {
        Ok(found) if found == text => return true,
        Ok(found) => {
            let same = found
                .lines()
                .zip(text.lines())
                .take_while(|(a, b)| a == b)
                .count();
            format!("it is not what the source says, from line {} on", same + 1)
        }
        Err(why) => why,
    };
    println!("{file}: {why}; run 'cargo run -p header' and commit what it writes");
    false
}
