//! The program `limpidorsa`: its arguments go to `cli::run`, which answers and gives the exit status.
use std::process::ExitCode;

fn main() -> ExitCode {
    limpidorsa::cli::run(std::env::args_os().skip(1)).into()
}
