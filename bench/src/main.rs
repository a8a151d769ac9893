//! Times of the library, of the original and of Java: bench ratios CLASSES [FOLDER [JAVA]], or bench slow. `run` calls it.
//!
//! CLASSES is tests/classes, FOLDER has the module-info.class of each module of a JDK, JAVA is what Read.java prints.
//! BENCH_SECONDS says how long a row of the tables may take (1).
#[path = "../../rust/tests/alike/mod.rs"]
mod alike;
mod inputs;
mod ratios;
mod slow;
mod slow_class;
mod time;

use std::path::PathBuf;
use std::process::ExitCode;

fn main() -> ExitCode {
    let seconds = std::env::var("BENCH_SECONDS").ok().and_then(|s| s.parse().ok()).unwrap_or(1.0);
    let mut arguments = std::env::args().skip(1);
    let mode = arguments.next();
    let paths: Vec<PathBuf> = arguments.map(PathBuf::from).collect();
    match (mode.as_deref(), paths.as_slice()) {
        (Some("ratios"), [classes, rest @ ..]) => {
            ratios::print(seconds, classes, rest.first().map(PathBuf::as_path), rest.get(1).map(PathBuf::as_path));
        }
        (Some("slow"), []) => slow::print(seconds),
        _ => {
            eprintln!("usage: bench ratios CLASSES [FOLDER [JAVA]], or bench slow");
            return ExitCode::from(2);
        }
    }
    ExitCode::SUCCESS
}
