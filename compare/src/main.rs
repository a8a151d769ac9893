//! Compares the library with the original on random inputs: compare SYSTEMS QUESTIONS JARS SEED [CLASS FILE...]. The original does
//! not know requests without ST: second.rs resolves these.
//!
//! SYSTEMS sets with their requests and a tenth as many of 100 to 512 modules, QUESTIONS for each of them over the resolved and over
//! an arbitrary configuration, JARS jar names and as many class files, and the class files given. The seeds of the inputs count up
//! from SEED, so a difference of seed S is met again with SEED S. It prints how many there were of each kind, and ends with status 1
//! if there is a difference.
//!
//! compare answers FOLDER writes the fixed list of the original's answers into the folder of the test program `answers`.
use compare::{answers, readers, report, systems};
use std::process::ExitCode;

fn main() -> ExitCode {
    let mut arguments = std::env::args().skip(1);
    if let [command, folder] = &std::env::args().skip(1).collect::<Vec<_>>()[..]
        && command == "answers"
    {
        return match answers::write(folder.as_ref()) {
            Ok(()) => ExitCode::SUCCESS,
            Err(e) => {
                eprintln!("{folder}: {e}");
                ExitCode::from(2)
            }
        };
    }
    let numbers: Option<Vec<u64>> = arguments.by_ref().take(4).map(|a| a.parse().ok()).collect();
    let Some(&[count, questions, jars, seed]) = numbers.as_deref() else {
        eprintln!("usage: compare SYSTEMS QUESTIONS JARS SEED [CLASS FILE...]");
        return ExitCode::from(2);
    };
    let mut report = report::Report::default();
    for s in seed..seed + count {
        systems::compare(&mut report, s, questions as usize);
    }
    for s in seed..seed + jars {
        readers::compare_jar(&mut report, s);
        readers::compare_class(&mut report, s);
    }
    for name in arguments {
        match std::fs::read(&name) {
            Ok(file) => readers::compare_given_class(&mut report, &name, &file),
            Err(e) => {
                eprintln!("{name}: {e}");
                return ExitCode::from(2);
            }
        }
    }
    report.print();
    ExitCode::from(u8::from(report.differences > 0))
}
