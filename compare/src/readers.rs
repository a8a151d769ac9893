//! Jar names and class files: the records written, and what is left as it was.
use crate::module::descriptor::ModuleDescriptor;
use crate::module::error::ModuleError;
use crate::random::Random;
use crate::records::write_descriptor;
use crate::report::Report;
use crate::{class, generate, generate_class, original};
use saqhovune::{Refusal, form};

const PATTERN: u8 = 0xA5;

/// Writes with three bytes to spare, then with one byte too few; what is not written must stay.
fn written(
    report: &mut Report,
    seed: u64,
    input: &dyn std::fmt::Debug,
    write: impl Fn(&mut [u8]) -> Result<usize, Refusal>,
) -> Result<Vec<u8>, Refusal> {
    let needed = match write(&mut []) {
        Ok(n) => n,
        Err(Refusal::OutputTooShort { needed }) => needed,
        Err(e) => {
            let mut out = [PATTERN; 64];
            report.compare("refusals with an output", seed, input, write(&mut out), Err(e));
            report.hold("outputs left as they were on a refusal", seed, input, out == [PATTERN; 64]);
            return Err(e);
        }
    };
    let mut short = vec![PATTERN; needed.saturating_sub(1)];
    report.compare("outputs too short by one byte", seed, input, write(&mut short), Err(Refusal::OutputTooShort { needed }));
    report.hold("too short outputs left as they were", seed, input, short.iter().all(|b| *b == PATTERN));
    let mut out = vec![PATTERN; needed + 3];
    report.compare("lengths written", seed, input, write(&mut out), Ok(needed));
    report.hold("bytes past the written ones left as they were", seed, input, out[needed..] == [PATTERN; 3]);
    out.truncate(needed);
    Ok(out)
}

pub fn compare_jar(report: &mut Report, seed: u64) {
    let (jar, manifest, packages) = generate::jar(&mut Random::new(seed));
    let of = (&jar, &manifest, &packages);
    let records: Vec<u8> = packages.iter().flat_map(|p| form::package(p)).collect();
    let name = manifest.as_ref().map(|m| m.as_bytes());
    let library = written(report, seed, &of, |out| saqhovune::automatic_from_jar_name(jar.as_bytes(), name, &records, out));
    if jar.len() > 255 {
        report.count("skipped: jar name over 255 bytes");
        report.compare("jar names refused as too long", seed, &of, library, Err(Refusal::TooLarge { offset: 0 }));
        return;
    }
    if manifest.as_ref().is_some_and(|m| m.len() > 255 || !m.is_ascii()) {
        report.count("skipped: manifest name over 255 bytes or not ASCII");
        report.compare("manifest names refused", seed, &of, library, Err(Refusal::InvalidModuleName));
        return;
    }
    let kind = if manifest.is_some() { "jars with a manifest name" } else { "jars without a manifest name" };
    let original = original::jar(&jar, manifest.as_deref(), &packages).map_err(|e| match e {
        ModuleError::InvalidAutomaticModuleName(_) => Refusal::InvalidAutomaticModuleName,
        ModuleError::InvalidModuleName(_) => Refusal::InvalidModuleName,
        e => panic!("the original refuses a jar: {e:?}"),
    });
    report.count(if original.is_ok() { "jars accepted" } else { "jars refused" });
    report.compare(kind, seed, &of, library, original);
}

pub fn compare_class(report: &mut Report, seed: u64) {
    let file = generate_class::class_file(&mut Random::new(seed));
    compare_file(report, "class files", seed, &"", &file);
}

/// A class file that was not made here; it has a name in place of a seed.
pub fn compare_given_class(report: &mut Report, name: &str, file: &[u8]) {
    compare_file(report, "class files given", 0, &name, file);
}

fn compare_file(report: &mut Report, kind: &'static str, seed: u64, of: &dyn std::fmt::Debug, file: &[u8]) {
    let library = written(report, seed, of, |out| saqhovune::from_class_file(file, out));
    let expected = expected(file);
    report.count(match expected {
        Ok(_) => "class files accepted",
        Err(Refusal::TooLarge { .. }) => "class files refused (2)",
        Err(_) => "class files refused (8)",
    });
    report.compare(kind, seed, of, library, expected);
}

/// The original has no reader of bytes here: class.rs reads them, and the original makes the descriptor.
fn expected(file: &[u8]) -> Result<Vec<u8>, Refusal> {
    let too_large = Refusal::TooLarge { offset: 0 };
    if file.len() > 65_535 {
        return Err(too_large);
    }
    let c = class::read(file).map_err(|offset| Refusal::DescriptorParseError { offset })?;
    let d = ModuleDescriptor::from_class_file(&c).expect("the original takes what class.rs takes");
    write_descriptor(&d, false).ok_or(too_large)
}
