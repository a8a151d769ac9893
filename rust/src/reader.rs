//! The class reader and the jar reader. What they write are the records of one module, ready to be a part of a set that has room
//! for them (a class file may name its module ALL-UNNAMED, which no set takes).
use crate::raw;
use crate::refusal::{told, Refusal};

/// Writes the records of the module that a class file describes (2, 8, 2, 4). The answer is the number of bytes written.
pub fn from_class_file(file: &[u8], out: &mut [u8]) -> Result<usize, Refusal> {
    // SAFETY: each pointer is that of a slice with the length beside it, the output overlaps nothing, and the particulars have
    // four words.
    let answer = told(|particulars| unsafe {
        raw::saqhovune_from_class_file(file.as_ptr(), file.len(), out.as_mut_ptr(), out.len(), particulars)
    })?;
    Ok(answer[0] as usize)
}

/// The same into a new vector, of the length needed.
pub fn from_class_file_vec(file: &[u8]) -> Result<Vec<u8>, Refusal> {
    grown(file.len(), |out| from_class_file(file, out))
}

/// Writes the records of the automatic module of a jar (2, 1, 9, 10, 4): its name is the manifest's if there is one, else it is
/// made of the jar's name. The packages are PK records. The answer is the number of bytes written.
pub fn automatic_from_jar_name(jar: &[u8], manifest: Option<&[u8]>, packages: &[u8], out: &mut [u8]) -> Result<usize, Refusal> {
    let given = manifest.is_some();
    let manifest = manifest.unwrap_or_default();
    // SAFETY: as above.
    let answer = told(|particulars| unsafe {
        raw::saqhovune_automatic_from_jar_name(
            jar.as_ptr(),
            jar.len(),
            given,
            manifest.as_ptr(),
            manifest.len(),
            packages.as_ptr(),
            packages.len(),
            out.as_mut_ptr(),
            out.len(),
            particulars,
        )
    })?;
    Ok(answer[0] as usize)
}

/// The same into a new vector, of the length needed.
pub fn automatic_from_jar_name_vec(jar: &[u8], manifest: Option<&[u8]>, packages: &[u8]) -> Result<Vec<u8>, Refusal> {
    // MO and RQ take at most 281 bytes, and the three records of a package less than four times its own.
    grown(281 + 4 * packages.len(), |out| automatic_from_jar_name(jar, manifest, packages, out))
}

/// Writes into a vector of the length guessed or, where that is too short, of the length needed.
fn grown(guess: usize, write: impl Fn(&mut [u8]) -> Result<usize, Refusal>) -> Result<Vec<u8>, Refusal> {
    let mut out = vec![0; guess];
    let written = match write(&mut out) {
        Err(Refusal::OutputTooShort { needed }) => {
            out.resize(needed, 0);
            write(&mut out)?
        }
        answer => answer?,
    };
    out.truncate(written);
    Ok(out)
}
