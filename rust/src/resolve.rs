//! Checking and resolving.
use crate::configuration::{Configuration, WORDS};
use crate::raw;
use crate::refusal::{told, Refusal};

/// What a set and a request resolve to.
#[derive(Clone, Debug, PartialEq, Eq)]
pub struct Resolved {
    /// The members and their read edges.
    pub configuration: Configuration,
    /// The number of members.
    pub count: usize,
}

/// Checks a set and a request (1 to 3). The answer is the number of modules in the set, hidden ones too.
pub fn check(set: &[u8], request: &[u8]) -> Result<usize, Refusal> {
    // SAFETY: each pointer is that of a slice with the length beside it, and the particulars have four words.
    let answer = told(|particulars| unsafe {
        raw::saqhovune_check(set.as_ptr(), set.len(), request.as_ptr(), request.len(), particulars)
    })?;
    Ok(answer[0] as usize)
}

/// Resolves a set and a request (1 to 3, 5 to 7).
pub fn resolve(set: &[u8], request: &[u8]) -> Result<Resolved, Refusal> {
    let mut words: Box<[u64; WORDS]> = vec![0; WORDS].try_into().expect("there are as many");
    let count = resolve_into(set, request, &mut words[..])?;
    Ok(Resolved { configuration: Configuration::from_words(words), count })
}

/// Resolves into lent words (1 to 3, 4, 5 to 7): the first 4,616 ([`WORDS`]) are then those of the configuration, and those
/// beyond are left as they were. The answer is the number of members.
pub fn resolve_into(set: &[u8], request: &[u8], words: &mut [u64]) -> Result<usize, Refusal> {
    // SAFETY: as above; the words are lent for writing and overlap nothing.
    let answer = told(|particulars| unsafe {
        raw::saqhovune_resolve(
            set.as_ptr(),
            set.len(),
            request.as_ptr(),
            request.len(),
            words.as_mut_ptr(),
            words.len(),
            particulars,
        )
    })?;
    Ok(answer[0] as usize)
}
