//! Questions over a configuration, or over the words of one that a host lends.
use crate::raw;
use crate::refusal::{told, Refusal};

/// The answer to a question.
#[derive(Clone, Copy, Debug, PartialEq, Eq)]
pub enum Verdict {
    /// The asker may.
    Allowed,
    /// The asker does not read the target.
    NotReadable,
    /// The target does not export the package to the asker.
    NotExported,
    /// The target does not open the package to the asker.
    NotOpened,
}

impl Verdict {
    fn of(number: u64) -> Self {
        match number {
            0 => Verdict::Allowed,
            1 => Verdict::NotReadable,
            2 => Verdict::NotExported,
            3 => Verdict::NotOpened,
            n => unreachable!("the library has no verdict {n}"),
        }
    }
}

/// What is asked.
#[derive(Clone, Copy, Debug, PartialEq, Eq)]
pub enum AccessKind {
    /// Whether the asker may access the package.
    Access,
    /// Whether it may reflect on it.
    Reflection,
}

/// Whether the asker may access the package of the target, or reflect on it (1 to 3, 4).
pub fn check_access(
    set: &[u8],
    request: &[u8],
    configuration: &(impl AsRef<[u64]> + ?Sized),
    kind: AccessKind,
    asker: &[u8],
    target: &[u8],
    package: &[u8],
) -> Result<Verdict, Refusal> {
    let words = configuration.as_ref();
    let reflection = match kind {
        AccessKind::Access => false,
        AccessKind::Reflection => true,
    };
    // SAFETY: each pointer is that of a slice with the length beside it, and the particulars have four words.
    let answer = told(|particulars| unsafe {
        raw::saqhovune_check_access(
            set.as_ptr(),
            set.len(),
            request.as_ptr(),
            request.len(),
            words.as_ptr(),
            words.len(),
            reflection,
            asker.as_ptr(),
            asker.len(),
            target.as_ptr(),
            target.len(),
            package.as_ptr(),
            package.len(),
            particulars,
        )
    })?;
    Ok(Verdict::of(answer[0]))
}

/// Whether a module can read another (1 to 3 of the set, 4): the names are equal, known or not, the other is java.base, or a member
/// has a read edge to it.
pub fn can_read(set: &[u8], configuration: &(impl AsRef<[u64]> + ?Sized), from: &[u8], to: &[u8]) -> Result<bool, Refusal> {
    let words = configuration.as_ref();
    // SAFETY: as above.
    let answer = told(|particulars| unsafe {
        raw::saqhovune_can_read(
            set.as_ptr(),
            set.len(),
            words.as_ptr(),
            words.len(),
            from.as_ptr(),
            from.len(),
            to.as_ptr(),
            to.len(),
            particulars,
        )
    })?;
    Ok(answer[0] == 1)
}

/// The position of the member that owns a package, if one does (1 to 3 of the set, 4).
pub fn find_module_for_package(
    set: &[u8],
    configuration: &(impl AsRef<[u64]> + ?Sized),
    package: &[u8],
) -> Result<Option<usize>, Refusal> {
    let words = configuration.as_ref();
    // SAFETY: as above.
    let answer = told(|particulars| unsafe {
        raw::saqhovune_find_module_for_package(
            set.as_ptr(),
            set.len(),
            words.as_ptr(),
            words.len(),
            package.as_ptr(),
            package.len(),
            particulars,
        )
    })?;
    Ok((answer[0] == 1).then_some(answer[1] as usize))
}
