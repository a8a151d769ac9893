//! The byte form of sets and requests: records to write, and a walk over those of an input.
//!
//! A set is the concatenation of [`module`] records, each with the records that belong to it, and of [`place`] records between
//! them, first or last; a request is that of its records. Nothing is checked here but lengths; [`crate::check`] does that. A
//! name over 255 bytes, a list of over 65,535 names or a body of over 65,535 bytes panics.
use std::collections::hash_map::{Entry, HashMap};
use std::fmt;

/// A requirement that is read by whoever reads its module.
pub const TRANSITIVE: u16 = 0x0020;
/// A requirement that may be absent; it brings its module in only where the request has [`with_static`].
pub const STATIC: u16 = 0x0040;
/// An open module.
pub const OPEN: u16 = 0x0020;

/// A name behind its length.
///
/// # Panics
/// If it is longer than 255 bytes.
pub fn name(text: &str) -> Vec<u8> {
    let length = u8::try_from(text.len()).expect("a name has at most 255 bytes");
    [&[length], text.as_bytes()].concat()
}

/// A list of names behind their count.
fn list(names: &[&str]) -> Vec<u8> {
    let count = u16::try_from(names.len()).expect("a list has at most 65,535 names");
    let mut out = count.to_be_bytes().to_vec();
    for n in names {
        out.extend(name(n));
    }
    out
}

/// A record.
///
/// # Panics
/// If its body is longer than 65,535 bytes.
pub fn record(mark: &[u8; 2], body: &[u8]) -> Vec<u8> {
    let length = u16::try_from(body.len()).expect("a body has at most 65,535 bytes");
    [&mark[..], &length.to_be_bytes(), body].concat()
}

/// A module (MO); an empty version is none.
pub fn module_with(n: &str, flags: u16, automatic: bool, version: &str) -> Vec<u8> {
    let [high, low] = flags.to_be_bytes();
    record(b"MO", &[&[high, low, u8::from(automatic)], &name(n)[..], &name(version)].concat())
}

/// A module that is neither open nor automatic, without version.
pub fn module(n: &str) -> Vec<u8> {
    module_with(n, 0, false, "")
}

/// The start of a place (PL): the modules behind it, up to the next one, are in that place. Modules before the first are in a
/// place of their own, in front. Of modules of one name the first is the one that counts; it hides those in later places.
pub fn place() -> Vec<u8> {
    record(b"PL", &[])
}

/// A requirement (RQ); an empty version is none.
pub fn requires_with(n: &str, flags: u16, version: &str) -> Vec<u8> {
    record(b"RQ", &[&flags.to_be_bytes()[..], &name(n), &name(version)].concat())
}

/// A requirement without version.
pub fn requires(n: &str, flags: u16) -> Vec<u8> {
    requires_with(n, flags, "")
}

/// An export (EX); no target means all.
pub fn exports(package: &str, targets: &[&str]) -> Vec<u8> {
    record(b"EX", &[name(package), list(targets)].concat())
}

/// An opening (OP); no target means all.
pub fn opens(package: &str, targets: &[&str]) -> Vec<u8> {
    record(b"OP", &[name(package), list(targets)].concat())
}

/// A used service (US).
pub fn uses(service: &str) -> Vec<u8> {
    record(b"US", &name(service))
}

/// A provided service (PV).
pub fn provides(service: &str, implementations: &[&str]) -> Vec<u8> {
    record(b"PV", &[name(service), list(implementations)].concat())
}

/// A package (PK).
pub fn package(p: &str) -> Vec<u8> {
    record(b"PK", &name(p))
}

/// A main class (MC).
pub fn main_class(class: &str) -> Vec<u8> {
    record(b"MC", &name(class))
}

/// A root (RT).
pub fn root(n: &str) -> Vec<u8> {
    record(b"RT", &name(n))
}

/// The permitted names (LM).
pub fn limit(names: &[&str]) -> Vec<u8> {
    record(b"LM", &list(names))
}

/// Static requirements bring in permitted modules of the set (ST); a request has it at most once. Without it they bring nothing
/// in, and are read edges where both modules start by other means.
pub fn with_static() -> Vec<u8> {
    record(b"ST", &[])
}

/// A read edge to be added (AR).
pub fn add_read(source: &str, target: &str) -> Vec<u8> {
    record(b"AR", &[name(source), name(target)].concat())
}

/// An export to be added (AE).
pub fn add_export(source: &str, package: &str, target: &str) -> Vec<u8> {
    record(b"AE", &[name(source), name(package), name(target)].concat())
}

/// An opening to be added (AO).
pub fn add_open(source: &str, package: &str, target: &str) -> Vec<u8> {
    record(b"AO", &[name(source), name(package), name(target)].concat())
}

/// A record of an input.
#[derive(Clone, Copy, Debug, PartialEq, Eq)]
pub struct Record<'a> {
    /// The offset of its mark.
    pub offset: usize,
    /// Its mark.
    pub mark: &'a [u8],
    /// Its body.
    pub body: &'a [u8],
}

/// The records of an input, front to back, up to one that is cut off. Their bodies are not checked.
pub fn records(bytes: &[u8]) -> impl Iterator<Item = Record<'_>> {
    let mut offset = 0;
    std::iter::from_fn(move || {
        let (head, rest) = bytes.get(offset..)?.split_at_checked(4)?;
        let body = rest.get(..usize::from(u16::from_be_bytes([head[2], head[3]])))?;
        let record = Record { offset, mark: &head[..2], body };
        offset += 4 + body.len();
        Some(record)
    })
}

/// The name of the module that a record starts, if it is an MO.
pub(crate) fn name_of<'a>(record: &Record<'a>) -> Option<&'a [u8]> {
    let (&length, rest) = record.body.get(3..)?.split_first()?;
    if record.mark == b"MO" {
        rest.get(..length.into())
    } else {
        None
    }
}

/// Whether a record is the first of a place: a PL, or whatever the set starts with.
pub(crate) fn starts_place(record: &Record) -> bool {
    record.mark == b"PL" || record.offset == 0
}

/// A module of a set. As text it is "page.foot of place 1" or, where it is hidden, "page.foot of place 2 is hidden by place 1".
#[derive(Clone, Copy, Debug, PartialEq, Eq)]
pub struct Module<'a> {
    /// Its position, from 0; hidden modules have one too.
    pub position: usize,
    /// Its place, from 1.
    pub place: usize,
    /// Its name.
    pub name: &'a [u8],
    /// The place of the first module of this name, if this one comes later and so is hidden: it is checked and nothing else.
    pub hidden_by: Option<usize>,
}

impl fmt::Display for Module<'_> {
    fn fmt(&self, f: &mut fmt::Formatter<'_>) -> fmt::Result {
        write!(f, "{} of place {}", String::from_utf8_lossy(self.name), self.place)?;
        match self.hidden_by {
            Some(place) => write!(f, " is hidden by place {place}"),
            None => Ok(()),
        }
    }
}

/// The modules of a set that the check takes, hidden ones too, in the order of their positions.
pub fn modules(set: &[u8]) -> impl Iterator<Item = Module<'_>> {
    let mut first_place = HashMap::new();
    let mut place = 0;
    let named = records(set).filter_map(move |r| {
        place += usize::from(starts_place(&r));
        Some((place, name_of(&r)?))
    });
    named.enumerate().map(move |(position, (place, name))| {
        let hidden_by = match first_place.entry(name) {
            Entry::Occupied(first) => Some(*first.get()),
            Entry::Vacant(first) => {
                first.insert(place);
                None
            }
        };
        Module { position, place, name, hidden_by }
    })
}

/// The names of a set's modules, hidden ones too, in the order of their positions.
pub fn module_names(set: &[u8]) -> impl Iterator<Item = &[u8]> {
    records(set).filter_map(|r| name_of(&r))
}
