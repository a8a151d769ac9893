//! Refusals and hidden modules as sentences with the names of modules and packages.
use crate::form::{modules, name_of, records, starts_place, Module};
use crate::refusal::{Input, Refusal};

const LONGEST: usize = 65_535;

fn text(bytes: &[u8]) -> String {
    String::from_utf8_lossy(bytes).into_owned()
}

/// The text at a place of an input.
fn part(bytes: &[u8], start: usize, len: usize) -> Option<String> {
    Some(text(bytes.get(start..start.checked_add(len)?)?))
}

/// A module's name, with its place where the set has several.
fn named(set: &[u8], module: Module) -> String {
    let name = text(module.name);
    if records(set).filter(starts_place).count() > 1 {
        format!("{name} of place {}", module.place)
    } else {
        name
    }
}

/// The module at a position.
fn module_at(set: &[u8], position: usize) -> Option<String> {
    modules(set).nth(position).map(|m| named(set, m))
}

/// The module whose records are around an offset.
fn module_around(set: &[u8], offset: usize) -> Option<Module<'_>> {
    let started = records(set).take_while(|r| r.offset <= offset).filter(|r| name_of(r).is_some()).count();
    modules(set).nth(started.checked_sub(1)?)
}

/// A sentence for each hidden module of a set that the check takes, as "page.foot of place 2 is hidden by place 1".
pub fn hidden_messages(set: &[u8]) -> impl Iterator<Item = String> + '_ {
    modules(set).filter(|m| m.hidden_by.is_some()).map(|m| m.to_string())
}

impl Refusal {
    /// A sentence for people, with the names that the set and the request of the call give. Where the call had none (a reader),
    /// pass empty ones.
    pub fn message(&self, set: &[u8], request: &[u8]) -> String {
        self.with_names(set, request).unwrap_or_else(|| self.to_string())
    }

    fn with_names(&self, set: &[u8], request: &[u8]) -> Option<String> {
        match *self {
            Refusal::TooLarge { offset: 0 } if set.len() > LONGEST => Some("the set is longer than 65,535 bytes".into()),
            Refusal::TooLarge { offset: 0 } if request.len() > LONGEST => Some("the request is longer than 65,535 bytes".into()),
            Refusal::TooLarge { offset: offset @ 1.. } => match records(set).find(|r| r.offset == offset)?.mark {
                b"MO" => Some(format!("module 513 at offset {offset}: a set has at most 512 modules")),
                b"PL" => Some(format!("the set has more than eight places, the ninth at offset {offset}")),
                _ => None,
            },
            Refusal::Repeated { offset } => {
                let record = records(set).find(|r| r.offset == offset)?;
                let name = text(name_of(&record)?);
                if name == "ALL-UNNAMED" {
                    return Some(format!(
                        "the module at offset {offset} of the set has the name ALL-UNNAMED, which no module may have"
                    ));
                }
                let whole = if records(set).any(|r| r.mark == b"PL") {
                    format!("place {}", module_around(set, offset)?.place)
                } else {
                    "the set".into()
                };
                Some(format!("module {name} is in {whole} twice, the second time at offset {offset}"))
            }
            Refusal::ModuleNotFound { input: Input::Request, start, len } => {
                Some(format!("the request's root {} is not in the set", part(request, start, len)?))
            }
            Refusal::ModuleNotFound { start, len, .. } => Some(format!(
                "module {} requires {}, which is not in the set",
                named(set, module_around(set, start)?),
                part(set, start, len)?
            )),
            Refusal::SplitPackage { start, len, owner, second } => Some(format!(
                "modules {} and {} both have package {}",
                module_at(set, owner)?,
                module_at(set, second)?,
                part(set, start, len)?
            )),
            _ => None,
        }
    }
}
