//! The refusals, by their numbers.
use std::fmt;

/// One of the inputs made of records.
#[derive(Clone, Copy, Debug, PartialEq, Eq)]
pub enum Input {
    /// The set.
    Set,
    /// The request.
    Request,
    /// The package records of the jar reader.
    Packages,
}

impl Input {
    fn of(number: u64) -> Self {
        match number {
            0 => Input::Set,
            1 => Input::Request,
            2 => Input::Packages,
            n => unreachable!("the library has no input {n}"),
        }
    }
}

/// Why a call has no answer. Offsets are in bytes from the start of the input.
#[derive(Clone, Copy, Debug, PartialEq, Eq)]
pub enum Refusal {
    /// 1: a record is malformed.
    Malformed {
        /// The input that has it.
        input: Input,
        /// The offset of the record.
        offset: usize,
    },
    /// 2: an input, or a record to be written, is too long, or the set has more than 512 modules or more than eight places.
    TooLarge {
        /// The offset of the 513th module, hidden ones counted, or of the PL of the ninth place, else 0.
        offset: usize,
    },
    /// 3: a module has the name of an earlier one in its place, or ALL-UNNAMED.
    Repeated {
        /// The offset of its record in the set.
        offset: usize,
    },
    /// 4: the output is too short, or the words lent for a configuration are too few.
    OutputTooShort {
        /// How many bytes the answer takes, or words a configuration has.
        needed: usize,
    },
    /// 5: a module is absent.
    ModuleNotFound {
        /// The input that asks for it: the request by a root, or the set by a requirement.
        input: Input,
        /// Where its name starts there.
        start: usize,
        /// The length of its name.
        len: usize,
    },
    /// 6: java.base is absent.
    JavaBaseNotFound,
    /// 7: two resolved modules have the same package.
    SplitPackage {
        /// Where the package's name starts in the set.
        start: usize,
        /// The length of its name.
        len: usize,
        /// The position of its owner.
        owner: usize,
        /// The position of the second module.
        second: usize,
    },
    /// 8: the class file is malformed.
    DescriptorParseError {
        /// Where.
        offset: usize,
    },
    /// 9: the jar's name leaves no module name.
    InvalidAutomaticModuleName,
    /// 10: the module name of a jar is not a legal one.
    InvalidModuleName,
}

impl Refusal {
    /// The refusal that the library tells.
    fn of(number: u64, particulars: [u64; 4]) -> Self {
        let [a, b, c, d] = particulars.map(|p| p as usize);
        match number {
            1 => Refusal::Malformed { input: Input::of(particulars[0]), offset: b },
            2 => Refusal::TooLarge { offset: a },
            3 => Refusal::Repeated { offset: a },
            4 => Refusal::OutputTooShort { needed: a },
            5 => Refusal::ModuleNotFound { input: Input::of(particulars[0]), start: b, len: c },
            6 => Refusal::JavaBaseNotFound,
            7 => Refusal::SplitPackage { start: a, len: b, owner: c, second: d },
            8 => Refusal::DescriptorParseError { offset: a },
            9 => Refusal::InvalidAutomaticModuleName,
            10 => Refusal::InvalidModuleName,
            n => unreachable!("the library has no refusal {n}"),
        }
    }

    /// Its number, 1 to 10.
    pub fn number(&self) -> u8 {
        match self {
            Refusal::Malformed { .. } => 1,
            Refusal::TooLarge { .. } => 2,
            Refusal::Repeated { .. } => 3,
            Refusal::OutputTooShort { .. } => 4,
            Refusal::ModuleNotFound { .. } => 5,
            Refusal::JavaBaseNotFound => 6,
            Refusal::SplitPackage { .. } => 7,
            Refusal::DescriptorParseError { .. } => 8,
            Refusal::InvalidAutomaticModuleName => 9,
            Refusal::InvalidModuleName => 10,
        }
    }
}

/// Makes a call with room for its particulars: they are the answer if it returns 0, else those of a refusal.
pub(crate) fn told(call: impl FnOnce(*mut u64) -> u64) -> Result<[u64; 4], Refusal> {
    let mut particulars = [0; 4];
    match call(particulars.as_mut_ptr()) {
        0 => Ok(particulars),
        number => Err(Refusal::of(number, particulars)),
    }
}

/// A sentence without names; [`Refusal::message`] has them.
impl fmt::Display for Refusal {
    fn fmt(&self, f: &mut fmt::Formatter<'_>) -> fmt::Result {
        match *self {
            Refusal::Malformed { input: Input::Set, offset } => {
                write!(f, "the set's record at offset {offset} is malformed")
            }
            Refusal::Malformed { input: Input::Request, offset } => {
                write!(f, "the request's record at offset {offset} is malformed")
            }
            Refusal::Malformed { input: Input::Packages, offset } => {
                write!(f, "the package record at offset {offset} is malformed")
            }
            Refusal::TooLarge { offset: 0 } => {
                write!(f, "an input or a record to be written is longer than 65,535 bytes, or a jar name is longer than 255")
            }
            Refusal::TooLarge { offset } => {
                write!(f, "module 513 or place 9 at offset {offset}: a set has at most 512 modules and eight places")
            }
            Refusal::Repeated { offset } => {
                write!(f, "the module at offset {offset} of the set has the name of an earlier one in its place, or ALL-UNNAMED")
            }
            Refusal::OutputTooShort { needed } => {
                write!(f, "the output is too short, or words of a configuration are too few: {needed} are needed")
            }
            Refusal::ModuleNotFound { input: Input::Request, .. } => write!(f, "a root of the request is not in the set"),
            Refusal::ModuleNotFound { .. } => write!(f, "a required module is not in the set"),
            Refusal::JavaBaseNotFound => write!(f, "module java.base is not in the set"),
            Refusal::SplitPackage { owner, second, .. } => {
                write!(f, "the modules at positions {owner} and {second} have the same package")
            }
            Refusal::DescriptorParseError { offset } => {
                write!(f, "the class file is malformed at offset {offset}")
            }
            Refusal::InvalidAutomaticModuleName => write!(f, "the jar's name leaves no module name"),
            Refusal::InvalidModuleName => {
                write!(f, "the module name that the manifest or the jar's name gives is not a legal one")
            }
        }
    }
}

impl std::error::Error for Refusal {}
