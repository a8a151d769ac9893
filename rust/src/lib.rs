//! Safe calls into the proved library: which modules of a set start for a request, which module may see which package, and
//! the records that a class file or a jar gives.
//!
//! A set and a request are byte strings of records ([`form`] writes them). Every call answers, or ends with a [`Refusal`] and
//! leaves a lent output as it was. A module is told by its position in the set, from 0; [`form::module_names`] lists the names
//! in that order. A static requirement starts nothing unless the request has [`form::with_static`].
//!
//! A call takes up to 710 KiB of stack in the library (`resolve`; `saqhovune.h` has a figure for each), and some
//! here: a thread of 1 MiB is enough for each function, also in a debug build, and no smaller one is tested.
//!
//! ```
//! use saqhovune::form::{exports, module, module_names, package, requires, root};
//! use saqhovune::{AccessKind, Verdict};
//! let base = module("java.base"); // or from_class_file_vec(&module_info)?, or automatic_from_jar_name_vec(..)?
//! let foot = [module("page.foot"), requires("page.frames", 0)].concat();
//! let frames = [module("page.frames"), package("page/frame"), exports("page/frame", &[])].concat();
//! let (set, request) = ([base, foot, frames].concat(), root("page.foot"));
//! let resolved = saqhovune::resolve(&set, &request).unwrap_or_else(|e| panic!("{}", e.message(&set, &request)));
//! for (position, name) in module_names(&set).enumerate().filter(|(i, _)| resolved.configuration.contains(*i)) {
//!     println!("{position} {} starts", String::from_utf8_lossy(name));
//! }
//! let c = &resolved.configuration;
//! let may = saqhovune::check_access(&set, &request, c, AccessKind::Access, b"page.foot", b"page.frames", b"page/frame");
//! assert_eq!((resolved.count, may), (3, Ok(Verdict::Allowed)));
//! ```
//!
//! A set may have up to eight places, as folders that hide one another: [`form::place`] starts one, and of modules of one name
//! the first counts. A hidden module has a position and is never a member; [`form::modules`] tells which are hidden.
//!
//! ```
//! use saqhovune::form::{module, modules, package, place, root};
//! let shop = [module("page.foot"), package("shop/foot")].concat();
//! let ours = [module("java.base"), module("page.foot"), package("page/foot")].concat();
//! let (set, request) = ([shop, place(), ours].concat(), root("page.foot"));
//! let resolved = saqhovune::resolve(&set, &request).unwrap_or_else(|e| panic!("{}", e.message(&set, &request)));
//! assert_eq!(resolved.configuration.members().collect::<Vec<_>>(), [0, 1]);
//! assert_eq!(modules(&set).nth(2).unwrap().hidden_by, Some(1));
//! assert_eq!(saqhovune::hidden_messages(&set).collect::<Vec<_>>(), ["page.foot of place 2 is hidden by place 1"]);
//! ```
#![warn(missing_docs)]

mod access;
mod configuration;
pub mod form;
mod graph;
mod message;
mod raw;
mod reader;
mod refusal;
mod resolve;

pub use access::{can_read, check_access, find_module_for_package, AccessKind, Verdict};
pub use configuration::{Configuration, Row, WORDS};
pub use graph::{readers_of, transitive_reads};
pub use message::hidden_messages;
pub use reader::{automatic_from_jar_name, automatic_from_jar_name_vec, from_class_file, from_class_file_vec};
pub use refusal::{Input, Refusal};
pub use resolve::{check, resolve, resolve_into, Resolved};
