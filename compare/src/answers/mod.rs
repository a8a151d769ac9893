//! A fixed list of small cases with the original's answers, for the test program `answers`, whose main.rt tells the layout.
//!
//! The original gives members, read edges, owners, readers, verdicts, jar names and the causes of refusals 5 to 7, 9 and 10. It
//! must give the same under any hashing. Static requirements without ST, which it does not know, are resolved by second.rs, which
//! must agree everywhere else. The original has no refusals 1 to 4 and no offsets in an input: those are by document 01 and, for
//! places and ST, U2 and U6 of document 02, and the list names them by hand.
mod access;
mod configurations;
mod jars;
mod malformed;
mod places;
mod queue;
mod reads;
mod rounds;
mod statics;

use crate::module::access::{AccessCheck, AccessCheckResult};
use crate::module::error::ModuleError;
use crate::module::graph::ModuleGraph;
use crate::module::resolution::ResolvedConfiguration;
use crate::original::{self, Inputs, listing};
use crate::records::{parse_both, text};
use crate::second;
use saqhovune::form::{Record, module_names, records};
use saqhovune::{Configuration, Input, Refusal};
use std::collections::BTreeSet;
use std::fs;
use std::path::Path;

const SEEDS: u64 = 32;
const SET: u8 = 1;
const REQUEST: u8 = 2;
const PACKAGES: u8 = 3;

/// Something asked over a configuration.
enum Entry {
    Question(Vec<u8>, Vec<u8>, Vec<u8>),
    Owner(Vec<u8>),
    Graph(Vec<u8>),
}

/// A refusal that the original does not have: its number, the input it is in (0 where none is told), and where.
#[derive(Clone, Copy)]
struct ByHand {
    number: u8,
    which: u8,
    at: usize,
}

enum What {
    /// What a set and a request resolve to, and entries over it. Of several requirements of an absent name, which is at fault.
    Resolved { requirement: Option<usize> },
    /// A set and a request that are refused before.
    Refused(ByHand),
    /// Entries over a configuration of these members and edges; `second::UNNAMED` is ALL-UNNAMED.
    Configured { members: Vec<usize>, edges: Vec<(usize, usize)> },
}

/// A set and a request, and what is asked.
struct System {
    name: String,
    set: Vec<u8>,
    request: Vec<u8>,
    what: What,
    entries: Vec<Entry>,
}

/// A jar and its answer, where it is by hand. A short output has 40 bytes.
struct Jar {
    name: String,
    jar: Vec<u8>,
    manifest: Option<Vec<u8>>,
    packages: Vec<u8>,
    is_short: bool,
    by_hand: Option<ByHand>,
}

fn system(name: &str, set: &[Vec<u8>], request: &[Vec<u8>]) -> System {
    let what = What::Resolved { requirement: None };
    System { name: name.into(), set: set.concat(), request: request.concat(), what, entries: Vec::new() }
}

impl System {
    fn ask(mut self, asker: &str, target: &str, package: &str) -> Self {
        self.entries.push(Entry::Question(asker.into(), target.into(), package.into()));
        self
    }

    fn ask_bytes(mut self, asker: &[u8], target: &[u8], package: &[u8]) -> Self {
        self.entries.push(Entry::Question(asker.into(), target.into(), package.into()));
        self
    }

    fn owner(mut self, package: &str) -> Self {
        self.entries.push(Entry::Owner(package.into()));
        self
    }

    fn graph(mut self, name: &str) -> Self {
        self.entries.push(Entry::Graph(name.into()));
        self
    }

    /// Of the requirements of the absent name, this one is at fault.
    fn requirement(mut self, requirement: usize) -> Self {
        self.what = What::Resolved { requirement: Some(requirement) };
        self
    }

    fn refused(mut self, number: u8, which: u8, at: usize) -> Self {
        self.what = What::Refused(ByHand { number, which, at });
        self
    }

    /// Over this configuration, resolved or not.
    fn over(mut self, members: &[usize], edges: &[(usize, usize)]) -> Self {
        self.what = What::Configured { members: members.into(), edges: edges.into() };
        self
    }
}

/// The list and what the program prints.
#[derive(Default)]
struct Out {
    cases: Vec<u8>,
    lines: String,
    counts: [(&'static str, usize); 4],
}

fn put(out: &mut Vec<u8>, text: &[u8]) {
    out.extend(u32::try_from(text.len()).expect("a text is short").to_be_bytes());
    out.extend(text);
}

fn put_row(out: &mut Vec<u8>, positions: impl Iterator<Item = usize>) {
    let mut words = [0u64; 8];
    positions.for_each(|i| words[i / 64] |= 1 << (i % 64));
    words.iter().for_each(|w| out.extend(w.to_be_bytes()));
}

fn refusal(which: u8, at: usize, len: usize, owner: usize, second: usize) -> Vec<u8> {
    let mut out = vec![which];
    out.extend((at as u32).to_be_bytes());
    [len, owner, second].iter().for_each(|n| out.extend((*n as u16).to_be_bytes()));
    out
}

impl ByHand {
    fn bytes(&self) -> Vec<u8> {
        refusal(self.which, self.at, 0, 0, 0)
    }

    fn line(&self) -> String {
        let which = ["", " set", " request", " packages"][usize::from(self.which)];
        if self.number < 5 { format!(" refused {}{which} {}", self.number, self.at) } else { format!(" refused {}", self.number) }
    }
}

/// Where the name of a record starts in its input: behind the mark, the body's length, `skip` bytes and the name's length.
fn place(r: &Record, skip: usize) -> usize {
    r.offset + 4 + skip + 1
}

/// The record whose handling queued an absent name, or the requirement at fault: a root, else a requirement that is not static.
fn absent(s: &System, name: &[u8], requirement: Option<usize>) -> (u8, usize) {
    if let Some(r) = records(&s.request).find(|r| r.mark == b"RT" && &r.body[1..] == name) {
        return (REQUEST, place(&r, 0));
    }
    let is_it = |r: &Record| r.mark == b"RQ" && r.body[1] & 0x40 == 0 && &r.body[3..r.body.len() - 1] == name;
    let all: Vec<usize> = records(&s.set).filter(is_it).map(|r| place(&r, 2)).collect();
    assert!(all.len() == 1 || requirement.is_some(), "{}: which requirement is at fault?", s.name);
    (SET, all[requirement.unwrap_or(0)])
}

/// The first record of a package in the module at this position.
fn package_in(s: &System, module: usize, name: &[u8]) -> usize {
    let mut seen = 0;
    for r in records(&s.set) {
        seen += usize::from(r.mark == b"MO");
        if seen == module + 1 && r.mark == b"PK" && &r.body[1..] == name {
            return place(&r, 0);
        }
    }
    panic!("{}: no such package", s.name)
}

fn number_of(v: AccessCheckResult) -> u8 {
    match v {
        AccessCheckResult::Allowed => 0,
        AccessCheckResult::NotReadable => 1,
        AccessCheckResult::NotExported => 2,
        AccessCheckResult::NotOpened => 3,
    }
}

/// Positions of these names, and whether ALL-UNNAMED is among them.
fn put_names(out: &mut Vec<u8>, inputs: &Inputs, names: &BTreeSet<String>) -> usize {
    let positions: Vec<usize> = names.iter().filter(|n| *n != "ALL-UNNAMED").map(|n| inputs.position(n).unwrap()).collect();
    put_row(out, positions.iter().copied());
    out.push(u8::from(names.contains("ALL-UNNAMED")));
    positions.len()
}

fn entries(s: &System, inputs: &Inputs, c: &ResolvedConfiguration, line: &mut String) -> Vec<u8> {
    let access = AccessCheck::new(c);
    let graph = ModuleGraph::from_configuration(c);
    let mut out = Vec::new();
    for e in &s.entries {
        match e {
            Entry::Question(asker, target, package) => {
                let [a, t, p] = [asker, target, package].map(|b| text(b));
                let verdicts = [access.check_access(&a, &t, &p), access.check_reflection_access(&a, &t, &p)];
                out.push(0);
                [asker, target, package].iter().for_each(|b| put(&mut out, b));
                out.extend(verdicts.map(number_of));
                *line += &format!(" {:?}/{:?}", verdicts[0], verdicts[1]);
            }
            Entry::Owner(package) => {
                let p = text(package);
                let having = c.modules().filter(|m| m.descriptor().packages.contains(&p)).count();
                assert!(having < 2, "{}: a package of several members has no owner in the original", s.name);
                let owner = c.find_module_for_package(&p).map(|n| inputs.position(n).unwrap());
                out.push(1);
                put(&mut out, package);
                out.extend((owner.unwrap_or(65_535) as u16).to_be_bytes());
                *line += &owner.map_or(" owner none".into(), |i| format!(" owner {i}"));
            }
            Entry::Graph(name) => {
                let n = text(name);
                out.push(2);
                put(&mut out, name);
                let readers = put_names(&mut out, inputs, &graph.readers_of(&n).cloned().unwrap_or_default());
                let reaches = put_names(&mut out, inputs, &graph.transitive_reads(&n));
                *line += &format!(" readers {readers} reaches {reaches}");
            }
        }
    }
    out
}

/// The words of the original's members and a row for each module, empty for a hidden one; and how many edges the rows have.
fn configuration(inputs: &Inputs, c: &ResolvedConfiguration) -> (Vec<u8>, usize) {
    let (mut out, mut edges) = (Vec::new(), 0);
    put_row(&mut out, c.modules().map(|m| inputs.position(m.name()).unwrap()));
    for (m, observable) in inputs.modules.iter().zip(inputs.observable()) {
        let member = c.get(m.name()).filter(|_| observable);
        edges += put_names(&mut out, inputs, &member.map(|m| m.reads().clone()).unwrap_or_default());
    }
    (out, edges)
}

/// The same words for members and edges given.
fn given(members: &[usize], edges: &[(usize, usize)]) -> (Configuration, Vec<u8>) {
    let mut out = Vec::new();
    put_row(&mut out, members.iter().copied());
    for i in 0..edges.iter().map(|e| e.0 + 1).max().unwrap_or(0) {
        put_row(&mut out, edges.iter().filter(|e| e.0 == i && e.1 != second::UNNAMED).map(|e| e.1));
        out.push(u8::from(edges.contains(&(i, second::UNNAMED))));
    }
    (second::configuration(members, edges), out)
}

/// A refusal of the original: its number, particulars and line.
fn refused(s: &System, inputs: &Inputs, cause: &ModuleError, requirement: Option<usize>) -> (u8, Vec<u8>, String) {
    match cause {
        ModuleError::ModuleNotFound(n) if n == "java.base" => (6, refusal(0, 0, 0, 0, 0), " refused 6".into()),
        ModuleError::ModuleNotFound(n) => {
            let (which, at) = absent(s, n.as_bytes(), requirement);
            (5, refusal(which, at, n.len(), 0, 0), format!(" refused 5 {n}"))
        }
        ModuleError::SplitPackage { package, module1, module2 } => {
            let [owner, second] = [module1, module2].map(|n| inputs.position(n).unwrap());
            let at = package_in(s, second, package.as_bytes());
            (7, refusal(SET, at, package.len(), owner, second), format!(" refused 7 {package} {owner} {second}"))
        }
        e => panic!("{}: {e:?}", s.name),
    }
}

/// The original's resolution, which is to be the same however it hashes.
fn resolved(s: &System, inputs: &Inputs) -> Result<ResolvedConfiguration, ModuleError> {
    let tell = |r: &Result<ResolvedConfiguration, ModuleError>| match r {
        Ok(c) => listing(c),
        Err(e) => format!("{e:?}"),
    };
    let answer = |seed| {
        ahash::set_seed(seed);
        inputs.resolve()
    };
    let first = answer(0);
    let wanted = tell(&first);
    (1..SEEDS).for_each(|seed| assert_eq!(tell(&answer(seed)), wanted, "{}: the answer depends on hashing", s.name));
    first
}

/// The particulars of a refusal of a resolution.
fn particulars(e: &Refusal) -> Vec<u8> {
    match *e {
        Refusal::ModuleNotFound { input: Input::Set, start, len } => refusal(SET, start, len, 0, 0),
        Refusal::ModuleNotFound { start, len, .. } => refusal(REQUEST, start, len, 0, 0),
        Refusal::SplitPackage { start, len, owner, second } => refusal(SET, start, len, owner, second),
        _ => refusal(0, 0, 0, 0, 0),
    }
}

impl Out {
    fn start(&mut self, name: &str, kind: u8, which: usize, what: &'static str) {
        put(&mut self.cases, name.as_bytes());
        self.cases.push(kind);
        self.lines += &format!("{name}:");
        self.counts[which] = (what, self.counts[which].1 + 1);
    }

    fn system(&mut self, s: &System) {
        let parsed = parse_both(&s.set, &s.request);
        if let What::Refused(r) = &s.what {
            // The second reading of the documents (records.rs) must say the same.
            let bad = parsed.err().map(|b| (b.number, b.offset));
            assert_eq!(bad, Some((r.number, r.at)), "{}", s.name);
            self.start(&s.name, b'R', 0, "refusals 1 to 3");
            put(&mut self.cases, &s.set);
            put(&mut self.cases, &s.request);
            self.cases.push(r.number);
            put(&mut self.cases, &r.bytes());
            put(&mut self.cases, b"");
            self.lines += &(r.line() + "\n");
            return;
        }
        let (modules, request) = parsed.unwrap_or_else(|b| panic!("{}: {b:?}", s.name));
        assert_eq!(modules.len(), module_names(&s.set).count());
        let inputs = Inputs { modules, request };
        let mut line = String::new();
        match &s.what {
            What::Configured { members, edges } => {
                let (c, bytes) = given(members, edges);
                let asked = entries(s, &inputs, &inputs.configured(&c), &mut line);
                self.start(&s.name, b'C', 2, "other configurations");
                [&s.set, &s.request, &bytes, &asked].iter().for_each(|b| put(&mut self.cases, b));
                self.lines += &format!(" asked{line}\n");
            }
            What::Resolved { requirement } => {
                let second = second::resolve(&s.set, &s.request);
                let outcome = if inputs.request.with_static || !inputs.has_static() {
                    resolved(s, &inputs)
                } else {
                    inputs.as_original(&s.set, &s.request, &second)
                };
                let (number, answer, asked) = match outcome {
                    Ok(c) => {
                        let same = second.is_ok_and(|second| listing(&inputs.configured(&second)) == listing(&c));
                        assert!(same, "{}: the second reading differs", s.name);
                        let (answer, edges) = configuration(&inputs, &c);
                        line += &format!(" resolved {} reads {edges}", c.len());
                        (0, answer, entries(s, &inputs, &c, &mut line))
                    }
                    Err(cause) => {
                        assert!(s.entries.is_empty(), "{}: refused", s.name);
                        let (number, answer, told) = refused(s, &inputs, &cause, *requirement);
                        let second = second.err().map(|e| (e.number(), particulars(&e)));
                        assert_eq!(second.as_ref(), Some(&(number, answer.clone())), "{}: the second reading differs", s.name);
                        line += &told;
                        (number, answer, Vec::new())
                    }
                };
                self.start(&s.name, b'R', 1, "resolutions");
                put(&mut self.cases, &s.set);
                put(&mut self.cases, &s.request);
                self.cases.push(number);
                put(&mut self.cases, &answer);
                put(&mut self.cases, &asked);
                self.lines += &(line + "\n");
            }
            What::Refused(_) => unreachable!(),
        }
    }

    fn jar(&mut self, j: &Jar) {
        let (number, answer, line) = match &j.by_hand {
            Some(r) => (r.number, r.bytes(), r.line()),
            None => {
                let packages: Vec<String> = records(&j.packages).map(|r| text(&r.body[1..])).collect();
                let jar = str::from_utf8(&j.jar).expect("the original takes text");
                let manifest = j.manifest.as_ref().map(|m| text(m));
                match original::jar(jar, manifest.as_deref(), &packages) {
                    Ok(records) => {
                        let line = format!(" written {}", records.len());
                        (0, records, line)
                    }
                    Err(ModuleError::InvalidAutomaticModuleName(_)) => (9, refusal(0, 0, 0, 0, 0), " refused 9".into()),
                    Err(ModuleError::InvalidModuleName(_)) => (10, refusal(0, 0, 0, 0, 0), " refused 10".into()),
                    Err(e) => panic!("{}: {e:?}", j.name),
                }
            }
        };
        self.start(&j.name, b'J', 3, "jars");
        put(&mut self.cases, &j.jar);
        put(&mut self.cases, j.manifest.as_deref().unwrap_or(b""));
        put(&mut self.cases, &j.packages);
        self.cases.extend([u8::from(j.manifest.is_some()), u8::from(j.is_short), number]);
        put(&mut self.cases, &answer);
        self.lines += &(line + "\n");
    }
}

/// Writes data/cases, data/more and stdout into the folder of the test program. Places, static requirements and jars are in
/// the second.
pub fn write(folder: &Path) -> std::io::Result<()> {
    let mut out = Out::default();
    let systems = [malformed::systems(), queue::systems(), rounds::systems(), reads::systems(), access::systems()];
    let systems: Vec<System> = systems.into_iter().flatten().chain(configurations::systems()).collect();
    let more: Vec<System> = places::systems().into_iter().chain(statics::systems()).collect();
    let jars = jars::jars();
    let names = systems.iter().chain(&more).map(|s| s.name.as_str());
    let mut names: Vec<&str> = names.chain(jars.iter().map(|j| j.name.as_str())).collect();
    names.sort();
    names.windows(2).for_each(|w| assert_ne!(w[0], w[1], "a name of two cases"));
    systems.iter().for_each(|s| out.system(s));
    let cases = std::mem::take(&mut out.cases);
    more.iter().for_each(|s| out.system(s));
    jars.iter().for_each(|j| out.jar(j));
    for list in [&cases, &out.cases] {
        assert!(list.len() <= 524_288, "a list is too long: {} bytes", list.len());
    }
    for (what, n) in out.counts {
        println!("{what}: {n}");
    }
    fs::write(folder.join("data/cases"), cases)?;
    fs::write(folder.join("data/more"), out.cases)?;
    fs::write(folder.join("stdout"), out.lines)
}
