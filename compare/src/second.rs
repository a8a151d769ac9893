//! A second reading of resolution, apart from the library and from the original: document 01 and, for places, ST and the
//! words, U2, U6 and U12 of document 02. It takes sets and requests that the check takes.
use saqhovune::form::{Record, records};
use saqhovune::{Configuration, Input, Refusal};
use std::collections::{BTreeMap, BTreeSet, VecDeque};

/// ALL-UNNAMED as the target of an edge.
pub const UNNAMED: usize = 512;

/// Eight words of members, then for each position eight of its edges and one whose lowest bit is ALL-UNNAMED.
pub const NEEDED: usize = 8 + 512 * 9;

/// The words of these members and edges; all else is zero.
pub fn words(members: &[usize], edges: &[(usize, usize)]) -> Vec<u64> {
    let mut words = vec![0; NEEDED];
    for i in members {
        words[i / 64] |= 1 << (i % 64);
    }
    for (i, j) in edges {
        let (word, bit) = if *j == UNNAMED { (8, 0) } else { (j / 64, j % 64) };
        words[8 + 9 * i + word] |= 1 << bit;
    }
    words
}

/// A configuration of these members and edges.
pub fn configuration(members: &[usize], edges: &[(usize, usize)]) -> Configuration {
    Configuration::from_words(words(members, edges).try_into().expect("as many words as the crate says"))
}

/// A name, and where it starts.
#[derive(Clone, Copy)]
struct Name<'a> {
    text: &'a [u8],
    input: Input,
    start: usize,
}

/// The name of a record behind `skip` bytes of its body.
fn name<'a>(r: &Record<'a>, input: Input, skip: usize) -> Name<'a> {
    let text = &r.body[skip + 1..][..r.body[skip].into()];
    Name { text, input, start: r.offset + 4 + skip + 1 }
}

/// The names of a list behind its count.
fn list(mut body: &[u8]) -> BTreeSet<&[u8]> {
    body = &body[2..];
    let mut names = BTreeSet::new();
    while let Some((&length, rest)) = body.split_first() {
        let (name, rest) = rest.split_at(length.into());
        names.insert(name);
        body = rest;
    }
    names
}

struct Requirement<'a> {
    name: Name<'a>,
    is_static: bool,
    is_transitive: bool,
}

#[derive(Default)]
struct Module<'a> {
    position: usize,
    is_automatic: bool,
    requires: Vec<Requirement<'a>>,
    uses: BTreeSet<&'a [u8]>,
    provides: BTreeSet<&'a [u8]>,
    /// In byte order, with the first record of each.
    packages: BTreeMap<&'a [u8], Name<'a>>,
}

/// The modules that are not hidden.
#[derive(Default)]
struct Observable<'a> {
    by_name: BTreeMap<&'a [u8], Module<'a>>,
    /// In set order.
    names: Vec<Name<'a>>,
}

fn observable(set: &[u8]) -> Observable<'_> {
    let mut all = Observable::default();
    let mut position = 0;
    let mut current = None; // the module whose records come, if it is not hidden
    for r in records(set) {
        let at = |skip| name(&r, Input::Set, skip);
        if r.mark == b"MO" {
            let n = at(3);
            current = (!all.by_name.contains_key(n.text)).then_some(n.text);
            if current.is_some() {
                all.names.push(n);
                all.by_name.insert(n.text, Module { position, is_automatic: r.body[2] == 1, ..Module::default() });
            }
            position += 1;
        }
        let Some(m) = current.and_then(|n| all.by_name.get_mut(n)) else { continue };
        match r.mark {
            b"RQ" => {
                let flags = r.body[1];
                let (is_static, is_transitive) = (flags & 0x40 != 0, flags & 0x20 != 0);
                m.requires.push(Requirement { name: at(2), is_static, is_transitive });
            }
            b"US" => _ = m.uses.insert(at(0).text),
            b"PV" => _ = m.provides.insert(at(0).text),
            b"PK" => _ = m.packages.entry(at(0).text).or_insert(at(0)),
            _ => {}
        }
    }
    all
}

struct Resolution<'a> {
    all: Observable<'a>,
    permitted: Option<BTreeSet<&'a [u8]>>,
    with_static: bool,
    met: BTreeSet<&'a [u8]>,
    queue: VecDeque<Name<'a>>,
    members: BTreeSet<&'a [u8]>,
    /// The module that owns a package.
    owners: BTreeMap<&'a [u8], usize>,
}

impl<'a> Resolution<'a> {
    fn permits(&self, name: &[u8]) -> bool {
        name == b"java.base" || self.permitted.as_ref().is_none_or(|p| p.contains(name))
    }

    fn is_observable(&self, name: &[u8]) -> bool {
        self.all.by_name.contains_key(name)
    }

    fn absent(name: &Name) -> Refusal {
        if name.text == b"java.base" {
            return Refusal::JavaBaseNotFound;
        }
        Refusal::ModuleNotFound { input: name.input, start: name.start, len: name.text.len() }
    }

    /// Handles what is queued until nothing is.
    fn run(&mut self, in_round: bool) -> Result<(), Refusal> {
        while let Some(n) = self.queue.pop_front() {
            if !self.permits(n.text) {
                continue;
            }
            let m = self.all.by_name.get(n.text).ok_or(Self::absent(&n))?;
            for (package, first) in &m.packages {
                if let Some(&owner) = self.owners.get(package) {
                    let (start, len, second) = (first.start, package.len(), m.position);
                    return Err(Refusal::SplitPackage { start, len, owner, second });
                }
                self.owners.insert(package, m.position);
            }
            for r in &m.requires {
                let name = r.name.text;
                let observable = self.is_observable(name);
                let leads = if r.is_static { self.with_static && observable } else { true };
                if !leads || self.met.contains(name) {
                    continue;
                }
                if in_round && !observable {
                    return Err(Self::absent(&r.name));
                }
                self.met.insert(name);
                self.queue.push_back(r.name);
            }
            self.members.insert(n.text);
        }
        Ok(())
    }

    /// Queues the providers of a round; whether there is one.
    fn bind(&mut self) -> bool {
        let members = self.members.iter().map(|n| &self.all.by_name[n]);
        let used: BTreeSet<&[u8]> = members.flat_map(|m| m.uses.iter().copied()).collect();
        let is_new = |n: &&Name| {
            let provides = !self.all.by_name[n.text].provides.is_disjoint(&used);
            provides && !self.met.contains(n.text) && self.permits(n.text)
        };
        let new: Vec<Name> = self.all.names.iter().filter(is_new).copied().collect();
        self.met.extend(new.iter().map(|n| n.text));
        self.queue.extend(&new);
        !new.is_empty()
    }

    /// The modules that a member reads by requirements: its own, java.base, and what transitive ones reach from these.
    fn required(&self, of: &[u8]) -> BTreeSet<&'a [u8]> {
        let mut next: Vec<&[u8]> = self.all.by_name[of].requires.iter().map(|r| r.name.text).collect();
        if of != b"java.base" {
            next.push(b"java.base");
        }
        let mut read = BTreeSet::new();
        while let Some(n) = next.pop() {
            if self.members.contains(n) && read.insert(n) {
                next.extend(self.all.by_name[n].requires.iter().filter(|r| r.is_transitive).map(|r| r.name.text));
            }
        }
        read
    }

    fn edges(&self, request: &[u8]) -> Vec<(usize, usize)> {
        let position = |n: &[u8]| self.all.by_name[n].position;
        let mut edges = Vec::new();
        for &from in &self.members {
            edges.extend(self.required(from).into_iter().map(|to| (position(from), position(to))));
            if self.all.by_name[from].is_automatic {
                edges.extend(self.members.iter().filter(|to| **to != from).map(|to| (position(from), position(to))));
            }
        }
        for r in records(request).filter(|r| r.mark == b"AR") {
            let from = name(&r, Input::Request, 0).text;
            let to = name(&r, Input::Request, 1 + from.len()).text;
            if !self.members.contains(from) {
                continue;
            }
            if to == b"ALL-UNNAMED" {
                edges.push((position(from), UNNAMED));
            } else if self.members.contains(to) {
                edges.push((position(from), position(to)));
            }
        }
        edges
    }
}

/// What a set and a request resolve to.
pub fn resolve(set: &[u8], request: &[u8]) -> Result<Configuration, Refusal> {
    let mut r = Resolution {
        all: observable(set),
        permitted: records(request).find(|r| r.mark == b"LM").map(|r| list(r.body)),
        with_static: records(request).any(|r| r.mark == b"ST"),
        met: BTreeSet::new(),
        queue: VecDeque::new(),
        members: BTreeSet::new(),
        owners: BTreeMap::new(),
    };
    for root in records(request).filter(|r| r.mark == b"RT").map(|r| name(&r, Input::Request, 0)) {
        if r.met.insert(root.text) {
            r.queue.push_back(root);
        }
    }
    if r.met.insert(b"java.base") {
        r.queue.push_front(Name { text: b"java.base", input: Input::Request, start: 0 });
    }
    r.run(false)?;
    while r.bind() {
        r.run(true)?;
    }
    let members: Vec<usize> = r.members.iter().map(|n| r.all.by_name[n].position).collect();
    Ok(configuration(&members, &r.edges(request)))
}
