//! Class files of near 65,535 bytes that take long to read.
use crate::inputs::LIMIT;
use crate::slow::{fill, name};

const CLASS: u8 = 7;
const MODULE: u8 = 19;
const PACKAGE: u8 = 20;

/// The constant pool while it grows; 1 to 7 are module-info, its class, the names of the attributes, and the module `m`.
struct Pool {
    bytes: Vec<u8>,
    count: u16,
}

const NAMES: [&str; 3] = ["Module", "ModulePackages", "ModuleMainClass"];
const MODULE_NAME: u16 = 7;

impl Pool {
    fn new() -> Self {
        let mut pool = Pool { bytes: Vec::new(), count: 1 };
        pool.named(CLASS, "module-info");
        NAMES.iter().for_each(|n| {
            pool.utf8(n);
        });
        pool.named(MODULE, "m");
        assert_eq!(pool.count, MODULE_NAME + 1);
        pool
    }

    fn push(&mut self, tag: u8, content: &[u8]) -> u16 {
        self.bytes.push(tag);
        self.bytes.extend_from_slice(content);
        self.count += 1;
        self.count - 1
    }

    fn utf8(&mut self, text: &str) -> u16 {
        self.push(1, &[&(text.len() as u16).to_be_bytes(), text.as_bytes()].concat())
    }

    fn named(&mut self, tag: u8, text: &str) -> u16 {
        let index = self.utf8(text);
        self.push(tag, &index.to_be_bytes())
    }
}

fn numbers(of: &[u16]) -> Vec<u8> {
    of.iter().flat_map(|n| n.to_be_bytes()).collect()
}

/// The contents of a Module attribute: the tables of requires, exports, opens, uses and provides, each with its count.
fn module(tables: [(usize, Vec<u8>); 5]) -> Vec<u8> {
    tables.into_iter().fold(numbers(&[MODULE_NAME, 0, 0]), |out, (n, entries)| [out, numbers(&[n as u16]), entries].concat())
}

fn none() -> (usize, Vec<u8>) {
    (0, Vec::new())
}

/// The file with the Module attribute, and a ModulePackages one of these indices where there are any; then so many empty ones.
fn file(pool: Pool, module: Vec<u8>, packages: &[u16], empty: &[u16]) -> Vec<u8> {
    let attribute =
        |name: u16, content: &[u8]| [&name.to_be_bytes()[..], &(content.len() as u32).to_be_bytes(), content].concat();
    let mut attributes = vec![attribute(3, &module)];
    if !packages.is_empty() {
        attributes.push(attribute(4, &[numbers(&[packages.len() as u16]), numbers(packages)].concat()));
    }
    attributes.extend(empty.iter().map(|n| attribute(*n, &[])));
    let front = [numbers(&[0xCAFE, 0xBABE, 0, 61, pool.count]), pool.bytes].concat();
    [front, numbers(&[0x8000, 2, 0, 0, 0, 0, attributes.len() as u16]), attributes.concat()].concat()
}

/// How many entries of `width` bytes have room beside the pool, the frame and the head of an attribute.
fn room(pool: &Pool, width: usize) -> usize {
    (LIMIT - 10 - pool.bytes.len() - 14 - 6 - 16 - 8 - 16) / width
}

/// One table with as many entries as have room, all alike.
fn full(pool: Pool, table: usize, entry: &[u16]) -> Vec<u8> {
    let n = room(&pool, 2 * entry.len());
    let mut tables = [none(), none(), none(), none(), none()];
    tables[table] = (n, numbers(entry).repeat(n));
    file(pool, module(tables), &[], &[])
}

/// An entry of exports or provides with this many targets of this index.
fn listed(front: &[u16], target: u16, count: usize) -> Vec<u16> {
    [front, &[count as u16], &vec![target; count]].concat()
}

pub fn files() -> Vec<(&'static str, Vec<u8>)> {
    let long = "n".repeat(255);
    let mut all = Vec::new();

    let mut pool = Pool::new();
    let (package, target) = (pool.named(PACKAGE, "p"), pool.named(MODULE, &long));
    let n = room(&pool, 2) - 3;
    let tables = [none(), (1, numbers(&listed(&[package, 0], target, n))), none(), none(), none()];
    all.push(("an export to 32,000 targets, all one module of 255 bytes", file(pool, module(tables), &[], &[])));

    for (input, table) in [("125 exports to 255 targets each, all one module of 255 bytes", 1), ("125 opens, the same", 2)] {
        let mut pool = Pool::new();
        let (package, target) = (pool.named(PACKAGE, "p"), pool.named(MODULE, &long));
        all.push((input, full(pool, table, &listed(&[package, 0], target, 255))));
    }
    let mut pool = Pool::new();
    let class = pool.named(CLASS, &long);
    all.push(("125 provides with 254 classes each, all one of 255 bytes", full(pool, 4, &listed(&[class], class, 254))));
    let mut pool = Pool::new();
    let class = pool.named(CLASS, &long);
    all.push(("32,000 uses of one class of 255 bytes", full(pool, 3, &[class])));
    let mut pool = Pool::new();
    let (class, version) = (pool.named(MODULE, &long), pool.utf8(&long));
    all.push(("10,800 requires of one module, name and version of 255 bytes", full(pool, 0, &[class, 0, version])));
    let mut pool = Pool::new();
    let package = pool.named(PACKAGE, &long);
    all.push(("10,800 exports of one package of 255 bytes", full(pool, 1, &[package, 0, 0])));

    let empty = || module([none(), none(), none(), none(), none()]);
    let packages = |input, texts: Vec<String>, repeat: bool| {
        let mut pool = Pool::new();
        let mut indices: Vec<u16> = texts.iter().map(|t| pool.named(PACKAGE, t)).collect();
        if repeat {
            indices = indices.into_iter().cycle().take(room(&pool, 2)).collect();
        }
        (input, file(pool, empty(), &indices, &[]))
    };
    // a package of 2 bytes takes 5 bytes of text, 3 of the constant and an index of 2
    all.push(packages("6,500 packages in reverse order", (0..6530).map(|i| name(2, 8835 - i)).collect(), false));
    all.push(packages("6,500 packages in order", (0..6530).map(|i| name(2, i)).collect(), false));
    let common = |n: usize| (0..n).map(|i| "n".repeat(253) + &name(2, 500 - i)).collect::<Vec<_>>();
    all.push(packages("250 packages of 255 bytes with a common prefix, in reverse order", common(248), false));
    all.push(packages("32,000 times one package of 255 bytes", common(1), true));
    all.push(packages("16,000 times 128 packages of 255 bytes with a common prefix", common(128), true));
    all.push(packages("24,000 times 64 packages of 255 bytes with a common prefix", common(64), true));
    all.push(packages("28,000 times 32 packages of 255 bytes with a common prefix", common(32), true));

    let mut pool = Pool::new();
    for _ in 0..room(&pool, 3) {
        pool.push(CLASS, &[0, 1]);
    }
    all.push(("21,800 tiny constants", file(pool, empty(), &[], &[])));
    let mut pool = Pool::new();
    let other = pool.utf8("ModuleMainClasz");
    let count = room(&pool, 6);
    all.push(("10,800 other attributes", file(pool, empty(), &[], &vec![other; count])));
    let other = Pool::new();
    let cut = fill(other.bytes, 65_000, |_| vec![8, 0, 1]);
    let count = (8 + (cut.len() - Pool::new().bytes.len()) / 3) as u16;
    all.push(("21,600 tiny constants and the file cut off", [numbers(&[0xCAFE, 0xBABE, 0, 61, count]), cut].concat()));
    all
}
