//! Random class files of modules, whole or damaged.
use crate::random::Random;

const UTF8: u8 = 1;
const LONG: u8 = 5;
const DOUBLE: u8 = 6;
const CLASS: u8 = 7;
const DYNAMIC: u8 = 17;
const MODULE: u8 = 19;
const PACKAGE: u8 = 20;

/// Kinds of constants and the bytes behind their tag: all but Utf8, which has a length, and Dynamic, which not every version has.
const FILLERS: [(u8, usize); 15] = [
    (3, 4),
    (4, 4),
    (LONG, 8),
    (DOUBLE, 8),
    (CLASS, 2),
    (8, 2),
    (9, 4),
    (10, 4),
    (11, 4),
    (12, 4),
    (15, 3),
    (16, 2),
    (18, 4),
    (MODULE, 2),
    (PACKAGE, 2),
];

/// The constant pool while it grows.
struct Pool {
    bytes: Vec<u8>,
    count: u16,
    faulty: bool,
}

impl Pool {
    fn push(&mut self, tag: u8, content: &[u8]) -> u16 {
        let index = self.count;
        self.bytes.push(tag);
        self.bytes.extend_from_slice(content);
        self.count += if tag == LONG || tag == DOUBLE { 2 } else { 1 };
        index
    }

    fn utf8(&mut self, text: &[u8]) -> u16 {
        self.push(UTF8, &[&u2(text.len()), text].concat())
    }

    /// A constant that nothing uses. In a faulty file it may be one that the version has not, or have any tag.
    fn filler(&mut self, r: &mut Random) {
        let (tag, length) = match r.below(40) {
            0 if self.faulty => (r.below(256) as u8, 4),
            1..8 if self.faulty => (DYNAMIC, 4),
            _ => *r.choose(&FILLERS),
        };
        self.push(tag, &r.next().to_be_bytes()[..length]);
    }

    /// The index of a used name's constant; in a faulty file it may be a wrong one, or the name may be.
    fn named(&mut self, r: &mut Random, tag: u8, names: &[&str]) -> u16 {
        if r.chance(10) {
            self.filler(r);
        }
        let long = [b'x'; 256];
        let mut text = r.pick(names).as_bytes();
        if r.below(50) == 0 {
            text = &long[..255];
        }
        if self.faulty && r.below(60) == 0 {
            let wrong: [&[u8]; 5] = [b"", b"a b", b"\x7f", b"\xc3\xa9", &long];
            text = r.pick(&wrong);
        }
        let name = self.utf8(text);
        let tag = if self.faulty && r.below(60) == 0 { *r.choose(&[CLASS, MODULE, PACKAGE]) } else { tag };
        let index = self.push(tag, &name.to_be_bytes());
        if self.faulty && r.below(100) == 0 { r.below(usize::from(self.count) + 2) as u16 } else { index }
    }

    fn version(&mut self, r: &mut Random) -> u16 {
        match r.below(100) {
            0..60 => 0,
            60 if self.faulty => self.utf8(b""),
            61 if self.faulty => 1,
            _ => self.utf8(b"1.0"),
        }
    }
}

fn u2(n: usize) -> [u8; 2] {
    (n as u16).to_be_bytes()
}

fn put(out: &mut Vec<u8>, n: u16) {
    out.extend(n.to_be_bytes());
}

/// A table: its count, then each entry.
fn table(r: &mut Random, out: &mut Vec<u8>, mean: usize, mut entry: impl FnMut(&mut Random, &mut Vec<u8>)) {
    let count = r.count(mean);
    put(out, count as u16);
    for _ in 0..count {
        entry(r, out);
    }
}

const MODULES: [&str; 6] = ["java.base", "page.core", "page.frames", "a", "b", "c"];
const PACKAGES: [&str; 5] = ["p", "page/foot", "page/frame", "q/r", "~"];
const CLASSES: [&str; 4] = ["page/Reader", "page/foot/Impl", "S", "main/Class"];

/// The targets of an export; now and then so many that the record's body is too long to be written.
fn targets(r: &mut Random, pool: &mut Pool, out: &mut Vec<u8>) {
    if r.below(400) == 0 {
        let name = pool.utf8(&[b't'; 255]);
        let target = pool.push(MODULE, &name.to_be_bytes());
        let count = 255 + r.below(2);
        put(out, count as u16);
        (0..count).for_each(|_| put(out, target));
        return;
    }
    table(r, out, 60, |r, out| {
        let names = if r.below(20) == 0 { &["ALL-UNNAMED"][..] } else { &MODULES };
        put(out, pool.named(r, MODULE, names));
    });
}

fn module(r: &mut Random, pool: &mut Pool) -> Vec<u8> {
    let mut out = Vec::new();
    put(&mut out, pool.named(r, MODULE, &MODULES));
    put(&mut out, *r.choose(&[0, 0, 0x20, 0x8000, 0x9020, 0xFFFF]));
    put(&mut out, pool.version(r));
    table(r, &mut out, 150, |r, out| {
        let names = if pool.faulty && r.below(50) == 0 { &["ALL-UNNAMED"][..] } else { &MODULES };
        put(out, pool.named(r, MODULE, names));
        put(out, *r.choose(&[0, 0, 0x20, 0x40, 0x60, 0x8000, 0xFFFF]));
        put(out, pool.version(r));
    });
    for _ in 0..2 {
        table(r, &mut out, 100, |r, out| {
            put(out, pool.named(r, PACKAGE, &PACKAGES));
            put(out, *r.choose(&[0, 0x1000, 0xFFFF]));
            targets(r, pool, out);
        });
    }
    table(r, &mut out, 70, |r, out| put(out, pool.named(r, CLASS, &CLASSES)));
    table(r, &mut out, 70, |r, out| {
        put(out, pool.named(r, CLASS, &CLASSES));
        table(r, out, 80, |r, out| put(out, pool.named(r, CLASS, &CLASSES)));
    });
    out
}

fn attribute(pool: &mut Pool, name: &str, content: &[u8]) -> Vec<u8> {
    let name = pool.utf8(name.as_bytes());
    [&name.to_be_bytes()[..], &(content.len() as u32).to_be_bytes(), content].concat()
}

/// Half of the files are whole; the others may have faults of any kind, and a part of these is cut or has bytes changed.
pub fn class_file(r: &mut Random) -> Vec<u8> {
    let faulty = r.chance(50);
    let mut pool = Pool { bytes: Vec::new(), count: 1, faulty };
    let name = pool.utf8(if faulty && r.below(50) == 0 { b"module-inf" } else { b"module-info" });
    let this = pool.push(CLASS, &name.to_be_bytes());

    let mut attributes = Vec::new();
    if !(faulty && r.below(40) == 0) {
        let content = module(r, &mut pool);
        attributes.push(attribute(&mut pool, "Module", &content));
    }
    if r.chance(70) {
        let mut content = Vec::new();
        table(r, &mut content, 150, |r, out| put(out, pool.named(r, PACKAGE, &PACKAGES)));
        attributes.push(attribute(&mut pool, "ModulePackages", &content));
    }
    if r.chance(40) {
        let class = pool.named(r, CLASS, &CLASSES);
        attributes.push(attribute(&mut pool, "ModuleMainClass", &class.to_be_bytes()));
    }
    for _ in 0..r.count(70) {
        let content = r.next().to_be_bytes();
        let name = *r.choose(&["SourceFile", "Modules", "", "x \u{e9}"]);
        attributes.push(attribute(&mut pool, name, &content[..r.below(9)]));
    }
    if faulty && r.below(20) == 0 && !attributes.is_empty() {
        attributes.push(attributes[r.below(attributes.len())].clone());
    }
    r.shuffle(&mut attributes);

    let major = if faulty { *r.choose(&[52, 53, 54, 55, 61, 61, 61, 61]) } else { *r.choose(&[53, 54, 55, 61, 0xFFFF]) };
    let mut out = vec![0xCA, 0xFE, 0xBA, 0xBE];
    put(&mut out, r.next() as u16);
    put(&mut out, major);
    put(&mut out, pool.count);
    out.extend(&pool.bytes);
    for field in [0x8000, this, 0, 0, 0, 0] {
        put(&mut out, field);
    }
    put(&mut out, attributes.len() as u16);
    out.extend(attributes.concat());
    if faulty {
        damage(r, &mut out);
    }
    out
}

fn damage(r: &mut Random, out: &mut Vec<u8>) {
    match r.below(6) {
        0 => out.truncate(r.below(out.len() + 1)),
        1 => out.extend(vec![0; r.within(1, 3)]),
        2 | 3 => {
            for _ in 0..r.within(1, 3) {
                let at = r.below(out.len());
                out[at] = *r.choose(&[0, 1, 7, 19, 20, 0xFF, out[at].wrapping_add(1), out[at].wrapping_sub(1)]);
            }
        }
        4 if r.below(20) == 0 => out.resize(65_535 + r.below(2), 0),
        _ => {}
    }
}
