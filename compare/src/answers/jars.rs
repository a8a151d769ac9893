//! Jar names, manifest names and packages.
use super::{ByHand, Jar, PACKAGES};
use saqhovune::form::*;

fn jar(name: &str, jar: &str) -> Jar {
    Jar { name: name.into(), jar: jar.into(), manifest: None, packages: Vec::new(), is_short: false, by_hand: None }
}

impl Jar {
    fn manifest(mut self, name: &str) -> Self {
        self.manifest = Some(name.into());
        self
    }

    fn packages(mut self, records: &[Vec<u8>]) -> Self {
        self.packages = records.concat();
        self
    }

    fn refused(mut self, number: u8, at: usize) -> Self {
        self.by_hand = Some(ByHand { number, which: if number == 1 { PACKAGES } else { 0 }, at });
        self
    }

    fn into_40_bytes(mut self) -> Self {
        self.is_short = true;
        self
    }
}

fn names() -> Vec<Jar> {
    vec![
        jar("jar: a hyphen with a version is cut", "foot-notes-2.4.jar"),
        jar("jar: a plain name", "a.jar"),
        jar("jar: no ending", "page"),
        jar("jar: the last hyphen with a digit cuts", "a-1-2.jar"),
        jar("jar: the last hyphen with a digit cuts, letters before", "a-1b-2.jar"),
        jar("jar: a hyphen without a digit does not cut", "foot-notes.jar"),
        jar("jar: a hyphen without a digit behind the version does not cut", "a-1-b.jar"),
        jar("jar: no dot or end need follow the digits", "a-1x.jar"),
        jar("jar: a hyphen at the end", "a-.jar"),
        jar("jar: nothing before the ending", ".jar"),
        jar("jar: the empty name", ""),
        jar("jar: a separator at the end", "x/"),
        jar("jar: a folder and nothing before the ending", "x/.jar"),
        jar("jar: only a version", "-1.jar"),
        jar("jar: only dots", "...jar"),
        jar("jar: only other bytes", "--_--.jar"),
        jar("jar: what follows the last separator", "lib/plug-ins/page.core.jar"),
        jar("jar: a hyphen with a digit in a folder does not cut", "lib-1/page.jar"),
        jar("jar: a backslash is no separator", "lib\\page.jar"),
        jar("jar: one ending is dropped", "a.jar.jar"),
        jar("jar: an ending in capitals stays", "a.JAR"),
        jar("jar: an ending inside stays", "a.jarb"),
        jar("jar: runs become one dot", "a--b..c__d.jar"),
        jar("jar: dots at both ends go", "-a-.jar"),
        jar("jar: underscore and dollar become dots", "a_b$c.jar"),
        jar("jar: a digit starts the name", "1a.jar"),
        jar("jar: a digit starts a part", "a.1b.jar"),
        jar("jar: digits inside a part", "a1.b2.jar"),
        jar("jar: capitals stay", "Page.Core.jar"),
        jar("jar: letters outside ASCII become dots", "a\u{e9}b.jar"),
        jar("jar: only letters outside ASCII", "\u{5b57}.jar"),
        jar("jar: a digit outside ASCII does not cut", "a-\u{7c0}b.jar"),
        jar("jar: 255 bytes", &("a".repeat(251) + ".jar")),
        jar("jar: 255 bytes without ending", &"a".repeat(255)),
        jar("jar: 256 bytes are refused with 2", &("a".repeat(252) + ".jar")).refused(2, 0),
    ]
}

fn manifests() -> Vec<Jar> {
    vec![
        jar("manifest: it replaces the jar name", "1.jar").manifest("page.core"),
        jar("manifest: underscore and dollar may start a part", "a.jar").manifest("_a.$b1"),
        jar("manifest: one letter", ".jar").manifest("a"),
        jar("manifest: the empty name is no name", "a.jar").manifest(""),
        jar("manifest: a dot at the end", "a.jar").manifest("a."),
        jar("manifest: a dot at the start", "a.jar").manifest(".a"),
        jar("manifest: two dots", "a.jar").manifest("a..b"),
        jar("manifest: a digit starts a part", "a.jar").manifest("a.1"),
        jar("manifest: a hyphen", "a.jar").manifest("a-b"),
        jar("manifest: a space", "a.jar").manifest("a b"),
        jar("manifest: a version stays", "a.jar").manifest("a1.b2"),
        jar("manifest: a word of the language passes", "a.jar").manifest("class"),
        jar("manifest: 255 bytes", "a.jar").manifest(&"a".repeat(255)),
        jar("manifest: 256 bytes are refused with 10", "a.jar").manifest(&"a".repeat(256)).refused(10, 0),
        jar("manifest: a letter outside ASCII is refused with 10", "a.jar").manifest("\u{e9}").refused(10, 0),
        jar("manifest: a jar name of 256 bytes is refused with 2 first", &"a".repeat(256)).manifest("a").refused(2, 0),
    ]
}

fn packages() -> Vec<Jar> {
    let p = || package("p");
    vec![
        jar("packages: EX, OP and PK for each, in byte order", "a.jar").packages(&[package("q"), p(), package("Z")]),
        jar("packages: repeats are dropped", "a.jar").packages(&[p(), package("q"), p(), p()]),
        jar("packages: a prefix comes first", "a.jar").packages(&[package("p/q"), p(), package("p!")]),
        jar("packages: any name passes", "a.jar").packages(&[package("~"), package("!"), package("ALL-UNNAMED")]),
        jar("packages: with a manifest name", "1.jar").manifest("m").packages(&[p()]),
        jar("packages: anything but PK is malformed", "a.jar").packages(&[p(), exports("p", &[])]).refused(1, p().len()),
        jar("packages: an MO is malformed", "a.jar").packages(&[module("a")]).refused(1, 0),
        jar("packages: a PL is malformed", "a.jar").packages(&[p(), place()]).refused(1, p().len()),
        jar("packages: a root is malformed", "a.jar").packages(&[root("a")]).refused(1, 0),
        jar("packages: a header cut off is malformed", "a.jar").packages(&[p(), p(), b"PK\0".to_vec()]).refused(1, 12),
        jar("packages: a body past the end is malformed", "a.jar").packages(&[p(), b"PK\0\x02\x01".to_vec()]).refused(1, 6),
        jar("packages: a name of length 0 is malformed", "a.jar").packages(&[p(), record(b"PK", &[0])]).refused(1, 6),
        jar("packages: a body not used up is malformed", "a.jar").packages(&[record(b"PK", b"\x01pp")]).refused(1, 0),
        jar("packages: a space is malformed", "a.jar").packages(&[package(" ")]).refused(1, 0),
        jar("packages: 1 comes before 9", ".jar").packages(&[root("a")]).refused(1, 0),
        jar("packages: 1 comes before 10", "1.jar").packages(&[p(), root("a")]).refused(1, 6),
        jar("packages: a long jar name comes before 1", &"a".repeat(256)).packages(&[root("a")]).refused(2, 0),
        jar("packages: 65,536 bytes are refused with 2", "a.jar")
            .packages(&[p().repeat(10_922), b"PK\0\0".to_vec()])
            .refused(2, 0),
    ]
}

fn outputs() -> Vec<Jar> {
    // MO takes 4 + 3 + 1 + n + 1 bytes and RQ 4 + 2 + 1 + 9 + 1; EX and OP of a package of one byte 8 each, its PK 6.
    vec![
        jar("output: 40 bytes suffice for a name of 14", "abcdefghijklmn.jar").into_40_bytes(),
        jar("output: 41 bytes needed", "abcdefghijklmno.jar").into_40_bytes().refused(4, 41),
        jar("output: 49 bytes needed with one package", "a.jar").packages(&[package("p")]).into_40_bytes().refused(4, 49),
        jar("output: repeats do not count", "a.jar").packages(&[package("p"), package("p")]).into_40_bytes().refused(4, 49),
        jar("output: 9 comes before 4", ".jar").packages(&[package("p")]).into_40_bytes(),
        jar("output: 10 comes before 4", "1.jar").packages(&[package("p")]).into_40_bytes(),
        jar("output: 1 comes before 4", "a.jar").packages(&[package("p"), root("a")]).into_40_bytes().refused(1, 6),
        jar("output: 71 bytes needed with two packages", "a.jar")
            .packages(&[package("p"), package("q")])
            .into_40_bytes()
            .refused(4, 71),
    ]
}

pub fn jars() -> Vec<Jar> {
    [names(), manifests(), packages(), outputs()].into_iter().flatten().collect()
}
