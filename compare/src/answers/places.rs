//! Places (document 02, U2): which sets with PL are good, refusals 1 to 3 there by hand, and hidden modules, which have a
//! position and are nothing else.
use super::malformed::{cut, longer, mark, of_module, request, set};
use super::{System, system};
use crate::second::UNNAMED as UN;
use saqhovune::form::*;

const UNNAMED: &str = "ALL-UNNAMED";

fn base() -> Vec<u8> {
    module("java.base")
}

/// Modules of these numbers.
fn numbered(from: usize, to: usize) -> Vec<u8> {
    (from..to).flat_map(|i| module(&format!("m{i}"))).collect()
}

fn good() -> Vec<System> {
    vec![
        system("places: PL at the front", &[place(), base()], &[]),
        system("places: PL at the end", &[base(), place()], &[]),
        system("places: PL and nothing else has no java.base", &[place()], &[]),
        system("places: eight PL and nothing else have no java.base", &[place().repeat(8)], &[]),
        system("places: eight PL and a module pass", &[place().repeat(8), base()], &[]),
        system("places: a module and seven PL pass", &[base(), place().repeat(7)], &[]),
        system(
            "places: a module in each of eight places",
            &[base(), (1..8).flat_map(|i| [place(), numbered(i, i + 1)].concat()).collect()],
            &[root("m7"), root("m1")],
        ),
        system("places: java.base in the eighth place", &[place(), module("a"), place().repeat(7), base()], &[root("a")]),
        system("places: a name in two places passes", &[base(), module("a"), place(), module("a")], &[root("a")]),
        system(
            "places: a name in the first and the third place",
            &[base(), module("a"), place(), module("b"), place(), module("a")],
            &[root("a"), root("b")],
        ),
        system("places: a name in eight places", &[base(), [place(), base()].concat().repeat(7)], &[]).graph("java.base"),
        system("places: a main class in each place", &[base(), main_class("M"), place(), base(), main_class("N")], &[]),
        system(
            "places: 512 modules with hidden ones",
            &[base(), numbered(0, 255), place(), base(), numbered(0, 255)],
            &[root("m254")],
        ),
        system(
            "places: a module requires one in front",
            &[base(), module("b"), place(), module("a"), requires("b", 0)],
            &[root("a")],
        )
        .graph("b"),
        system(
            "places: a module requires one behind",
            &[base(), module("a"), requires("b", 0), place(), module("b")],
            &[root("a")],
        )
        .graph("b"),
    ]
}

fn malformed() -> Vec<System> {
    let body = record(b"PL", &[0]);
    let mut all = vec![
        set("places: PL with a body is malformed", 1, &[base()], &body),
        set("places: PL with a body is malformed at 0", 1, &[], &body),
        set("places: PL with a name is malformed", 1, &[base(), place()], &record(b"PL", &name("a"))),
        set("places: PL in small letters is malformed", 1, &[base()], b"pl\0\0"),
        cut("places: PL without its length is malformed", &[base()], b"PL"),
        cut("places: PL with half a length is malformed", &[base(), place()], b"PL\0"),
        cut("places: PL with a body past the end is malformed", &[base()], b"PL\0\x01"),
        cut("places: a byte behind PL is malformed", &[base(), place()], b"M"),
        set("places: a root behind PL is malformed", 1, &[base(), place()], &root("a")),
        set("places: a mark that is not known behind PL is malformed", 1, &[base(), place()], &record(b"XX", b"")),
        request("places: PL in a request is malformed", &[root("java.base")], &place()),
        set(
            "places: an empty place does not give the module before it more records",
            1,
            &[base(), place(), place()],
            &package("p"),
        ),
    ];
    for r in of_module() {
        let m = mark(&r);
        all.push(set(&format!("places: {m} behind a first PL is malformed"), 1, &[place()], &r));
        all.push(set(&format!("places: {m} behind a module and PL is malformed"), 1, &[base(), place()], &r));
        all.push(set(&format!("places: a malformed {m} of a hidden module"), 1, &[base(), place(), base()], &longer(r)));
    }
    all.extend([
        set(
            "places: a hidden module that requires ALL-UNNAMED is malformed",
            1,
            &[base(), place(), base()],
            &requires(UNNAMED, 0),
        ),
        set(
            "places: a second MC of a hidden module is malformed",
            1,
            &[base(), place(), base(), main_class("M")],
            &main_class("M"),
        ),
        set("places: a malformed MO of a name in front is malformed", 1, &[base(), place()], &longer(base())),
    ]);
    all
}

fn too_many() -> Vec<System> {
    // 512 modules; of the 513th in this place, m257 is hidden and m0 is there already
    let hidden = || [numbered(0, 258), place(), numbered(0, 254)].concat();
    vec![
        set("places: a ninth PL is refused with 2", 2, &[place().repeat(8)], &place()),
        set("places: a module and eight PL are refused with 2", 2, &[base(), place().repeat(7)], &place()),
        set("places: empty places count", 2, &[place().repeat(4), base(), place().repeat(4)], &place()),
        set("places: eight places with modules and a ninth", 2, &[[place(), base()].concat().repeat(8)], &place()),
        system("places: a ninth PL at the end", &[place().repeat(9)], &[]).refused(2, 0, 32),
        set("places: at the ninth PL 1 comes before 2", 1, &[place().repeat(8)], &record(b"PL", &[0])),
        set("places: a ninth PL comes before what is behind it", 2, &[place().repeat(8)], &[place(), package("p")].concat()),
        set("places: a fault before the ninth PL comes first", 3, &[place(), base()], &[base(), place().repeat(8)].concat()),
        system("places: a ninth PL comes before a malformed request", &[place().repeat(9)], &[b"R".to_vec()]).refused(2, 0, 32),
        set("places: a hidden module is the 513th", 2, &[hidden()], &module("m257")),
        set("places: the 513th in a place of its own", 2, &[hidden(), place()], &module("m0")),
        set("places: at the 513th MO 1 comes before 2 where it is hidden", 1, &[hidden()], &longer(module("m257"))),
        set("places: at the 513th MO 2 comes before 3 in a second place", 2, &[hidden()], &module("m0")),
        set("places: a ninth PL behind 512 modules", 2, &[hidden(), place().repeat(6)], &place()),
    ]
}

fn repeated() -> Vec<System> {
    let a = || module("a");
    vec![
        set("places: a name twice in the second place is refused with 3", 3, &[base(), place(), a()], &a()),
        set("places: a name in front and twice behind: the third", 3, &[a(), place(), a()], &a()),
        set("places: a name twice in a first place with PL", 3, &[place(), a()], &a()),
        set("places: a name twice in the first place, before PL", 3, &[a()], &[a(), place()].concat()),
        set("places: a name twice in the eighth place", 3, &[base(), place().repeat(7), a(), module("b")], &a()),
        set("places: a hidden name twice with other flags", 3, &[a(), place(), a()], &module_with("a", OPEN, true, "1")),
        set("places: java.base twice in the third place", 3, &[base(), place(), base(), place(), base(), a()], &base()),
        set("places: ALL-UNNAMED in a second place is refused with 3", 3, &[base(), place()], &module(UNNAMED)),
        set("places: at one MO 1 comes before 3 in a second place", 1, &[base(), place(), a()], &longer(a())),
        set("places: 3 comes before a PL with a body", 3, &[a(), place(), a()], &[a(), record(b"PL", &[0])].concat()),
    ]
}

/// java.base and a with these records; in a place behind it, a with those; and b, c.
fn twice(first: &[Vec<u8>], second: &[Vec<u8>]) -> Vec<u8> {
    [base(), module("a"), first.concat(), place(), module("a"), second.concat(), module("b"), module("c")].concat()
}

fn hidden() -> Vec<System> {
    vec![
        system(
            "places: the first of a name gives the requirement",
            &[twice(&[requires("b", 0)], &[requires("c", 0)])],
            &[root("a")],
        )
        .graph("a")
        .graph("b")
        .graph("c"),
        system(
            "places: the order of the places decides",
            &[place(), module("a"), requires("c", 0), module("b"), module("c"), place(), base(), module("a"), requires("b", 0)],
            &[root("a")],
        )
        .graph("c"),
        system("places: a hidden requirement brings nothing in", &[twice(&[], &[requires("b", 0)])], &[root("a")]),
        system("places: a hidden requirement makes no edge", &[twice(&[], &[requires("b", 0)])], &[root("a"), root("b")])
            .graph("b"),
        system("places: a hidden requirement of an absent module passes", &[twice(&[], &[requires("x", 0)])], &[root("a")]),
        system(
            "places: a hidden static requirement brings nothing in",
            &[twice(&[], &[requires("b", STATIC)])],
            &[root("a"), with_static()],
        ),
        system(
            "places: a hidden transitive requirement passes nothing on",
            &[twice(&[], &[requires("b", TRANSITIVE)]), module("d"), requires("a", 0)],
            &[root("d"), root("b")],
        )
        .graph("d"),
        system(
            "places: a transitive requirement in front passes on, though a hidden one is not transitive",
            &[twice(&[requires("b", TRANSITIVE)], &[requires("b", 0)]), module("d"), requires("a", 0)],
            &[root("d")],
        )
        .graph("d"),
        system("places: a hidden module that is not needed", &[twice(&[], &[package("p")])], &[]),
        system("places: a root is the first of its name", &[twice(&[package("p")], &[package("q")])], &[root("a")])
            .owner("p")
            .owner("q"),
        system("places: a hidden package is not shared", &[twice(&[], &[package("p")]), package("p")], &[root("a"), root("c")])
            .owner("p"),
        system(
            "places: the package of a hidden java.base is not shared",
            &[base(), module("a"), package("p"), place(), base(), package("p")],
            &[root("a")],
        )
        .owner("p"),
        system(
            "places: a package shared across places, by positions that count hidden modules",
            &[base(), package("p"), place(), base(), module("a"), place(), base(), module("a"), module("b"), package("p")],
            &[root("a"), root("b")],
        ),
        system(
            "places: a requirement of an absent module in a later place",
            &[twice(&[], &[requires("y", 0)]), requires("x", 0)],
            &[root("a"), root("c")],
        ),
        system(
            "places: of two requirements of an absent module the one in front is at fault",
            &[twice(&[requires("x", 0)], &[requires("x", 0)])],
            &[root("a")],
        )
        .requirement(0),
        system(
            "places: of two requirements of an absent module the hidden one is not at fault",
            &[twice(&[], &[requires("x", 0)]), requires("x", 0)],
            &[root("a"), root("c")],
        )
        .requirement(1),
        system("places: an absent root", &[twice(&[], &[])], &[root("x")]),
        system(
            "places: LM permits the first of a name",
            &[twice(&[requires("b", 0)], &[requires("c", 0)])],
            &[root("a"), limit(&["a", "c"])],
        ),
        system("places: LM leaves out a name in all places", &[twice(&[], &[])], &[root("a"), limit(&["b"])]),
        system(
            "places: an added read is of the first of a name",
            &[twice(&[], &[])],
            &[root("a"), root("b"), add_read("a", "b"), add_read("b", "a"), add_read("a", UNNAMED)],
        )
        .graph("a")
        .graph("b")
        .graph(UNNAMED),
    ]
}

fn services() -> Vec<System> {
    vec![
        system(
            "places: a provider in a later place is bound",
            &[base(), uses("s"), place(), module("p"), provides("s", &[])],
            &[],
        ),
        system(
            "places: a hidden provider is not bound",
            &[base(), uses("s"), module("p"), place(), module("p"), provides("s", &[])],
            &[],
        ),
        system(
            "places: a provider that hides one that provides nothing is bound",
            &[base(), uses("s"), module("p"), provides("s", &[]), place(), module("p")],
            &[],
        ),
        system("places: a hidden use binds nothing", &[base(), module("p"), provides("s", &[]), place(), base(), uses("s")], &[]),
        system(
            "places: the use of a module in a later place binds",
            &[base(), module("p"), provides("s", &[]), place(), module("a"), uses("s")],
            &[root("a")],
        ),
        system(
            "places: a hidden provider of a service that the first of its name provides too",
            &[
                base(),
                uses("s"),
                module("p"),
                provides("s", &[]),
                requires("q", 0),
                place(),
                module("p"),
                provides("s", &[]),
                module("q"),
            ],
            &[],
        )
        .graph("q"),
        system(
            "places: providers come in the order of the set",
            &[
                base(),
                uses("s"),
                module("q"),
                provides("s", &[]),
                requires("x", 0),
                place(),
                module("p"),
                provides("s", &[]),
                requires("y", 0),
            ],
            &[],
        ),
        system(
            "places: a hidden provider does not come first",
            &[
                base(),
                uses("s"),
                module("q"),
                place(),
                module("p"),
                provides("s", &[]),
                requires("y", 0),
                place(),
                module("q"),
                provides("s", &[]),
                requires("x", 0),
            ],
            &[],
        ),
    ]
}

/// a reads t; t with these records hides a t with those.
fn target(flags: (u16, bool), first: &[Vec<u8>], hidden_flags: (u16, bool), second: &[Vec<u8>]) -> Vec<u8> {
    let t = |(flags, automatic): (u16, bool)| module_with("t", flags, automatic, "");
    [base(), module("a"), requires("t", 0), t(flags), first.concat(), place(), t(hidden_flags), second.concat()].concat()
}

fn access() -> Vec<System> {
    let plain = (0, false);
    let of = |name: &str, set: Vec<u8>, more: &[Vec<u8>]| {
        let s = system(name, &[set], &[root("a"), more.concat()]);
        s.ask("a", "t", "p").ask(UNNAMED, "t", "p").ask("a", "t", "q").ask(UNNAMED, "t", "q").owner("p").owner("q")
    };
    let open = [package("q"), exports("q", &[]), opens("q", &[])];
    vec![
        of("places: entries of a hidden module do not count", target(plain, &[package("p")], plain, &open), &[]),
        of("places: entries of the first of a name count", target(plain, &open, plain, &[package("q")]), &[]),
        of(
            "places: a qualified entry in front, a hidden one for all",
            target(plain, &[package("q"), exports("q", &["b"]), opens("q", &["b"])], plain, &open),
            &[],
        ),
        of("places: a hidden automatic module is none", target(plain, &[package("p")], (0, true), &open), &[]),
        of("places: an automatic module hides one that is not", target((0, true), &[package("p")], plain, &open), &[]),
        of("places: a hidden open module is none", target(plain, &[package("p")], (OPEN, false), &open), &[]),
        of("places: an open module hides one that is not", target((OPEN, false), &[package("p")], plain, &open), &[]),
        of(
            "places: overrides are of the first of a name",
            target(plain, &[package("p")], plain, &open),
            &[add_export("t", "p", "a"), add_open("t", "q", UNNAMED)],
        ),
        system(
            "places: an automatic module reads all others and no hidden ones",
            &[
                base(),
                module_with("a", 0, true, ""),
                place(),
                module_with("a", 0, true, ""),
                base(),
                module("b"),
                place(),
                module("b"),
            ],
            &[root("a"), root("b")],
        )
        .graph("a")
        .graph("b")
        .graph("java.base"),
    ]
}

/// Over configurations. Positions: 0 java.base, 1 a; in the second place 2 a and 3 t; in the third 4 t, 5 b and 6 java.base.
fn over(name: &str, request: &[Vec<u8>], members: &[usize], edges: &[(usize, usize)]) -> System {
    let set = [
        base(),
        package("o"),
        module("a"),
        package("a/p"),
        place(),
        module_with("a", OPEN, true, ""),
        package("old/p"),
        exports("old/p", &[]),
        module("t"),
        package("p"),
        exports("p", &[]),
        opens("p", &["a"]),
        place(),
        module_with("t", OPEN, true, ""),
        package("q"),
        module("b"),
        package("b/p"),
        base(),
        package("o2"),
    ];
    system(name, &[set.concat()], request).over(members, edges)
}

fn configurations() -> Vec<System> {
    let all = |s: System| {
        s.ask("a", "t", "p")
            .ask("a", "t", "q")
            .ask("t", "a", "old/p")
            .ask("b", "a", "a/p")
            .ask(UNNAMED, "t", "p")
            .ask(UNNAMED, "a", "old/p")
            .owner("o2")
            .owner("q")
            .owner("old/p")
            .owner("a/p")
            .graph("java.base")
            .graph("a")
            .graph("t")
            .graph("b")
            .graph(UNNAMED)
    };
    let every: Vec<usize> = (0..512).collect();
    let edges: Vec<(usize, usize)> = (0..8).flat_map(|i| (0..512).chain([UN]).map(move |j| (i, j))).collect();
    vec![
        all(over("places: every member and every edge", &[], &every, &edges)),
        all(over("places: only hidden members, and every edge", &[], &[2, 4, 6], &edges)),
        all(over("places: every member, and edges of hidden ones", &[], &every, &[(2, 3), (2, UN), (4, 5), (6, 0), (6, UN)])),
        all(over("places: every member, and edges to hidden ones", &[], &every, &[(1, 2), (1, 4), (3, 2), (5, 6), (0, 2)])),
        all(over("places: a way over a hidden position is none", &[], &every, &[(1, 4), (4, 5), (4, UN), (3, 2), (2, 0)])),
        all(over("places: members without the hidden ones", &[], &[0, 1, 3, 5], &[(1, 3), (3, 5), (5, 1), (1, UN)])),
        all(over("places: a hidden asker does not read", &[], &[2, 3, 5], &[(2, 3), (5, 3)])),
        all(over("places: a hidden target is not resolved", &[], &[1, 2, 4, 5], &[(1, 3), (5, 1), (1, 4)])),
        all(over(
            "places: overrides where the target is hidden alone",
            &[add_export("t", "q", "a"), add_open("t", "q", UNNAMED)],
            &[1, 4],
            &[(1, 3)],
        )),
    ]
}

pub fn systems() -> Vec<System> {
    let all = [good(), malformed(), too_many(), repeated(), hidden(), services(), access(), configurations()];
    all.into_iter().flatten().collect()
}
