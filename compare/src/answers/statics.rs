//! Static requirements, each without and with ST.
use super::{System, system};
use saqhovune::form::*;

const UNNAMED: &str = "ALL-UNNAMED";

fn base() -> Vec<u8> {
    module("java.base")
}

/// The request as it is, and with ST behind it.
fn both(name: &str, set: &[Vec<u8>], request: &[Vec<u8>]) -> [System; 2] {
    let more = [request, &[with_static()]].concat();
    [system(&format!("without ST {name}"), set, request), system(&format!("with ST {name}"), set, &more)]
}

/// java.base; a with these records; x, which exports k.
fn pair(records: &[Vec<u8>]) -> Vec<u8> {
    [base(), module("a"), records.concat(), module("x"), package("k"), exports("k", &[])].concat()
}

/// java.base; a, which uses s and has the first records; p, which provides s and has the second.
fn bound(of_a: &[Vec<u8>], of_p: &[Vec<u8>]) -> Vec<u8> {
    [base(), module("a"), uses("s"), of_a.concat(), module("p"), provides("s", &["i"]), of_p.concat()].concat()
}

fn queue() -> Vec<[System; 2]> {
    vec![
        both("a static requirement alone", &[pair(&[requires("x", STATIC)])], &[root("a")])
            .map(|s| s.graph("x").owner("k").ask("a", "x", "k").ask(UNNAMED, "x", "k")),
        both("a static requirement of a root", &[pair(&[requires("x", STATIC)])], &[root("a"), root("x")])
            .map(|s| s.graph("x").ask("a", "x", "k")),
        both("a static requirement of an earlier root", &[pair(&[requires("x", STATIC)])], &[root("x"), root("a")])
            .map(|s| s.graph("a")),
        both(
            "a static requirement in front of a non-static one",
            &[pair(&[requires("x", STATIC), requires("x", 0)])],
            &[root("a")],
        )
        .map(|s| s.graph("x")),
        both("a static requirement behind a non-static one", &[pair(&[requires("x", 0), requires("x", STATIC)])], &[root("a")])
            .map(|s| s.graph("x")),
        both(
            "a static requirement and a non-static one of another module",
            &[pair(&[requires("x", STATIC)]), module("b"), requires("x", 0)],
            &[root("a"), root("b")],
        )
        .map(|s| s.graph("x")),
        both("a static requirement that is absent", &[base(), module("a"), requires("y", STATIC)], &[root("a")]),
        both(
            "an absent static requirement in front of a non-static one",
            &[base(), module("a"), requires("y", STATIC), requires("y", 0)],
            &[root("a")],
        ),
        both(
            "an absent static requirement behind a non-static one",
            &[base(), module("a"), requires("y", 0), requires("y", STATIC)],
            &[root("a")],
        ),
        both("a static requirement that is not permitted", &[pair(&[requires("x", STATIC)])], &[root("a"), limit(&["a"])])
            .map(|s| s.ask("a", "x", "k")),
        both("a static requirement that is permitted", &[pair(&[requires("x", STATIC)])], &[root("a"), limit(&["a", "x"])]),
        both("a static requirement of java.base", &[base(), requires("a", STATIC), module("a")], &[]),
        both("java.base as a static requirement", &[pair(&[requires("java.base", STATIC)])], &[root("a")]),
        both("java.base absent, a static requirement", &[module("a"), requires("java.base", STATIC)], &[root("a")]),
        both("a static requirement of itself", &[pair(&[requires("a", STATIC)])], &[root("a")]).map(|s| s.graph("a")),
        both(
            "what a static requirement requires",
            &[base(), module("a"), requires("b", STATIC), module("b"), requires("c", 0), module("c")],
            &[root("a")],
        )
        .map(|s| s.graph("c")),
        both(
            "a static requirement of a requirement",
            &[base(), module("a"), requires("b", 0), module("b"), requires("c", STATIC), module("c")],
            &[root("a")],
        ),
        both(
            "a static requirement that requires an absent module",
            &[base(), module("a"), requires("b", STATIC), module("b"), requires("y", 0)],
            &[root("a")],
        ),
        both(
            "a static requirement with a shared package",
            &[base(), module("a"), requires("b", STATIC), package("k"), module("b"), package("k")],
            &[root("a")],
        ),
        both(
            "a static requirement in front of one with a shared package",
            &[base(), module("a"), requires("b", STATIC), requires("c", 0), module("b"), package("k"), module("c"), package("k")],
            &[root("a")],
        ),
        both(
            "a static requirement behind one with a shared package",
            &[base(), module("a"), requires("c", 0), requires("b", STATIC), module("b"), package("k"), module("c"), package("k")],
            &[root("a")],
        ),
        both(
            "a static requirement of an automatic module",
            &[base(), module_with("a", 0, true, ""), requires("x", STATIC), module("x")],
            &[root("a")],
        )
        .map(|s| s.graph("a")),
        both("AR to a static requirement", &[pair(&[requires("x", STATIC)])], &[root("a"), add_read("a", "x")])
            .map(|s| s.graph("x")),
        both(
            "a static requirement in front of a hidden non-static one",
            &[module("a"), requires("x", STATIC), place(), base(), module("a"), requires("x", 0), module("x")],
            &[root("a")],
        ),
        both(
            "a non-static requirement in front of a hidden static one",
            &[module("a"), requires("x", 0), place(), base(), module("a"), requires("x", STATIC), module("x")],
            &[root("a")],
        ),
    ]
}

fn reads() -> Vec<[System; 2]> {
    // d requires a, which requires x with these flags
    let passing = |flags: u16| [pair(&[requires("x", flags)]), module("d"), requires("a", 0)].concat();
    vec![
        both("a static transitive requirement passes on", &[passing(STATIC | TRANSITIVE)], &[root("d"), root("x")])
            .map(|s| s.graph("d").graph("x").ask("d", "x", "k")),
        both("a static transitive requirement alone", &[passing(STATIC | TRANSITIVE)], &[root("d")])
            .map(|s| s.graph("d").ask("d", "x", "k")),
        both("a static requirement does not pass on", &[passing(STATIC)], &[root("d"), root("x")]).map(|s| s.ask("d", "x", "k")),
        both(
            "a static requirement leads on to a transitive one",
            &[base(), module("a"), requires("b", STATIC), module("b"), requires("c", TRANSITIVE), module("c")],
            &[root("a"), root("b")],
        )
        .map(|s| s.graph("c")),
        both(
            "a static transitive chain",
            &[
                base(),
                module("a"),
                requires("b", 0),
                module("b"),
                requires("c", STATIC | TRANSITIVE),
                module("c"),
                requires("d", STATIC | TRANSITIVE),
                module("d"),
            ],
            &[root("a"), root("d")],
        )
        .map(|s| s.graph("a").graph("d")),
        both(
            "a cycle of static transitive requirements",
            &[base(), module("a"), requires("b", STATIC | TRANSITIVE), module("b"), requires("a", STATIC | TRANSITIVE)],
            &[root("a")],
        )
        .map(|s| s.graph("a")),
        both(
            "a cycle of static transitive requirements between roots",
            &[base(), module("a"), requires("b", STATIC | TRANSITIVE), module("b"), requires("a", STATIC | TRANSITIVE)],
            &[root("a"), root("b")],
        )
        .map(|s| s.graph("a")),
        both(
            "a static transitive requirement of java.base",
            &[base(), requires("x", STATIC | TRANSITIVE), module("x"), module("a")],
            &[root("a"), root("x")],
        )
        .map(|s| s.graph("x")),
    ]
}

fn rounds() -> Vec<[System; 2]> {
    vec![
        both("a provider that is a static requirement", &[bound(&[requires("p", STATIC)], &[])], &[root("a")])
            .map(|s| s.graph("p")),
        both(
            "a provider that is a static requirement and not permitted",
            &[bound(&[requires("p", STATIC)], &[])],
            &[root("a"), limit(&["a"])],
        ),
        both(
            "a provider that is a static requirement of java.base",
            &[base(), uses("s"), requires("p", STATIC), module("p"), provides("s", &[])],
            &[],
        ),
        both(
            "a provider that is a static requirement of a provider",
            &[bound(&[], &[requires("q", STATIC), uses("t"), module("q"), provides("t", &[])])],
            &[root("a")],
        )
        .map(|s| s.graph("q")),
        both(
            "a provider that is a static requirement of another of its round",
            &[bound(&[], &[requires("q", STATIC), module("q"), provides("s", &[])])],
            &[root("a")],
        )
        .map(|s| s.graph("q")),
        both("in a round a static requirement", &[bound(&[], &[requires("q", STATIC), module("q")])], &[root("a")])
            .map(|s| s.graph("q")),
        both(
            "in a round a static requirement in front of a non-static one",
            &[bound(&[], &[requires("q", STATIC), requires("q", 0), module("q")])],
            &[root("a")],
        ),
        both(
            "in a round a static requirement in front of one with a shared package",
            &[bound(&[], &[requires("q", STATIC), requires("r", 0), module("q"), package("k"), module("r"), package("k")])],
            &[root("a")],
        ),
        both(
            "in a round a static requirement behind one with a shared package",
            &[bound(&[], &[requires("r", 0), requires("q", STATIC), module("q"), package("k"), module("r"), package("k")])],
            &[root("a")],
        ),
        both(
            "in a round a static requirement that requires an absent module",
            &[bound(&[], &[requires("q", STATIC), module("q"), requires("y", 0)])],
            &[root("a"), limit(&["a", "p", "q"])],
        ),
        both(
            "in a round a static transitive requirement of a member passes on",
            &[bound(&[], &[requires("a", STATIC | TRANSITIVE), module("d"), provides("s", &[]), requires("p", 0)])],
            &[root("a")],
        )
        .map(|s| s.graph("d")),
        both(
            "in a round a static requirement that is not permitted",
            &[bound(&[], &[requires("q", STATIC), module("q")])],
            &[root("a"), limit(&["a", "p"])],
        ),
        both("in a round a static requirement that is absent", &[bound(&[], &[requires("y", STATIC)])], &[root("a")]),
        both(
            "in a round a static requirement that is absent and not permitted",
            &[bound(&[], &[requires("y", STATIC)])],
            &[root("a"), limit(&["a", "p"])],
        ),
        both(
            "in a round an absent static requirement in front of a non-static one",
            &[bound(&[], &[requires("y", STATIC), requires("y", 0)])],
            &[root("a"), limit(&["a", "p"])],
        ),
        both(
            "an absent static requirement lets nothing pass in a round",
            &[bound(&[requires("y", STATIC)], &[requires("y", 0)])],
            &[root("a"), limit(&["a", "p"])],
        ),
        both(
            "an absent requirement, static and non-static, passes in a round",
            &[bound(&[requires("y", STATIC), requires("y", 0)], &[requires("y", 0)])],
            &[root("a"), limit(&["a", "p"])],
        ),
        both(
            "an absent root that is a static requirement passes in a round",
            &[bound(&[requires("y", STATIC)], &[requires("y", 0)])],
            &[root("y"), root("a"), limit(&["a", "p"])],
        ),
        both(
            "what a static requirement requires lets pass in a round",
            &[bound(&[requires("b", STATIC)], &[requires("y", 0), module("b"), requires("y", 0)])],
            &[root("a"), limit(&["a", "b", "p"])],
        )
        .map(|s| s.requirement(0)),
        both(
            "what a provider requires that is a static requirement",
            &[bound(&[requires("p", STATIC)], &[requires("y", 0)])],
            &[root("a"), limit(&["a", "p"])],
        ),
    ]
}

/// Where ST stands in a request.
fn standing() -> Vec<System> {
    let set = || pair(&[requires("x", STATIC)]);
    vec![
        system("ST at the front", &[set()], &[with_static(), root("a"), limit(&["a", "x"])]),
        system("ST in the middle", &[set()], &[root("a"), with_static(), limit(&["a", "x"])]),
        system("ST at the end", &[set()], &[root("a"), limit(&["a", "x"]), with_static()]),
        system("ST alone", &[base(), requires("a", STATIC), module("a")], &[with_static()]),
        system("ST between overrides", &[set()], &[add_export("x", "j", "a"), with_static(), root("a"), add_open("x", "j", "a")])
            .ask("a", "x", "j"),
        system("a name ST is no record", &[set(), module("ST")], &[root("ST"), root("a")]),
    ]
}

pub fn systems() -> Vec<System> {
    let pairs = [queue(), reads(), rounds()].into_iter().flatten();
    pairs.flatten().chain(standing()).collect()
}
