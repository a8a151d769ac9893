//! Read edges: own requirements, transitive reach, added edges, automatic modules.
use super::{System, system};
use saqhovune::form::*;

const UNNAMED: &str = "ALL-UNNAMED";

fn base() -> Vec<u8> {
    module("java.base")
}

fn reach() -> Vec<System> {
    let chain = |first: u16, second: u16| {
        [
            base(),
            module("a"),
            requires("b", first),
            module("b"),
            requires("c", second),
            module("c"),
            package("k"),
            exports("k", &[]),
        ]
        .concat()
    };
    vec![
        system("a plain requirement of a requirement is not read", &[chain(0, 0)], &[root("a")]).ask("a", "c", "k").graph("a"),
        system("a transitive requirement of a requirement is read", &[chain(0, TRANSITIVE)], &[root("a")])
            .ask("a", "c", "k")
            .graph("c"),
        system("one's own transitive requirement gives nothing more", &[chain(TRANSITIVE, 0)], &[root("a")]).ask("a", "c", "k"),
        system("both transitive", &[chain(TRANSITIVE, TRANSITIVE)], &[root("a")]).ask("a", "c", "k").graph("b"),
        system("a static transitive requirement counts", &[chain(0, TRANSITIVE | STATIC)], &[root("a"), with_static()])
            .ask("a", "c", "k"),
        system("a static requirement is read where resolved", &[chain(STATIC, STATIC)], &[root("a"), with_static()])
            .ask("b", "c", "k"),
        system(
            "a transitive requirement that is not resolved is not read",
            &[chain(0, TRANSITIVE)],
            &[root("a"), limit(&["a", "b"])],
        )
        .ask("a", "c", "k")
        .graph("c"),
        system("reach goes through resolved modules alone", &[chain(0, TRANSITIVE)], &[root("a"), root("c"), limit(&["a", "c"])])
            .ask("a", "c", "k"),
        system(
            "a chain of transitive requirements is read whole",
            &[
                base(),
                module("a"),
                requires("m0", 0),
                (0..20).fold(Vec::new(), |s, i| {
                    [s, module(&format!("m{i}")), requires(&format!("m{}", i + 1), TRANSITIVE)].concat()
                }),
                module("m20"),
            ],
            &[root("a")],
        )
        .graph("m20"),
        system(
            "a plain requirement ends the chain",
            &[
                base(),
                module("a"),
                requires("b", 0),
                module("b"),
                requires("c", TRANSITIVE),
                module("c"),
                requires("d", 0),
                module("d"),
                requires("e", TRANSITIVE),
                module("e"),
            ],
            &[root("a")],
        )
        .graph("e")
        .graph("a"),
        system(
            "two ways to the same module",
            &[
                base(),
                module("a"),
                requires("b", 0),
                requires("c", 0),
                module("b"),
                requires("d", TRANSITIVE),
                module("c"),
                requires("d", TRANSITIVE),
                module("d"),
            ],
            &[root("a")],
        )
        .graph("d"),
        system(
            "a requirement both plain and transitive",
            &[base(), module("a"), requires("b", 0), module("b"), requires("c", 0), requires("c", TRANSITIVE), module("c")],
            &[root("a")],
        ),
        system(
            "java.base's transitive requirement is read by all",
            &[base(), requires("x", TRANSITIVE), module("x"), module("a")],
            &[root("a")],
        )
        .graph("x"),
        system(
            "java.base's plain requirement is read by it alone",
            &[base(), requires("x", 0), module("x"), module("a")],
            &[root("a")],
        )
        .graph("x"),
        system("java.base reads nothing by itself", &[base(), module("a")], &[root("a")]).graph("java.base"),
        system("a module requires java.base itself", &[base(), module("a"), requires("java.base", TRANSITIVE)], &[root("a")]),
        system(
            "a module that requires java.base transitively through java.base",
            &[base(), requires("a", TRANSITIVE), module("a"), requires("java.base", TRANSITIVE)],
            &[],
        )
        .graph("java.base"),
    ]
}

fn cycles() -> Vec<System> {
    vec![
        system(
            "a cycle of three transitive requirements: all read all",
            &[
                base(),
                module("a"),
                requires("b", TRANSITIVE),
                module("b"),
                requires("c", TRANSITIVE),
                module("c"),
                requires("a", TRANSITIVE),
            ],
            &[root("b")],
        )
        .graph("a"),
        system(
            "a cycle with one plain requirement",
            &[base(), module("a"), requires("b", TRANSITIVE), module("b"), requires("a", 0)],
            &[root("a")],
        )
        .graph("a")
        .graph("b"),
        system(
            "a cycle of plain requirements reads no self",
            &[base(), module("a"), requires("b", 0), module("b"), requires("a", 0)],
            &[root("a")],
        )
        .graph("a"),
        system("a transitive requirement of oneself", &[base(), module("a"), requires("a", TRANSITIVE)], &[root("a")]).graph("a"),
        system(
            "one who requires a cycle reads all of it",
            &[
                base(),
                module("d"),
                requires("a", 0),
                module("a"),
                requires("b", TRANSITIVE),
                module("b"),
                requires("a", TRANSITIVE),
            ],
            &[root("d")],
        )
        .graph("d"),
        system(
            "a cycle cut by LM",
            &[base(), module("a"), requires("b", TRANSITIVE), module("b"), requires("a", TRANSITIVE)],
            &[root("a"), limit(&["a"])],
        ),
    ]
}

fn added() -> Vec<System> {
    let three = || [base(), module("a"), module("b"), requires("c", TRANSITIVE), module("c")].concat();
    let all = || [root("a"), root("b")].concat();
    vec![
        system("AR adds an edge", &[three()], &[all(), add_read("a", "b")]).graph("a").graph("b"),
        system("AR implies nothing more", &[three()], &[all(), add_read("a", "b")]).ask("a", "c", "p").ask("a", "b", "p"),
        system("AR twice", &[three()], &[all(), add_read("a", "b"), add_read("a", "b")]),
        system("AR of two targets", &[three()], &[all(), add_read("a", "b"), add_read("a", "c")]),
        system("AR of an unresolved target goes", &[three()], &[root("a"), add_read("a", "b")]).ask("a", "b", "p"),
        system("AR of an absent target goes", &[three()], &[all(), add_read("a", "x")]).ask("a", "x", "p").graph("x"),
        system("AR of an absent source does nothing", &[three()], &[all(), add_read("x", "a")]).ask("x", "a", "p"),
        system("AR of an unresolved source does nothing", &[three()], &[root("a"), add_read("b", "a")]).ask("b", "a", "p"),
        system("AR of the source ALL-UNNAMED does nothing", &[three()], &[all(), add_read(UNNAMED, "a")]).graph(UNNAMED),
        system("AR to ALL-UNNAMED stays", &[three()], &[all(), add_read("a", UNNAMED)])
            .graph(UNNAMED)
            .graph("a")
            .ask("a", UNNAMED, "p"),
        system("AR to ALL-UNNAMED is not implied for others", &[three()], &[all(), add_read("c", UNNAMED)])
            .graph("b")
            .graph("a")
            .ask("b", UNNAMED, "p"),
        system("AR to ALL-UNNAMED of an unresolved source", &[three()], &[root("a"), add_read("b", UNNAMED)]).graph(UNNAMED),
        system("AR of a module to itself", &[three()], &[all(), add_read("a", "a")]).graph("a"),
        system("AR of java.base", &[three()], &[all(), add_read("java.base", "a")]).graph("java.base").ask("java.base", "a", "p"),
        system("AR does not start modules", &[three()], &[add_read("java.base", "a")]),
        system("AR back makes a cycle of reads only", &[three()], &[all(), add_read("c", "b")]).graph("b").graph("c"),
    ]
}

fn automatic() -> Vec<System> {
    let auto = |n: &str| module_with(n, 0, true, "");
    vec![
        system("an automatic module reads all others", &[base(), auto("a"), module("b")], &[root("a"), root("b")]).graph("a"),
        system("an automatic module reads only resolved ones", &[base(), auto("a"), module("b")], &[root("a")]),
        system("an automatic module does not read itself", &[base(), auto("a"), auto("b")], &[root("a"), root("b")]).graph("a"),
        system("an automatic module that requires itself reads itself", &[base(), auto("a"), requires("a", 0)], &[root("a")]),
        system("an automatic module does not read ALL-UNNAMED by itself", &[base(), auto("a")], &[root("a")])
            .graph(UNNAMED)
            .ask("a", UNNAMED, "p"),
        system("an automatic module with AR to ALL-UNNAMED", &[base(), auto("a")], &[root("a"), add_read("a", UNNAMED)])
            .graph("a"),
        system(
            "reading one automatic module implies no others",
            &[base(), module("m"), requires("a", 0), auto("a"), auto("b")],
            &[root("m"), root("b")],
        )
        .graph("m"),
        system(
            "a transitive requirement of an automatic module is implied",
            &[base(), module("m"), requires("a", 0), auto("a"), requires("b", TRANSITIVE), module("b")],
            &[root("m")],
        ),
        system("java.base may be automatic", &[auto("java.base"), module("b")], &[root("b")]).graph("java.base"),
        system(
            "an automatic module reads one that is bound",
            &[base(), auto("a"), uses("s"), module("p"), provides("s", &[])],
            &[root("a")],
        ),
    ]
}

pub fn systems() -> Vec<System> {
    [reach(), cycles(), added(), automatic()].into_iter().flatten().collect()
}
