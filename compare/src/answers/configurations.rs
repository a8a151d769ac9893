//! Entries over configurations that were not resolved. Positions: 0 java.base, 1 a, 2 b, 3 t (open p by entry), 4 auto, 5 open.
use super::{System, system};
use crate::second::UNNAMED as UN;
use saqhovune::form::*;

const UNNAMED: &str = "ALL-UNNAMED";

fn set() -> Vec<u8> {
    [
        module("java.base"),
        package("o"),
        exports("o", &[]),
        opens("o", &["a"]),
        module("a"),
        package("a/p"),
        module("b"),
        package("b/p"),
        module("t"),
        package("p"),
        exports("p", &[]),
        opens("p", &["a"]),
        module_with("auto", 0, true, ""),
        package("p"),
        package("auto/p"),
        module_with("open", OPEN, false, ""),
        package("open/p"),
    ]
    .concat()
}

fn over(name: &str, request: &[Vec<u8>], members: &[usize], edges: &[(usize, usize)]) -> System {
    system(name, &[set()], request).over(members, edges)
}

pub fn systems() -> Vec<System> {
    let high: Vec<usize> = (6..512).collect();
    vec![
        over("configuration: nothing at all", &[], &[], &[])
            .ask("a", "t", "p")
            .ask("a", "java.base", "o")
            .ask("a", "a", "p")
            .ask(UNNAMED, "t", "p")
            .owner("p")
            .graph("a")
            .graph("java.base"),
        over("configuration: an edge between members counts", &[], &[1, 3], &[(1, 3)])
            .ask("a", "t", "p")
            .ask("t", "a", "p")
            .owner("p")
            .graph("t")
            .graph("a"),
        over("configuration: an edge from one that is no member does not count", &[], &[3], &[(1, 3)])
            .ask("a", "t", "p")
            .graph("t")
            .graph("a"),
        over("configuration: an edge to one that is no member makes readable, then denied", &[], &[1], &[(1, 3)])
            .ask("a", "t", "p")
            .graph("t")
            .graph("a"),
        over(
            "configuration: an override allows at a target that is no member",
            &[add_export("t", "p", "a"), add_open("t", "p", "a")],
            &[1],
            &[(1, 3)],
        )
        .ask("a", "t", "p")
        .ask("b", "t", "p"),
        over(
            "configuration: no override helps ALL-UNNAMED at one that is no member",
            &[add_export("t", "p", UNNAMED)],
            &[1],
            &[(1, 3)],
        )
        .ask(UNNAMED, "t", "p"),
        over("configuration: java.base is no member: readable and denied", &[], &[1], &[(1, 0)]).ask("a", "java.base", "o").ask(
            UNNAMED,
            "java.base",
            "o",
        ),
        over("configuration: java.base is no member: an override allows", &[add_export("java.base", "o", "a")], &[1], &[])
            .ask("a", "java.base", "o")
            .ask("b", "java.base", "o"),
        over("configuration: java.base a member without edges", &[], &[0], &[])
            .ask("a", "java.base", "o")
            .ask("b", "java.base", "o")
            .owner("o"),
        over("configuration: ALL-UNNAMED read by a member", &[add_export(UNNAMED, "w", "a")], &[1], &[(1, UN)])
            .ask("a", UNNAMED, "w")
            .ask("a", UNNAMED, "v")
            .graph(UNNAMED)
            .graph("a"),
        over("configuration: ALL-UNNAMED read by one that is no member", &[add_export(UNNAMED, "w", "a")], &[2], &[(1, UN)])
            .ask("a", UNNAMED, "w")
            .graph(UNNAMED)
            .graph("a"),
        over("configuration: bits of members past the modules are ignored", &[], &[&[1, 3][..], &high].concat(), &[(1, 3)])
            .ask("a", "t", "p")
            .owner("p")
            .graph("t"),
        over(
            "configuration: edges to positions past the modules are ignored",
            &[],
            &[&[1, 3][..], &high].concat(),
            &[(1, 200), (1, 255), (200, 3), (3, 6), (255, 1), (255, UN)],
        )
        .ask("a", "t", "p")
        .graph("a")
        .graph("t")
        .graph(UNNAMED),
        over(
            "configuration: a way over positions past the modules is none",
            &[],
            &[&[1, 3][..], &high].concat(),
            &[(1, 7), (7, 3)],
        )
        .graph("a")
        .graph("t"),
        over("configuration: a way over one that is no member is none", &[], &[1, 3], &[(1, 2), (2, 3)])
            .graph("a")
            .graph("t")
            .graph("b"),
        over("configuration: a way over a member", &[], &[1, 2, 3], &[(1, 2), (2, 3), (3, UN)]).graph("a").graph("b").graph("t"),
        over("configuration: a cycle reaches itself", &[], &[1, 2], &[(1, 2), (2, 1)]).graph("a").graph("b"),
        over("configuration: an edge to itself", &[], &[1], &[(1, 1)]).graph("a").ask("a", "a", "p"),
        over("configuration: no edge reaches nothing, not even itself", &[], &[1], &[]).graph("a"),
        over("configuration: one edge too few for a cycle", &[], &[1, 2, 3], &[(1, 2), (2, 3), (3, 2)]).graph("a").graph("t"),
        over("configuration: a long way back", &[], &[0, 1, 2, 3, 4, 5], &[(5, 4), (4, 3), (3, 2), (2, 1), (1, 0), (0, UN)])
            .graph("open")
            .graph("java.base")
            .graph(UNNAMED),
        over("configuration: names that nobody knows have no readers", &[], &[1, 3], &[(1, 3), (1, UN)])
            .graph("x")
            .graph("")
            .graph("ALL-UNNAME"),
        over("configuration: an automatic member", &[], &[1, 4], &[(1, 4)])
            .ask("a", "auto", "auto/p")
            .ask("a", "auto", "p")
            .ask("a", "auto", "none")
            .ask("b", "auto", "p")
            .ask(UNNAMED, "auto", "p")
            .ask("auto", "a", "a/p")
            .owner("p")
            .owner("auto/p"),
        over("configuration: an automatic module that is no member", &[], &[1], &[(1, 4)])
            .ask("a", "auto", "p")
            .ask(UNNAMED, "auto", "p")
            .owner("auto/p"),
        over(
            "configuration: no override helps ALL-UNNAMED at an automatic member",
            &[add_export("auto", "w", UNNAMED), add_open("auto", "w", UNNAMED), add_export("auto", "w", "a")],
            &[1, 4],
            &[(1, 4)],
        )
        .ask(UNNAMED, "auto", "w")
        .ask("a", "auto", "w"),
        over("configuration: an open member", &[], &[1, 5], &[(1, 5)])
            .ask("a", "open", "open/p")
            .ask("a", "open", "none")
            .ask(UNNAMED, "open", "open/p")
            .ask("b", "open", "open/p")
            .owner("open/p"),
        over("configuration: an open module that is no member", &[], &[1], &[(1, 5)])
            .ask("a", "open", "open/p")
            .ask(UNNAMED, "open", "open/p")
            .owner("open/p"),
        over("configuration: owners are members", &[], &[0, 2, 4], &[])
            .owner("o")
            .owner("a/p")
            .owner("b/p")
            .owner("p")
            .owner("auto/p")
            .owner("none")
            .owner(""),
        over(
            "configuration: added reads of the request do not count",
            &[add_read("a", "t"), add_read("a", UNNAMED)],
            &[1, 3],
            &[],
        )
        .ask("a", "t", "p")
        .ask("a", UNNAMED, "p")
        .graph("t"),
        over("configuration: roots and permitted names do not matter", &[root("b"), limit(&["b"])], &[1, 3], &[(1, 3)])
            .ask("a", "t", "p")
            .ask("b", "t", "p"),
        over("configuration: an absent root refuses no question", &[root("x")], &[1, 3], &[(1, 3)])
            .ask("a", "t", "p")
            .ask("x", "t", "p"),
        system("configuration: a set without java.base", &[module("a"), module("t"), exports("p", &[])], &[])
            .over(&[0, 1], &[(0, 1)])
            .ask("a", "t", "p")
            .ask("a", "java.base", "p"),
        system("configuration: the empty set", &[], &[add_export("java.base", "p", "a"), add_export("t", "p", "a")])
            .over(&[0, 1], &[(0, 1), (0, UN)])
            .ask("a", "java.base", "p")
            .ask("a", "t", "p")
            .ask(UNNAMED, "java.base", "p")
            .owner("p")
            .graph(UNNAMED)
            .graph("a"),
        system("configuration: an asker with every edge", &[set()], &[])
            .over(&[0, 1, 2, 3, 4, 5], &(0..512).chain([UN]).map(|j| (1, j)).collect::<Vec<_>>())
            .ask("a", "t", "p")
            .ask("a", "open", "open/p")
            .ask("a", UNNAMED, "p")
            .graph("a")
            .graph("b"),
    ]
}
