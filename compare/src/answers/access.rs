//! Access and reflection over resolved configurations.
use super::{System, system};
use saqhovune::form::*;

const UNNAMED: &str = "ALL-UNNAMED";

fn base() -> Vec<u8> {
    module("java.base")
}

/// java.base, a that requires t, b that requires t, n that does not, and t with these records.
fn target(flags: u16, automatic: bool, records: &[Vec<u8>]) -> Vec<u8> {
    let others = [base(), module("a"), requires("t", 0), module("b"), requires("t", 0), module("n")].concat();
    [others, module_with("t", flags, automatic, ""), records.concat()].concat()
}

fn roots() -> Vec<u8> {
    [root("a"), root("b"), root("n")].concat()
}

/// All askers about the package p of t.
fn all(s: System) -> System {
    s.ask("a", "t", "p").ask("b", "t", "p").ask("n", "t", "p").ask(UNNAMED, "t", "p").ask("x", "t", "p")
}

fn plain(name: &str, records: &[Vec<u8>], request: &[Vec<u8>]) -> System {
    all(system(name, &[target(0, false, records)], &[roots(), request.concat()]))
}

fn open(name: &str, records: &[Vec<u8>], request: &[Vec<u8>]) -> System {
    all(system(name, &[target(OPEN, false, records)], &[roots(), request.concat()]))
}

fn automatic(name: &str, flags: u16, records: &[Vec<u8>], request: &[Vec<u8>]) -> System {
    all(system(name, &[target(flags, true, records)], &[roots(), request.concat()]))
}

fn equal() -> Vec<System> {
    let long = [b'a'; 300];
    vec![
        system("asker equal to target", &[base(), module("a"), package("p")], &[root("a")])
            .ask("a", "a", "p")
            .ask("a", "a", "none")
            .ask("java.base", "java.base", "p"),
        system("asker equal to target, not resolved", &[base(), module("a")], &[]).ask("a", "a", "p"),
        system("asker equal to target, not known", &[base()], &[]).ask("zz", "zz", "").ask("", "", "").ask(UNNAMED, UNNAMED, "p"),
        system("askers and targets of any bytes", &[base(), exports("p", &[])], &[])
            .ask_bytes(b"\xff\xfe", b"\xff\xfe", b"\x00")
            .ask_bytes(b"\xff", b"java.base", b"p")
            .ask_bytes(b"", b"java.base", b"p")
            .ask_bytes(&long, b"java.base", b"p")
            .ask_bytes(b"java.base", &long, b"p")
            .ask_bytes(b"java.base", b"", b"p")
            .ask_bytes(b"a", b"java.base", &long)
            .ask_bytes(b"java.base\0", b"java.base", b"p"),
    ]
}

fn readable() -> Vec<System> {
    let set = || {
        [base(), exports("o", &[]), opens("o", &[]), module("a"), module("t"), package("p"), exports("p", &[]), opens("p", &[])]
            .concat()
    };
    vec![
        system("no read edge: NotReadable, also where exported", &[set()], &[root("a"), root("t")])
            .ask("a", "t", "p")
            .ask("a", "t", "none"),
        system("java.base is readable by all named ones", &[set()], &[root("a")])
            .ask("a", "java.base", "o")
            .ask("t", "java.base", "o")
            .ask("zz", "java.base", "o")
            .ask("a", "java.base", "none"),
        system("a target that is not resolved is not readable", &[set()], &[root("a"), add_read("a", "t")]).ask("a", "t", "p"),
        system("a target that is not known is not readable", &[set()], &[root("a")]).ask("a", "zz", "p"),
        system("an asker that is not resolved reads only java.base", &[set()], &[root("t"), add_read("a", "t")])
            .ask("a", "t", "p")
            .ask("a", "java.base", "o"),
        system("java.base does not read others by itself", &[set()], &[root("t")]).ask("java.base", "t", "p"),
        system("AR makes readable", &[set()], &[root("a"), root("t"), add_read("a", "t")]).ask("a", "t", "p").ask("t", "a", "p"),
        system("target ALL-UNNAMED without AR", &[set()], &[root("a"), add_export(UNNAMED, "w", "a")]).ask("a", UNNAMED, "w"),
        system("target ALL-UNNAMED with AR exports nothing", &[set()], &[root("a"), add_read("a", UNNAMED)])
            .ask("a", UNNAMED, "w"),
        system(
            "target ALL-UNNAMED with AR and AE",
            &[set()],
            &[root("a"), add_read("a", UNNAMED), add_export(UNNAMED, "w", "a")],
        )
        .ask("a", UNNAMED, "w")
        .ask("a", UNNAMED, "v"),
        system("target ALL-UNNAMED with AR and AO", &[set()], &[root("a"), add_read("a", UNNAMED), add_open(UNNAMED, "w", "a")])
            .ask("a", UNNAMED, "w"),
        system(
            "an override does not make readable",
            &[set()],
            &[root("a"), root("t"), add_export("t", "p", "a"), add_open("t", "p", "a")],
        )
        .ask("a", "t", "p"),
    ]
}

fn entries() -> Vec<System> {
    let p = || package("p");
    vec![
        plain("no entry", &[p()], &[]),
        plain("EX unqualified", &[p(), exports("p", &[])], &[]),
        plain("EX of a package without PK", &[exports("p", &[])], &[]),
        plain("EX of another package", &[p(), exports("p/q", &[]), exports("P", &[])], &[]),
        plain("EX to a", &[exports("p", &["a"])], &[]),
        plain("EX to a and b", &[exports("p", &["a", "b"])], &[]),
        plain("EX to the target itself", &[exports("p", &["t"])], &[]),
        plain("EX to ALL-UNNAMED", &[exports("p", &[UNNAMED])], &[]),
        plain("EX to a and ALL-UNNAMED", &[exports("p", &["a", UNNAMED])], &[]),
        plain("EX to one that nobody knows", &[exports("p", &["x"])], &[]),
        plain("EX: the first entry decides, unqualified first", &[exports("p", &[]), exports("p", &["x"])], &[]),
        plain("EX: the first entry decides, qualified first", &[exports("p", &["a"]), exports("p", &[])], &[]),
        plain("EX: the first entry decides, two qualified", &[exports("p", &["a"]), exports("p", &["b"])], &[]),
        plain("EX: the first entry decides, ALL-UNNAMED second", &[exports("p", &["a"]), exports("p", &[UNNAMED])], &[]),
        plain("EX: entries of other packages between", &[exports("q", &[]), exports("p", &["b"]), exports("q", &[])], &[]),
        plain("OP unqualified", &[p(), opens("p", &[])], &[]),
        plain("OP of a package without PK", &[opens("p", &[])], &[]),
        plain("OP to a", &[opens("p", &["a"])], &[]),
        plain("OP to a and b", &[opens("p", &["b", "a"])], &[]),
        plain("OP to ALL-UNNAMED", &[opens("p", &[UNNAMED])], &[]),
        plain("OP: the first entry decides, unqualified first", &[opens("p", &[]), opens("p", &["x"])], &[]),
        plain("OP: the first entry decides, qualified first", &[opens("p", &["a"]), opens("p", &[])], &[]),
        plain("OP: the first entry decides, ALL-UNNAMED second", &[opens("p", &["b"]), opens("p", &[UNNAMED])], &[]),
        plain("OP does not export, EX does not open", &[exports("p", &["a"]), opens("p", &["b"])], &[]),
        plain("EX and OP unqualified", &[opens("p", &[]), exports("p", &[])], &[]),
        system(
            "an entry of java.base",
            &[base(), exports("o", &["a"]), opens("o", &["b"]), module("a"), module("b")],
            &[root("a"), root("b")],
        )
        .ask("a", "java.base", "o")
        .ask("b", "java.base", "o")
        .ask(UNNAMED, "java.base", "o"),
        system(
            "entries of a module count for it alone",
            &[target(0, false, &[]), module("u"), exports("p", &[])],
            &[roots(), root("u")],
        )
        .ask("a", "t", "p")
        .ask(UNNAMED, "u", "p"),
        system(
            "a module reached by transitive requirements exports",
            &[base(), module("a"), requires("b", 0), module("b"), requires("c", TRANSITIVE), module("c"), exports("p", &["a"])],
            &[root("a")],
        )
        .ask("a", "c", "p")
        .ask("b", "c", "p"),
    ]
}

fn overrides() -> Vec<System> {
    vec![
        plain("AE for a", &[], &[add_export("t", "p", "a")]),
        plain("AO for a", &[], &[add_open("t", "p", "a")]),
        plain("AE and AO for a and b", &[], &[add_export("t", "p", "a"), add_open("t", "p", "b")]),
        plain(
            "AE repeated and for several",
            &[],
            &[add_export("t", "p", "a"), add_export("t", "p", "a"), add_export("t", "p", "b")],
        ),
        plain("AE of another package", &[], &[add_export("t", "q", "a"), add_open("t", "q", "a")]),
        plain("AE of another source", &[], &[add_export("n", "p", "a"), add_open("a", "p", "t")]),
        plain("AE for the source itself", &[], &[add_export("t", "p", "t"), add_export("a", "p", "a")]),
        plain("AE for ALL-UNNAMED serves no named asker", &[], &[add_export("t", "p", UNNAMED)]),
        plain("AO for ALL-UNNAMED serves no named asker", &[], &[add_open("t", "p", UNNAMED)]),
        plain("AE for one who does not read", &[], &[add_export("t", "p", "n"), add_open("t", "p", "n")]),
        plain("AE for one whom nobody knows", &[], &[add_export("t", "p", "x"), add_open("t", "p", "x")]),
        plain(
            "AE beside a qualified entry",
            &[exports("p", &["b"]), opens("p", &["b"])],
            &[add_export("t", "p", "a"), add_open("t", "p", UNNAMED)],
        ),
        plain("AE of a source that nobody knows", &[], &[add_export("x", "p", "a"), add_open("x", "p", "a")]),
        system("AE of java.base for one whom nobody knows", &[base()], &[add_export("java.base", "p", "zz")]).ask(
            "zz",
            "java.base",
            "p",
        ),
        system("AO of java.base for ALL-UNNAMED", &[base()], &[add_open("java.base", "p", UNNAMED)]).ask(
            UNNAMED,
            "java.base",
            "p",
        ),
        system(
            "an override of an unresolved target does not help ALL-UNNAMED",
            &[base(), module("t")],
            &[add_export("t", "p", UNNAMED), add_open("t", "p", UNNAMED)],
        )
        .ask(UNNAMED, "t", "p"),
        system("ALL-UNNAMED asks of an unknown target", &[base()], &[add_export("zz", "p", UNNAMED)]).ask(UNNAMED, "zz", "p"),
        system("ALL-UNNAMED reads all", &[base(), module("t"), exports("p", &[]), opens("p", &[])], &[root("t")])
            .ask(UNNAMED, "t", "p"),
        system(
            "ALL-UNNAMED asks of a target that is not resolved",
            &[base(), module("t"), exports("p", &[]), opens("p", &[])],
            &[],
        )
        .ask(UNNAMED, "t", "p"),
        system(
            "an override of an automatic module's package it does not have",
            &[target(0, true, &[package("q")])],
            &[roots(), add_export("t", "p", "b"), add_open("t", "p", "b")],
        )
        .ask("b", "t", "p")
        .ask("a", "t", "p")
        .ask("a", "t", "q"),
    ]
}

fn kinds() -> Vec<System> {
    let p = || package("p");
    vec![
        automatic("automatic: PK allows all who read", 0, &[p()], &[]),
        automatic("automatic: without PK denied", 0, &[package("q")], &[]),
        automatic("automatic: EX and OP without PK do not help", 0, &[exports("p", &[]), opens("p", &[])], &[]),
        automatic("automatic: qualified entries do not matter", 0, &[p(), exports("p", &["x"]), opens("p", &["x"])], &[]),
        automatic("automatic: AE and AO help a named asker", 0, &[], &[add_export("t", "p", "a"), add_open("t", "p", "a")]),
        automatic(
            "automatic: no override helps ALL-UNNAMED",
            0,
            &[],
            &[add_export("t", "p", UNNAMED), add_open("t", "p", UNNAMED)],
        ),
        automatic("automatic and open: PK allows", OPEN, &[p()], &[]),
        automatic("automatic and open: without PK denied", OPEN, &[opens("p", &[])], &[add_open("t", "p", UNNAMED)]),
        open("open: PK opens and does not export", &[p()], &[]),
        open("open: PK and EX", &[p(), exports("p", &[])], &[]),
        open("open: EX without PK exports and does not open", &[exports("p", &[])], &[]),
        open("open: OP without PK does not open", &[opens("p", &[])], &[]),
        open("open: OP to ALL-UNNAMED without PK does not open", &[opens("p", &[UNNAMED])], &[]),
        open("open: a qualified OP does not close", &[p(), opens("p", &["x"])], &[]),
        open("open: AO without PK helps", &[], &[add_open("t", "p", "a"), add_open("t", "p", UNNAMED)]),
        open("open: AE helps access alone", &[], &[add_export("t", "p", "a"), add_export("t", "p", UNNAMED)]),
        open("open: EX to a", &[p(), exports("p", &["a"])], &[]),
        system(
            "an automatic asker reads all and still needs an entry",
            &[base(), module_with("a", 0, true, ""), module("t"), exports("p", &[]), opens("q", &["a"])],
            &[root("a"), root("t")],
        )
        .ask("a", "t", "p")
        .ask("a", "t", "q")
        .ask("t", "a", "p"),
        system(
            "an open asker has no more rights",
            &[base(), module_with("a", OPEN, false, ""), requires("t", 0), module("t"), package("p")],
            &[root("a")],
        )
        .ask("a", "t", "p"),
        system("java.base open", &[module_with("java.base", OPEN, false, ""), package("o")], &[]).ask("a", "java.base", "o").ask(
            UNNAMED,
            "java.base",
            "o",
        ),
        system("java.base automatic", &[module_with("java.base", 0, true, ""), package("o")], &[])
            .ask("a", "java.base", "o")
            .ask(UNNAMED, "java.base", "n"),
    ]
}

pub fn systems() -> Vec<System> {
    [equal(), readable(), entries(), overrides(), kinds()].into_iter().flatten().collect()
}
