//! Rounds: providers of services that resolved modules use.
use super::{System, system};
use saqhovune::form::*;

fn base() -> Vec<u8> {
    module("java.base")
}

/// java.base; a, which uses s; p, which provides s and has these records.
fn bound(records: &[Vec<u8>]) -> Vec<u8> {
    [base(), module("a"), uses("s"), module("p"), provides("s", &["i"]), records.concat()].concat()
}

fn binding() -> Vec<System> {
    vec![
        system("a provider is bound", &[bound(&[])], &[root("a")]).graph("p"),
        system(
            "a provider is not bound where nobody uses it",
            &[base(), module("a"), module("p"), provides("s", &["i"])],
            &[root("a")],
        ),
        system("a provider of another service is not bound", &[base(), uses("s"), module("p"), provides("s2", &["i"])], &[]),
        system("a provider without implementations is bound", &[base(), uses("s"), module("p"), provides("s", &[])], &[]),
        system("a service used by java.base is bound", &[base(), uses("s"), module("p"), provides("s", &["i"])], &[]),
        system("use by a module that is not resolved binds nothing", &[bound(&[])], &[]),
        system("two providers of a service are bound", &[bound(&[module("q"), provides("s", &["j"])])], &[root("a")]),
        system(
            "a provider of two services is bound once",
            &[bound(&[provides("t", &[]), module("b"), uses("t")])],
            &[root("a"), root("b")],
        ),
        system("a module uses what it provides", &[base(), module("a"), uses("s"), provides("s", &["i"])], &[root("a")]),
        system("a provider that is a root already", &[bound(&[])], &[root("p"), root("a")]),
        system("a provider of a provider is bound", &[bound(&[uses("t"), module("q"), provides("t", &["j"])])], &[root("a")]),
        system(
            "providers of providers, four rounds",
            &[bound(&[
                uses("t"),
                module("q"),
                provides("t", &[]),
                uses("u"),
                module("r"),
                provides("u", &[]),
                uses("v"),
                module("w"),
                provides("v", &[]),
            ])],
            &[root("a")],
        )
        .graph("w"),
        system(
            "255 rounds",
            &[
                base(),
                uses("s0"),
                (0..255).fold(Vec::new(), |s, i| {
                    [s, module(&format!("m{i}")), provides(&format!("s{i}"), &[]), uses(&format!("s{}", i + 1))].concat()
                }),
            ],
            &[],
        ),
        system("a provider's requirement is resolved with it", &[bound(&[requires("q", 0), module("q")])], &[root("a")])
            .graph("q"),
        system(
            "the requirement of a provider uses a service",
            &[bound(&[requires("q", 0), module("q"), uses("t"), module("r"), provides("t", &[])])],
            &[root("a")],
        ),
        system(
            "a provider reads through transitive requirements",
            &[bound(&[requires("q", 0), module("q"), requires("r", TRANSITIVE), module("r")])],
            &[root("a")],
        )
        .graph("r"),
        system("the user does not read the provider", &[bound(&[package("k"), exports("k", &[])])], &[root("a")])
            .ask("a", "p", "k")
            .ask("p", "a", "k")
            .owner("k"),
        system(
            "an automatic user reads its provider",
            &[base(), module_with("a", 0, true, ""), uses("s"), module("p"), provides("s", &[])],
            &[root("a")],
        ),
        system(
            "an automatic provider reads all",
            &[base(), module("a"), uses("s"), module_with("p", 0, true, ""), provides("s", &[])],
            &[root("a")],
        ),
        system(
            "the set's end has the provider of its start",
            &[module("p"), provides("s", &[]), module("a"), uses("s"), base()],
            &[root("a")],
        ),
    ]
}

fn limits() -> Vec<System> {
    vec![
        system("a provider that is not permitted is not bound", &[bound(&[])], &[root("a"), limit(&["a"])]),
        system("a provider that is permitted is bound", &[bound(&[])], &[root("a"), limit(&["a", "p"])]),
        system(
            "one of two providers is permitted",
            &[bound(&[module("q"), provides("s", &[])])],
            &[root("a"), limit(&["a", "q"])],
        ),
        system(
            "an empty LM binds nothing, also for java.base",
            &[base(), uses("s"), module("p"), provides("s", &[])],
            &[limit(&[])],
        ),
        system(
            "a provider that was queued and skipped is met and not bound",
            &[base(), module("a"), uses("s"), requires("p", 0), module("p"), provides("s", &[])],
            &[root("a"), limit(&["a"])],
        ),
        system(
            "a requirement of a provider is skipped where not permitted",
            &[bound(&[requires("q", 0), module("q")])],
            &[root("a"), limit(&["a", "p"])],
        ),
        system(
            "java.base is handled though its provider is in LM alone",
            &[bound(&[requires("java.base", 0)])],
            &[root("a"), limit(&["a", "p"])],
        ),
        system(
            "a provider's static requirement that is not permitted",
            &[bound(&[requires("q", STATIC), module("q")])],
            &[root("a"), limit(&["a", "p"]), with_static()],
        ),
        system(
            "LM cuts a chain of providers",
            &[bound(&[uses("t"), module("q"), provides("t", &[]), uses("u"), module("r"), provides("u", &[])])],
            &[root("a"), limit(&["a", "p", "r"])],
        ),
    ]
}

fn refusals() -> Vec<System> {
    vec![
        system("in a round an absent requirement refuses", &[bound(&[requires("x", 0)])], &[root("a")]),
        system(
            "in a round an absent requirement refuses though not permitted",
            &[bound(&[requires("x", 0)])],
            &[root("a"), limit(&["a", "p"])],
        ),
        system(
            "in a round an absent requirement that was met and skipped passes",
            &[base(), module("a"), uses("s"), requires("x", 0), module("p"), provides("s", &[]), requires("x", 0)],
            &[root("a"), limit(&["a", "p"])],
        ),
        system(
            "in a round an absent root that was met and skipped passes",
            &[bound(&[requires("x", 0)])],
            &[root("x"), root("a"), limit(&["a", "p"])],
        ),
        system("in a round an absent static requirement passes", &[bound(&[requires("x", STATIC)])], &[root("a"), with_static()]),
        system(
            "in a round an observable static requirement is pulled in",
            &[bound(&[requires("q", STATIC), module("q")])],
            &[root("a"), with_static()],
        ),
        system(
            "in a round the requirement behind a static one of the same name is at fault",
            &[bound(&[requires("x", STATIC), requires("x", 0)])],
            &[root("a"), with_static()],
        ),
        system("in a round a transitive absent requirement refuses", &[bound(&[requires("x", TRANSITIVE)])], &[root("a")]),
        system(
            "in a round an absent requirement of a requirement refuses",
            &[bound(&[requires("q", 0), module("q"), requires("x", 0)])],
            &[root("a")],
        ),
        system(
            "in a second round an absent requirement refuses",
            &[bound(&[uses("t"), module("q"), provides("t", &[]), requires("x", 0)])],
            &[root("a")],
        ),
        system(
            "in a round a shared package refuses",
            &[bound(&[package("k"), module("b"), package("k")])],
            &[root("b"), root("a")],
        ),
        system(
            "in a round a package shared with java.base refuses",
            &[base(), package("k"), uses("s"), module("p"), provides("s", &[]), package("k")],
            &[],
        ),
        system(
            "in a round a shared package comes before an absent requirement",
            &[bound(&[requires("x", 0), package("k"), module("b"), package("k")])],
            &[root("b"), root("a")],
        ),
        system(
            "in a round the package of a provider that is not permitted is free",
            &[bound(&[package("k"), module("b"), package("k")])],
            &[root("b"), root("a"), limit(&["a", "b"])],
        )
        .owner("k"),
        system(
            "in a round a requirement shares a package with its provider",
            &[bound(&[package("k"), requires("q", 0), module("q"), package("k")])],
            &[root("a")],
        ),
        system(
            "in a second round a shared package refuses",
            &[bound(&[package("k"), uses("t"), module("q"), provides("t", &[]), package("j"), package("k")])],
            &[root("a")],
        ),
        system(
            "in a round the byte order of packages decides",
            &[bound(&[package("z"), package("k"), module("b"), package("z"), package("k")])],
            &[root("b"), root("a")],
        ),
        system("a refusal of the first queue comes before the rounds", &[bound(&[requires("x", 0)])], &[root("a"), root("y")]),
        system(
            "an absent requirement of a provider nobody needs",
            &[bound(&[module("q"), provides("t", &[]), requires("x", 0)])],
            &[root("a")],
        ),
    ]
}

pub fn systems() -> Vec<System> {
    [binding(), limits(), refusals()].into_iter().flatten().collect()
}
