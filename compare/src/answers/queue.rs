//! The queue: roots, permitted names, requirements, packages; and every record of a set and a request where it is good.
use super::{System, system};
use saqhovune::form::*;

const UNNAMED: &str = "ALL-UNNAMED";

fn base() -> Vec<u8> {
    module("java.base")
}

fn listing() -> Vec<u8> {
    [
        base(),
        package("java/lang"),
        module("page.core"),
        requires("page.frames", TRANSITIVE),
        uses("page/Reader"),
        module("page.foot"),
        requires("page.frames", 0),
        provides("page/Reader", &[]),
        package("page/foot"),
        module("page.frames"),
        package("page/frame"),
    ]
    .concat()
}

fn document() -> Vec<System> {
    vec![
        system("document case 1: the listing", &[listing()], &[root("page.core")])
            .owner("java/lang")
            .owner("page/foot")
            .owner("page/frame")
            .owner("page/none")
            .graph("page.frames")
            .graph("page.core"),
        system("document case 2: the empty set", &[], &[]),
        system("document case 3: java.base alone", &[base()], &[]).graph("java.base"),
        system("document case 4: an absent root", &[base()], &[root("a")]),
        system("document case 5: an absent root that is not permitted", &[base()], &[root("a"), limit(&[])]),
        system(
            "document case 9: the first entry decides alone",
            &[
                base(),
                module("t"),
                exports("p", &["b"]),
                exports("p", &[]),
                module("c"),
                requires("t", 0),
                module("b"),
                requires("t", 0),
            ],
            &[root("c"), root("b")],
        )
        .ask("c", "t", "p")
        .ask("b", "t", "p"),
        system(
            "document case 10: a cycle reads itself",
            &[base(), module("a"), requires("b", TRANSITIVE), module("b"), requires("a", TRANSITIVE)],
            &[root("a")],
        )
        .graph("a")
        .graph("b"),
    ]
}

fn forms() -> Vec<System> {
    let long = "n".repeat(255);
    vec![
        system(
            "every record of a set and a request at once",
            &[
                module_with("java.base", 0, false, "11"),
                module_with("a", OPEN, false, "1.0"),
                requires_with("b", TRANSITIVE, "2"),
                requires("c", STATIC),
                exports("a/p", &["b", UNNAMED]),
                opens("a/p", &[]),
                uses("s"),
                provides("t", &["a/I", "a/J"]),
                package("a/p"),
                main_class("a/Main"),
                module_with("b", 0, true, ""),
                package("b/p"),
                module("c"),
                main_class("c/Main"),
            ],
            &[
                root("a"),
                limit(&["a", "b", "c"]),
                with_static(),
                add_read("b", UNNAMED),
                add_export("a", "a/q", "b"),
                add_open("a", "a/q", "c"),
            ],
        )
        .ask("b", "a", "a/p")
        .ask("b", "a", "a/q")
        .ask("c", "a", "a/q")
        .ask(UNNAMED, "a", "a/p")
        .owner("a/p")
        .owner("b/p")
        .owner("a/q"),
        system(
            "other flag bits of MO mean nothing",
            &[module_with("java.base", 0xFFDF, false, "")],
            &[add_read("java.base", "a")],
        )
        .ask("a", "java.base", "p"),
        system(
            "other flag bits of RQ mean nothing",
            &[base(), module("a"), requires("b", 0xFF9F), module("b"), requires("c", 0xFF9F), module("c")],
            &[root("a")],
        ),
        system("names of 255 bytes", &[base(), module_with(&long, 0, false, &long), package(&long)], &[root(&long)]).owner(&long),
        system(
            "names of the lowest and highest bytes",
            &[base(), module("!"), requires("~", 0), package("~!"), module("~"), package("!~")],
            &[root("!")],
        )
        .owner("!~")
        .owner("~!"),
        system("a name is compared whole: a prefix is another module", &[base(), module("java.bas"), module("java.basee")], &[]),
        system("capitals are other names", &[base(), module("a"), module("A")], &[root("A")]),
        system("an empty request", &[base(), module("a")], &[]),
        system("a package twice in one module", &[base(), package("p"), package("p")], &[]).owner("p"),
        system("a main class for each of two modules", &[base(), main_class("M"), module("a"), main_class("M")], &[root("a")]),
        system(
            "ALL-UNNAMED as service, implementation, package and main class",
            &[base(), uses(UNNAMED), module("a"), provides(UNNAMED, &[UNNAMED]), package(UNNAMED), main_class(UNNAMED)],
            &[],
        )
        .owner(UNNAMED),
    ]
}

fn roots() -> Vec<System> {
    let two = || [base(), module("a"), module("b")].concat();
    vec![
        system("a root", &[two()], &[root("a")]),
        system("two roots", &[two()], &[root("b"), root("a")]),
        system("a repeated root counts once", &[two()], &[root("a"), root("a"), root("a")]),
        system("java.base as a root", &[two()], &[root("java.base")]),
        system("java.base as the last root", &[two()], &[root("a"), root("java.base")]),
        system("java.base absent, no root", &[module("a")], &[]),
        system("java.base absent, a root: 6 comes first", &[module("a")], &[root("a")]),
        system("java.base absent and not a root: 6 before 5", &[], &[root("a")]),
        system("java.base absent as a later root: 5 before 6", &[], &[root("a"), root("java.base")]),
        system("java.base absent as the first root: 6 before 5", &[], &[root("java.base"), root("a")]),
        system("java.base absent as a later root behind a good one", &[module("a")], &[root("a"), root("java.base")]),
        system("java.base absent though LM is empty", &[module("a")], &[limit(&[])]),
        system(
            "java.base absent as a static requirement alone",
            &[module("a"), requires("java.base", STATIC)],
            &[root("a"), with_static()],
        ),
        system("java.base absent though not permitted: it always passes", &[module("a")], &[root("a"), limit(&["a"])]),
        system("an absent root behind a good one", &[two()], &[root("a"), root("x")]),
        system("the first of two absent roots", &[two()], &[root("y"), root("x")]),
        system("of two roots of an absent name the first", &[two()], &[root("a"), root("x"), root("x")]),
        system("a root ALL-UNNAMED is absent", &[two()], &[root(UNNAMED)]),
        system("a root ALL-UNNAMED is skipped where not permitted", &[two()], &[root(UNNAMED), limit(&["a"])]),
        system("a root ALL-UNNAMED is absent where permitted", &[two()], &[root(UNNAMED), limit(&[UNNAMED])]),
        system("roots of 512 modules", &[many(511)], &[(0..511).map(|i| root(&format!("m{i}"))).collect::<Vec<_>>().concat()])
            .ask("m510", "m0", "p")
            .graph("java.base"),
    ]
}

/// java.base and this many modules.
fn many(n: usize) -> Vec<u8> {
    (0..n).fold(base(), |set, i| [set, module(&format!("m{i}"))].concat())
}

fn limits() -> Vec<System> {
    let chain = || [base(), module("a"), requires("b", 0), module("b"), requires("c", 0), module("c")].concat();
    vec![
        system("no LM permits all", &[chain()], &[root("a")]),
        system("an empty LM permits only java.base", &[chain()], &[root("a"), limit(&[])]),
        system("LM of the root alone", &[chain()], &[root("a"), limit(&["a"])]),
        system("LM cuts in the middle", &[chain()], &[root("a"), limit(&["a", "c"])]),
        system("LM names all", &[chain()], &[root("a"), limit(&["c", "b", "a"])]),
        system("LM names java.base too", &[chain()], &[root("a"), limit(&["java.base", "a"])]),
        system("LM repeats a name", &[chain()], &[root("a"), limit(&["a", "a", "b", "a"])]),
        system("LM names what nobody knows", &[chain()], &[root("a"), limit(&["x", "a", UNNAMED])]),
        system("LM does not start what it names", &[chain()], &[limit(&["a", "b", "c"])]),
        system("LM may stand before the roots", &[chain()], &[limit(&["b", "c"]), root("b")]),
        system("a root that is not permitted is skipped", &[chain()], &[root("a"), root("c"), limit(&["c"])]),
        system(
            "an absent requirement that is not permitted is skipped",
            &[base(), module("a"), requires("x", 0)],
            &[root("a"), limit(&["a"])],
        ),
        system(
            "an absent requirement that is permitted refuses",
            &[base(), module("a"), requires("x", 0)],
            &[root("a"), limit(&["a", "x"])],
        ),
        system(
            "a package of a skipped module is free",
            &[base(), module("a"), requires("b", 0), package("p"), module("b"), package("p")],
            &[root("a"), limit(&["a"])],
        )
        .owner("p"),
        system("what a skipped module requires is not met", &[base(), module("a"), requires("x", 0)], &[root("a"), limit(&[])]),
    ]
}

fn requirements() -> Vec<System> {
    vec![
        system("an absent requirement", &[base(), module("a"), requires("x", 0)], &[root("a")]),
        system("an absent transitive requirement", &[base(), module("a"), requires("x", TRANSITIVE)], &[root("a")]),
        system("an absent requirement of java.base", &[base(), requires("x", 0)], &[]),
        system("an absent requirement of a module that is not needed", &[base(), module("a"), requires("x", 0)], &[]),
        system("a static requirement that is absent", &[base(), module("a"), requires("x", STATIC)], &[root("a"), with_static()]),
        system(
            "a static transitive requirement that is absent",
            &[base(), module("a"), requires("x", STATIC | TRANSITIVE)],
            &[root("a"), with_static()],
        ),
        system(
            "a static requirement that is observable",
            &[base(), module("a"), requires("x", STATIC), module("x")],
            &[root("a"), with_static()],
        )
        .graph("x"),
        system(
            "a static requirement that is not permitted",
            &[base(), module("a"), requires("x", STATIC), module("x")],
            &[root("a"), limit(&["a"]), with_static()],
        ),
        system(
            "an absent static requirement queues nothing: the later one is at fault",
            &[base(), module("a"), requires("x", STATIC), requires("x", 0)],
            &[root("a"), with_static()],
        ),
        system(
            "of two modules that require an absent one the first handled is at fault",
            &[base(), module("b"), requires("x", 0), module("a"), requires("x", 0)],
            &[root("a"), root("b")],
        )
        .requirement(1),
        system(
            "of a root and a requirement of an absent module the root is at fault",
            &[base(), module("a"), requires("x", 0)],
            &[root("a"), root("x")],
        ),
        system(
            "the queue is in order: what a root requires comes behind the other roots",
            &[base(), module("a"), requires("x", 0), module("b"), requires("y", 0)],
            &[root("b"), root("a")],
        ),
        system(
            "the queue is in order: requirements of the first module come first",
            &[base(), module("a"), requires("b", 0), requires("x", 0), module("b"), requires("y", 0)],
            &[root("a")],
        ),
        system("a requirement of itself", &[base(), module("a"), requires("a", 0)], &[root("a")]),
        system("java.base requires itself", &[base(), requires("java.base", 0)], &[]),
        system("java.base requires a module", &[base(), requires("a", 0), module("a")], &[]),
        system(
            "a requirement named twice",
            &[base(), module("a"), requires("b", 0), requires("b", STATIC), module("b")],
            &[root("a"), with_static()],
        ),
        system(
            "a long chain",
            &[
                (0..40).fold(base(), |s, i| [s, module(&format!("m{i}")), requires(&format!("m{}", i + 1), 0)].concat()),
                module("m40"),
            ],
            &[root("m0")],
        ),
        system(
            "a cycle of plain requirements",
            &[base(), module("a"), requires("b", 0), module("b"), requires("a", 0)],
            &[root("b")],
        ),
        system("positions past one word", &[many(70), module("z"), requires("m65", 0)], &[root("z")]).graph("m65"),
    ]
}

fn packages() -> Vec<System> {
    vec![
        system(
            "a shared package: byte order decides which",
            &[base(), module("a"), package("z"), package("b"), requires("c", 0), module("c"), package("z"), package("b")],
            &[root("a")],
        ),
        system(
            "a shared package comes before an absent requirement of the same module",
            &[base(), package("p"), module("a"), requires("x", 0), package("p")],
            &[root("a")],
        ),
        system(
            "an absent root before a shared package of a later one",
            &[base(), package("p"), module("a"), package("p")],
            &[root("x"), root("a")],
        ),
        system(
            "a shared package before an absent root that comes later",
            &[base(), package("p"), module("a"), package("p")],
            &[root("a"), root("x")],
        ),
        system("a package shared with a module that is not resolved", &[base(), package("p"), module("a"), package("p")], &[])
            .owner("p"),
        system(
            "the owner is the one handled first, not the one first in the set",
            &[module("a"), package("p"), module("b"), package("p"), base()],
            &[root("b"), root("a")],
        ),
        system(
            "a shared package named twice: the first PK of the second module",
            &[base(), package("p"), module("a"), package("q"), package("p"), package("p")],
            &[root("a")],
        ),
        system(
            "a package shared by automatic modules",
            &[base(), module_with("a", 0, true, ""), package("p"), module_with("b", 0, true, ""), package("p")],
            &[root("a"), root("b")],
        ),
        system(
            "three modules share a package: the second is at fault",
            &[base(), module("a"), package("p"), module("b"), package("p"), module("c"), package("p")],
            &[root("c"), root("b"), root("a")],
        ),
        system(
            "a package and one below it are two",
            &[base(), package("p"), module("a"), package("p/q"), package("p/")],
            &[root("a")],
        )
        .owner("p")
        .owner("p/q")
        .owner("p/")
        .owner("")
        .owner("q"),
        system(
            "exported packages without PK are not owned",
            &[base(), exports("p", &[]), module("a"), package("p")],
            &[root("a")],
        )
        .owner("p"),
        system(
            "a shared package of a required module",
            &[base(), module("a"), requires("b", 0), package("p"), module("b"), package("p")],
            &[root("a")],
        ),
        system("no package at all", &[base(), module("a")], &[root("a")]).owner("a").owner("java/lang"),
    ]
}

pub fn systems() -> Vec<System> {
    [document(), forms(), roots(), limits(), requirements(), packages()].into_iter().flatten().collect()
}
