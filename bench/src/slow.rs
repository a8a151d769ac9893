//! The slowest inputs known, near 65,535 bytes: what each loop of the library meets most often.
use crate::alike::alike;
use crate::inputs::LIMIT;
use crate::slow_class;
use crate::time::{self, times};
use saqhovune::form::*;
use saqhovune::{AccessKind, Configuration, Refusal, Row, Verdict, WORDS};
use std::hint::black_box;

/// No input should take longer (in nanoseconds).
const GOAL: f64 = 50e6;

/// A name of `len` printable bytes that tells `i`; smaller numbers come first in byte order.
pub fn name(len: usize, i: usize) -> String {
    let mut digits = vec![b'!'; len];
    let mut rest = i;
    for d in digits.iter_mut().rev() {
        *d = b'!' + (rest % 94) as u8;
        rest /= 94;
    }
    assert_eq!(rest, 0, "{i} has no name of {len} bytes");
    String::from_utf8(digits).unwrap()
}

/// Appends what `make` gives for 0, 1, ... while the whole is no longer than `limit`.
pub fn fill(mut front: Vec<u8>, limit: usize, mut make: impl FnMut(usize) -> Vec<u8>) -> Vec<u8> {
    for i in 0.. {
        let next = make(i);
        if front.len() + next.len() > limit {
            break;
        }
        front.extend(next);
    }
    front
}

/// LM of one name, so often that the request is full.
fn limits(front: Vec<u8>, of: &str, limit: usize) -> Vec<u8> {
    let count = (limit - front.len() - 6) / (of.len() + 1);
    [front, saqhovune::form::limit(&vec![of; count])].concat()
}

/// java.base and modules of these names.
fn modules(names: impl Iterator<Item = String>) -> Vec<u8> {
    names.fold(module("java.base"), |set, n| [set, module(&n)].concat())
}

/// Names that share 250 bytes: beside java.base a set has room for modules of 250.
const LATE: usize = 250;
fn late(i: usize) -> String {
    "n".repeat(250) + &name(2, i)
}

/// Names that share 117 bytes: a set has room for as many as it may have modules.
fn middle(i: usize) -> String {
    "n".repeat(117) + &name(2, i)
}

/// The numbers below `count` from both ends in turn.
fn ends(count: usize) -> impl Iterator<Item = usize> {
    (0..count).map(move |i| if i % 2 == 0 { i / 2 } else { count - 1 - i / 2 })
}

/// java.base and modules of the first names, in a second place of the others; those that are there again are hidden.
fn two_places(first: impl Iterator<Item = String>, second: impl Iterator<Item = String>) -> Vec<u8> {
    [modules(first), place(), second.flat_map(|n| module(&n)).collect()].concat()
}

/// Sets that make the table of names, or the search for repeated ones, slow.
fn slow_names() -> [(&'static str, Vec<u8>); 11] {
    let third = LATE / 3;
    [
        ("250 modules that share 250 bytes", modules((0..LATE).map(late))),
        ("250 modules that share 250 bytes, against the order", modules((0..LATE).rev().map(late))),
        ("250 modules that share 250 bytes, from both ends in turn", modules(ends(LATE).map(late))),
        ("255 modules that share 245 bytes, against the order", modules((1..256).rev().map(|i| late(i)[5..].into()))),
        ("two places with the same 125 modules that share 250 bytes", two_places((0..125).map(late), (0..125).rev().map(late))),
        (
            "83 modules that share 250 bytes, in a second place 83 others and the same",
            two_places((0..third).rev().map(late), (0..2 * third).rev().map(late)),
        ),
        ("511 modules that share 117 bytes", modules((1..512).map(middle))),
        ("511 modules that share 117 bytes, against the order", modules((1..512).rev().map(middle))),
        ("511 modules that share 117 bytes, from both ends in turn", modules(ends(511).map(middle))),
        (
            "two places with the same 255 modules that share 117 bytes",
            two_places((0..255).map(middle), (0..255).rev().map(middle)),
        ),
        ("511 modules of 2 bytes, from both ends in turn", modules(ends(511).map(|i| name(2, i)))),
    ]
}

struct Table {
    seconds: f64,
    over: usize,
}

impl Table {
    /// `told` says what the call answers: members, a verdict, bytes written or a refusal.
    fn row<R>(&mut self, function: &str, input: &str, bytes: usize, told: impl Fn(R) -> String, mut call: impl FnMut() -> R) {
        let mut answer = None;
        let t = times(self.seconds, &mut [&mut || answer = Some(black_box(call()))])[0];
        let answer = told(answer.expect("the call was made"));
        let over = if t.best > GOAL { "over 50 ms" } else { "" };
        self.over += usize::from(t.best > GOAL);
        println!("| {function} | {input} | {bytes} | {answer} | {} | {} | {over} |", time::text(t.best), time::text(t.median));
    }

    fn resolve(&mut self, input: &str, set: Vec<u8>, request: Vec<u8>) {
        let mut words = vec![0; WORDS];
        self.row("resolve", input, size(&set, &request), number("start"), || {
            saqhovune::resolve_into(black_box(&set), black_box(&request), &mut words)
        });
    }

    fn check(&mut self, input: &str, set: Vec<u8>, request: Vec<u8>) {
        self.row("check", input, size(&set, &request), number("modules"), || {
            saqhovune::check(black_box(&set), black_box(&request))
        });
    }

    fn access(&mut self, input: &str, set: Vec<u8>, request: Vec<u8>, [a, t, p]: [&str; 3]) {
        let c = everything();
        let bytes = size(&set, &request);
        let [a, t, p] = [a, t, p].map(str::as_bytes);
        let verdict = |v: Result<Verdict, Refusal>| format!("{:?}", v.expect("it is well-formed"));
        for (function, kind) in [("access", AccessKind::Access), ("reflection", AccessKind::Reflection)] {
            self.row(function, input, bytes, verdict, || {
                saqhovune::check_access(black_box(&set), black_box(&request), &c, kind, a, t, p)
            });
        }
    }

    fn graph(&mut self, input: &str, set: &[u8], c: &Configuration, [from, to]: [&str; 2]) {
        let [from, to] = [from, to].map(str::as_bytes);
        let members = |row: Result<Row, Refusal>| format!("{} modules", row.expect("it is well-formed").len());
        self.row(
            "can_read",
            input,
            set.len(),
            |r| if r == Ok(true) { "yes".into() } else { "no".into() },
            || saqhovune::can_read(black_box(set), c, from, to),
        );
        self.row("readers_of", input, set.len(), members, || saqhovune::readers_of(black_box(set), c, to));
        self.row("transitive_reads", input, set.len(), members, || saqhovune::transitive_reads(black_box(set), c, from));
    }

    fn class(&mut self, input: &str, file: Vec<u8>, out: &mut [u8]) {
        self.row("class", input, size(&file, &[]), number("bytes"), || saqhovune::from_class_file(black_box(&file), out));
    }

    fn jar(&mut self, input: &str, packages: Vec<u8>, out: &mut [u8]) {
        self.row("jar", input, size(&packages, &[]), number("bytes"), || {
            saqhovune::automatic_from_jar_name(b"a.jar", None, black_box(&packages), out)
        });
    }
}

/// The length of both, each of which may be that long.
fn size(set: &[u8], request: &[u8]) -> usize {
    assert!(set.len() <= LIMIT && request.len() <= LIMIT, "{} and {} bytes", set.len(), request.len());
    set.len() + request.len()
}

/// An answer that is a number of this unit, or a refusal.
fn number(unit: &str) -> impl Fn(Result<usize, Refusal>) -> String + '_ {
    move |answer| match answer {
        Ok(n) => format!("{n} {unit}"),
        Err(e) => format!("refused {}", e.number()),
    }
}

/// All are members and read all.
fn everything() -> Configuration {
    Configuration::from_words(vec![u64::MAX; WORDS].try_into().expect("as many words"))
}

/// Position i reads i - 1 alone: sweeps from the front add one each.
fn chain() -> Configuration {
    let mut words = vec![0; WORDS];
    words[..8].fill(u64::MAX);
    (1..512).for_each(|i| words[8 + 9 * i + (i - 1) / 64] |= 1 << ((i - 1) % 64));
    Configuration::from_words(words.try_into().expect("as many words"))
}

/// PK of the names with one hash from number `first` on.
fn alike_package(first: usize) -> impl Fn(usize) -> Vec<u8> {
    move |i| package(&alike(first + i))
}

fn resolutions(t: &mut Table) {
    let base = || module("java.base");
    let long = |i: usize| "n".repeat(238) + &name(2, i);

    t.resolve(
        "7,000 RQ of one absent name, LM of 32,000 other names",
        fill(base(), LIMIT, |_| requires("~", 0)),
        limits(Vec::new(), "!", LIMIT),
    );
    t.resolve(
        "7,000 RQ of one absent name, LM behind 10,900 RT",
        [fill(base(), LIMIT - 10, |_| requires("~", 0)), module("b")].concat(),
        [fill(Vec::new(), LIMIT - 6, |_| root("b")), limit(&[])].concat(),
    );
    t.resolve(
        "5,400 absent RT, LM of 16,000 other names",
        base(),
        limits(fill(Vec::new(), LIMIT / 2, |_| root("~")), "!", LIMIT),
    );
    t.resolve("10,900 absent RT, LM behind them", base(), [fill(Vec::new(), LIMIT - 6, |_| root("~")), limit(&[])].concat());
    t.resolve("10,900 absent RT, no LM", base(), fill(Vec::new(), LIMIT, |_| root("~")));
    t.resolve("6,500 RQ of absent names, no LM", fill(base(), LIMIT, |i| requires(&name(2, i), 0)), Vec::new());
    let downward = |count: usize| (0..count).rev().map(|i| name(3, 400_000 + i)).collect::<Vec<_>>();
    let all_of = |names: &[String]| limit(&names.iter().map(String::as_str).collect::<Vec<_>>());
    t.resolve(
        "6,500 RQ of absent names, all different, LM of 16,000 others against the order",
        fill(base(), LIMIT, |i| requires(&name(2, i), 0)),
        all_of(&downward(16_380)),
    );
    let shortest = || {
        let mut names: Vec<String> = (0..8_836).map(|i| name(2, i)).chain((0..9_750).map(|i| name(3, 85 * i))).collect();
        names.sort_by(|a, b| b.cmp(a));
        names
    };
    t.resolve(
        "6,500 RQ of an absent name, LM of 18,500 others, all different, against the order",
        fill(base(), LIMIT, |_| requires("~~~", 0)),
        all_of(&shortest()),
    );
    t.resolve(
        "4,000 absent RT, all different, LM of 8,000 others against the order",
        base(),
        fill(all_of(&downward(8_100)), LIMIT, |i| root(&name(3, i))),
    );
    t.resolve(
        "512 modules, LM of 21,000 other names as long",
        modules((1..512).map(|i| name(2, i))),
        limits(Vec::new(), "~~", LIMIT),
    );
    t.resolve(
        "256 modules of 240 bytes with a common prefix, LM of 270 such",
        modules((1..256).map(long)),
        limit(&(0..270).map(|i| long(i + 300)).collect::<Vec<_>>().iter().map(String::as_str).collect::<Vec<_>>()),
    );

    t.resolve(
        "512 modules, 6,000 RQ of the last",
        {
            let set = modules((1..510).map(|i| name(2, i)));
            [fill([set, module("a")].concat(), LIMIT - 20, |_| requires("zz", TRANSITIVE)), module("zz")].concat()
        },
        root("a"),
    );
    let optional = |n: &str| {
        let set = [modules((1..510).map(|i| name(2, i))), module("zz"), module("a")].concat();
        fill(set, LIMIT, |_| requires(n, STATIC | TRANSITIVE))
    };
    t.resolve("512 modules, 6,000 static RQ of an absent name, ST", optional("~~"), [root("a"), with_static()].concat());
    t.resolve("512 modules, 6,000 static RQ of an absent name, no ST", optional("~~"), root("a"));
    t.resolve(
        "512 modules, 6,000 static RQ of the last but one, ST behind 10,900 RT",
        optional("zz"),
        [fill(Vec::new(), LIMIT - 4, |_| root("a")), with_static()].concat(),
    );
    t.resolve(
        "512 modules, 6,000 static RQ of the last but one, 10,900 RT, no ST",
        optional("zz"),
        fill(Vec::new(), LIMIT, |_| root("a")),
    );
    t.resolve(
        "128 modules of 240 bytes with a common prefix, 125 RQ of the last",
        {
            let set = modules((1..128).map(long));
            fill([set, module("a")].concat(), LIMIT, |_| requires(&long(127), TRANSITIVE))
        },
        root("a"),
    );
    for (input, set) in slow_names() {
        let names: Vec<_> = module_names(&set).map(|n| String::from_utf8_lossy(n)).collect();
        let request = fill(Vec::new(), LIMIT, |i| root(&names[i % names.len()]));
        let roots = records(&request).count() / 10 * 10;
        t.resolve(&format!("{input}, {roots} RT of them"), set, request);
    }
    let sixteen = |i: usize| "n".repeat(16) + &name(2, i);
    let against = || [modules((1..511).rev().map(sixteen)), module("a")].concat();
    t.resolve(
        "510 modules that share 16 bytes, against the order, 1,980 RQ and 2,850 RT of them",
        fill(against(), LIMIT, |i| requires(&sixteen(1 + i * 97 % 510), TRANSITIVE)),
        fill(root("a"), LIMIT, |i| root(&sixteen(1 + i * 97 % 510))),
    );
    t.resolve(
        "510 modules that share 16 bytes, against the order, 1,910 static RQ of absent names between them, ST",
        fill(against(), LIMIT, |i| requires(&(sixteen(1 + i * 97 % 510) + "!"), STATIC)),
        [root("a"), with_static()].concat(),
    );
    let roots = || (1..512).flat_map(|i| root(&name(2, i))).collect::<Vec<_>>();
    let between = |i: usize| add_read(&name(2, 1 + i * 97 % 511), &name(2, 1 + i * 101 % 509));
    let automatic = || (1..512).fold(base(), |set, i| [set, module_with(&name(2, i), 0, true, "")].concat());
    t.resolve(
        "512 modules, 6,190 AR between the last two",
        modules((1..512).map(|i| name(2, i))),
        fill(roots(), LIMIT, |_| add_read(&name(2, 510), &name(2, 511))),
    );
    t.resolve("512 modules, 6,190 AR between all", modules((1..512).map(|i| name(2, i))), fill(roots(), LIMIT, between));
    t.resolve("512 automatic modules", automatic(), roots());
    t.resolve("512 automatic modules, 6,190 AR between all", automatic(), fill(roots(), LIMIT, between));
    t.resolve(
        "512 automatic modules in a ring of transitive RQ, 6,190 AR between all",
        (1..512).fold(base(), |set, i| {
            [set, module_with(&name(2, i), 0, true, ""), requires(&name(2, i % 511 + 1), TRANSITIVE)].concat()
        }),
        fill(roots(), LIMIT, between),
    );
    t.resolve(
        "256 modules of 240 bytes with a common prefix, 130 AR between the last two",
        modules((1..256).map(long)),
        fill(root(&long(255)), LIMIT, |_| add_read(&long(254), &long(255))),
    );

    // so many modules beside java.base, each with as many RQ as there is room for
    let ring = |count: usize, step: usize| {
        (1..count + 1).fold(base(), |set, i| {
            let set = [set, module(&name(2, i))].concat();
            let mut next = 0;
            fill(set, base().len() + i * (LIMIT - base().len()) / count, |_| {
                next += step;
                requires(&name(2, (i + next) % count + 1), TRANSITIVE)
            })
        })
    };
    t.resolve(
        "512 modules in a ring of transitive RQ",
        (1..512).fold(base(), |set, i| [set, module(&name(2, i)), requires(&name(2, i % 511 + 1), TRANSITIVE)].concat()),
        root(&name(2, 1)),
    );
    t.resolve(
        "the same against the order of the set",
        {
            (1..512)
                .fold(base(), |set, i| [set, module(&name(2, i)), requires(&name(2, (i + 509) % 511 + 1), TRANSITIVE)].concat())
        },
        root(&name(2, 1)),
    );
    t.resolve("256 modules with 24 transitive RQ each", ring(255, 11), root(&name(2, 1)));
    t.resolve("512 modules with 11 transitive RQ each", ring(511, 11), root(&name(2, 1)));
    t.resolve("512 modules with 11 transitive RQ each, in steps of 23", ring(511, 23), root(&name(2, 1)));
    t.resolve(
        "512 modules with 11 transitive RQ each, 6,550 AR between the last two",
        ring(511, 11),
        fill(root(&name(2, 1)), LIMIT, |_| add_read(&name(2, 510), &name(2, 511))),
    );

    t.resolve(
        "8,000 PK in two modules, all different",
        {
            let set = fill([base(), module("a")].concat(), LIMIT / 2, |i| package(&name(3, i)));
            fill([set, module("b")].concat(), LIMIT, |i| package(&name(3, i + 100_000)))
        },
        [root("a"), root("b")].concat(),
    );
    t.resolve(
        "7,500 PK in 500 modules, all different",
        {
            (0..500).fold(base(), |set, i| {
                let set = [set, module(&name(2, i))].concat();
                fill(set, (i + 1) * LIMIT / 500, |j| package(&name(3, i * 100 + j)))
            })
        },
        (0..500).flat_map(|i| root(&name(2, i))).collect(),
    );
    t.resolve(
        "5,400 PK of a package that another module has behind 5,400 PK",
        {
            let set = fill([base(), module("a")].concat(), LIMIT / 2, |_| package("!"));
            fill([set, package("~"), module("b")].concat(), LIMIT, |_| package("~"))
        },
        [root("a"), root("b")].concat(),
    );
    t.resolve(
        "two modules with 1,900 PK each, all with one hash",
        {
            let set = fill([base(), module("a")].concat(), LIMIT / 2, alike_package(0));
            fill([set, module("b")].concat(), LIMIT, alike_package(10_000))
        },
        [root("a"), root("b")].concat(),
    );
    for (input, count) in [("250 modules with 14 PK each, all with one hash", 250), ("511 modules with 6 PK each, the same", 511)]
    {
        t.resolve(
            input,
            (0..count).fold(base(), |set, i| {
                let set = [set, module(&name(2, i))].concat();
                fill(set, (i + 1) * LIMIT / count, alike_package(i * 20))
            }),
            (0..count).flat_map(|i| root(&name(2, i))).collect(),
        );
    }
    t.resolve(
        "two modules with 4,090 PK each, one of them twice",
        {
            let twice = |n: &str| [package(n), package(n)].concat();
            let set = fill([base(), module("a"), twice("!")].concat(), LIMIT / 2, |i| package(&name(3, i)));
            fill([set, module("b"), twice("~")].concat(), LIMIT, |i| package(&name(3, 100_000 + i)))
        },
        [root("a"), root("b")].concat(),
    );

    t.resolve(
        "4,000 US of one module, 2,700 PV of 500, all different",
        {
            let set = fill(base(), LIMIT / 2, |i| uses(&name(3, i)));
            (0..500).fold(set.clone(), |all, i| {
                let all = [all, module(&name(2, i))].concat();
                fill(all, set.len() + (i + 1) * (LIMIT - set.len()) / 500, |j| provides(&name(3, 100_000 + i * 100 + j), &[]))
            })
        },
        Vec::new(),
    );
    t.resolve(
        "8,700 US, 450 PV of services that nobody uses",
        {
            let set = fill(base(), LIMIT - 4_500, |i| uses(&name(2, i % 8_000)));
            fill([set, module("a")].concat(), LIMIT, |i| provides(&name(3, i), &[]))
        },
        Vec::new(),
    );
    t.resolve(
        "8,070 US against the order, 900 PV of services that nobody uses",
        {
            let set = fill(base(), LIMIT - 9_000, |i| uses(&name(2, 8_800 - i % 8_800)));
            fill([set, module("a")].concat(), LIMIT, |i| provides(&name(3, i), &[]))
        },
        Vec::new(),
    );
    let rounds = |front: Vec<u8>, count: usize| {
        (0..count).fold([front, uses("s!!")].concat(), |set, i| {
            let own = [
                module(&name(3, 500_000 + i)),
                provides(&format!("s{}", name(2, i)), &[]),
                uses(&format!("s{}", name(2, i + 1))),
            ];
            [set, own.concat()].concat()
        })
    };
    t.resolve("511 rounds", rounds(base(), 511), Vec::new());
    t.resolve(
        "510 rounds, a module with 6,270 PV of services that nobody uses",
        fill([rounds(base(), 510), module("a")].concat(), LIMIT, |_| provides("~", &[])),
        Vec::new(),
    );
    t.resolve(
        "510 rounds, a module with 190 PV of a service of 255 bytes",
        {
            let long = "n".repeat(255);
            fill([rounds(base(), 510), module("a")].concat(), LIMIT, |_| provides(&long, &[]))
        },
        Vec::new(),
    );
    // In each round a module that uses `count` services, and one with services in between that nobody uses.
    let broad = |rounds: usize, count: usize| {
        let set = (0..rounds - 1).fold([base(), uses("s!!")].concat(), |set, i| {
            let others = (0..count).flat_map(|j| uses(&format!("m{}", name(2, j * 600 + i))));
            let own = [
                module(&name(3, 500_000 + i)),
                provides(&format!("s{}", name(2, i)), &[]),
                uses(&format!("s{}", name(2, i + 1))),
                others.collect(),
            ];
            [set, own.concat()].concat()
        });
        fill([set, module("a")].concat(), LIMIT, |i| provides(&format!("m{}~", name(2, i * 2 % 8_800)), &[]))
    };
    t.resolve("510 rounds with 2 new US each, a module with 4,190 PV", broad(510, 1), Vec::new());
    t.resolve("510 rounds with 5 new US each, a module with 3,080 PV", broad(510, 4), Vec::new());
    t.resolve("510 rounds with 9 new US each, a module with 1,600 PV", broad(510, 8), Vec::new());
    t.resolve("254 rounds with 13 new US each, a module with 3,050 PV", broad(254, 12), Vec::new());
    t.resolve(
        "a round with 7,000 RQ of an absent name that is the last of 10,900 RT",
        {
            let set = [base(), uses("s"), module("a"), provides("s", &[])].concat();
            fill(set, LIMIT, |_| requires("~", 0))
        },
        {
            let front = limit(&["a"]);
            [fill(front, LIMIT - 6, |_| root("!")), root("~")].concat()
        },
    );
    t.resolve(
        "a round with 3,600 RQ of an absent name that another module requires behind 3,600 RQ, 10,900 RT",
        {
            let set = fill([base(), uses("s")].concat(), LIMIT / 2, |_| requires("!", 0));
            fill([set, requires("~", 0), module("a"), provides("s", &[])].concat(), LIMIT, |_| requires("~", 0))
        },
        fill(limit(&["a"]), LIMIT, |_| root("!")),
    );
    t.resolve(
        "a round with 6,540 RQ of absent names, all different and all among 9,360 RT against the order",
        {
            let set = [base(), uses("s"), module("a"), provides("s", &[])].concat();
            fill(set, LIMIT, |i| requires(&name(2, i + 1), 0))
        },
        fill(limit(&["a"]), LIMIT, |i| root(&name(2, 8_800 - i % 8_800))),
    );
    t.resolve(
        "a round with 3,270 RQ of 2,900 absent names that another module requires against the order",
        {
            let set = fill([base(), uses("s")].concat(), LIMIT / 2, |i| requires(&name(2, 3_500 - i), 0));
            fill([set, module("a"), provides("s", &[])].concat(), LIMIT, |i| requires(&name(2, 600 + i % 2_900), 0))
        },
        fill(limit(&["a"]), LIMIT, |_| root("!")),
    );
}

fn questions(t: &mut Table) {
    let base = || module("java.base");
    let long = |i: usize| "n".repeat(238) + &name(2, i);
    let two = || [base(), module("a"), module("t")].concat();
    let ask = ["a", "t", "~"];

    t.check("256 modules of 240 bytes with a common prefix", modules((1..256).map(long)), Vec::new());
    for (input, set) in slow_names() {
        t.check(input, set, Vec::new());
    }
    t.check("10,900 PK, 10,900 RT", fill(base(), LIMIT, |_| package("!")), fill(Vec::new(), LIMIT, |_| root("!")));
    t.check(
        "EX of 32,000 targets, LM of 32,000 names",
        [base(), exports("p", &vec!["!"; (LIMIT - base().len() - 8) / 2])].concat(),
        limits(Vec::new(), "!", LIMIT),
    );

    t.access("8,000 EX of other packages", fill(two(), LIMIT, |_| exports("!", &[])), Vec::new(), ask);
    t.access("8,000 OP of other packages", fill(two(), LIMIT, |_| opens("!", &[])), Vec::new(), ask);
    t.access(
        "EX of 32,000 other targets",
        [two(), exports("~", &vec!["!"; (LIMIT - two().len() - 8) / 2])].concat(),
        Vec::new(),
        ask,
    );
    t.access(
        "EX of 250 other targets of 240 bytes, 130 AE of such",
        {
            let names: Vec<String> = (0..250).map(long).collect();
            let set = [base(), module(&long(300)), module("t")].concat();
            [set, exports("~", &names.iter().map(String::as_str).collect::<Vec<_>>())].concat()
        },
        fill(Vec::new(), LIMIT, |_| add_export("t", "~", &long(301))),
        [&long(300), "t", "~"],
    );
    t.access("6,500 AE of another target", two(), fill(Vec::new(), LIMIT, |_| add_export("t", "~", "!")), ask);
    t.access("6,500 AO of another target", two(), fill(Vec::new(), LIMIT, |_| add_open("t", "~", "!")), ask);
    t.access(
        "an automatic target with 10,900 other PK",
        fill([base(), module("a"), module_with("t", 0, true, "")].concat(), LIMIT, |_| package("!")),
        Vec::new(),
        ask,
    );
    t.access(
        "8,000 EX of other packages, 6,500 AE of another target",
        fill(two(), LIMIT, |_| exports("!", &[])),
        fill(Vec::new(), LIMIT, |_| add_export("t", "~", "!")),
        ask,
    );

    let set = fill(base(), LIMIT, |_| package("!"));
    let c = everything();
    t.row(
        "owner",
        "10,900 other PK",
        set.len(),
        |o| if o == Ok(None) { "none".into() } else { "found".into() },
        || saqhovune::find_module_for_package(black_box(&set), &c, b"~"),
    );
    let set = modules((1..512).map(middle));
    let names = [middle(511), middle(510)];
    let names = names.each_ref().map(String::as_str);
    t.graph("512 modules of 119 bytes, all edges", &set, &everything(), names);
    t.graph("512 modules of 119 bytes, a chain of reads", &set, &chain(), names);
    let (late, middle) = ([late(1), late(2)], [middle(1), middle(2)]);
    for (i, names) in [(1, &late), (5, &late), (7, &middle), (9, &middle)] {
        let [asker, target] = names.each_ref().map(String::as_str);
        let (input, set) = slow_names()[i].clone();
        t.graph(&format!("{input}, all edges"), &set, &everything(), [asker, target]);
        t.access(input, set, Vec::new(), [asker, target, "~"]);
    }
}

fn readers(t: &mut Table) {
    let mut out = vec![0; 1 << 25];
    let out = out.as_mut_slice();
    t.jar(
        "8,800 packages in reverse order",
        fill(Vec::new(), LIMIT, |i| package(&if i < 8836 { name(2, 8835 - i) } else { "!".into() })),
        out,
    );
    t.jar("8,800 packages in order", fill(Vec::new(), LIMIT, |i| package(&name(2, i.min(8835)))), out);
    t.jar(
        "4,400 packages in reverse order, each twice",
        fill(Vec::new(), LIMIT, |i| package(&name(2, 8835 - i.min(9361) / 2))),
        out,
    );
    t.jar("10,900 times one package", fill(Vec::new(), LIMIT, |_| package("!")), out);
    t.jar(
        "270 packages of 238 bytes with a common prefix, in reverse order",
        fill(Vec::new(), LIMIT, |i| package(&("n".repeat(236) + &name(2, 500 - i)))),
        out,
    );
    t.jar(
        "130 packages of 238 bytes, each twice, and 4,600 of 2 bytes",
        {
            let front = (0..260).flat_map(|i| package(&("n".repeat(236) + &name(2, 500 - i / 2))));
            fill(front.collect(), LIMIT, |i| package(&name(2, 8835 - i)))
        },
        out,
    );
    for (input, file) in slow_class::files() {
        t.class(input, file, out);
    }
}

pub fn print(seconds: f64) {
    println!("Best of many runs and median; a call over 5 s is made once. One thread, buffers warm and reused.\n");
    println!("| function | input | bytes | answer | time | (median) | |");
    println!("|---|---|---:|---|---:|---:|---|");
    let mut table = Table { seconds, over: 0 };
    resolutions(&mut table);
    questions(&mut table);
    readers(&mut table);
    println!("\n{} over 50 ms", table.over);
}
