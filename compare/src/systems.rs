//! Sets and requests: resolution, questions, the graph.
use crate::generate::{self, System};
use crate::module::access::AccessCheck;
use crate::module::graph::ModuleGraph;
use crate::module::resolution::{ResolvedConfiguration, ResolvedModule};
use crate::original::{Inputs, listing};
use crate::random::Random;
use crate::records::{parse_both, text};
use crate::report::Report;
use crate::second::{self, NEEDED};
use saqhovune::form::{self, Record, module, place, record, records, with_static};
use saqhovune::{AccessKind, Configuration, Input, Refusal, Row};
use std::collections::{BTreeSet, HashMap};

const PATTERN: u64 = 0x5A5A_A5A5_5A5A_A5A5;
const TOO_FEW: Refusal = Refusal::OutputTooShort { needed: NEEDED };

/// Compares the system of a seed and, at every tenth seed, one of many modules.
pub fn compare(report: &mut Report, seed: u64, questions: usize) {
    let r = &mut Random::new(seed);
    let s = generate::system(r);
    compare_system(report, seed, r, &s, questions);
    if seed.is_multiple_of(10) {
        let r = &mut Random::new(!seed);
        let s = generate::many(r);
        compare_system(report, seed, r, &s, questions);
    }
}

fn compare_system(report: &mut Report, seed: u64, r: &mut Random, s: &System, questions: usize) {
    ahash::set_seed(seed);
    let (modules, request) = parse_both(&s.set, &s.request).expect("the generator writes well-formed inputs");
    let inputs = Inputs { modules, request };
    let names = names(&inputs);
    report.compare("checks", seed, &"", saqhovune::check(&s.set, &s.request), Ok(inputs.modules.len()));
    let places: Vec<_> = form::modules(&s.set).map(|m| (m.place, m.hidden_by)).collect();
    report.compare("places as the crate lists them", seed, &"", places, inputs.places());
    let second = second::resolve(&s.set, &s.request);
    check_second(report, seed, s, &inputs, &second);
    let kinds = kinds(s, &inputs, &second);
    kinds.iter().for_each(|kind| report.count(kind[0]));

    let mut words = vec![PATTERN; NEEDED + r.below(4)];
    let library = saqhovune::resolve_into(&s.set, &s.request, &mut words);
    report.hold("words past the last left as they were", seed, &"", words[NEEDED..].iter().all(|w| *w == PATTERN));
    few_words(report, seed, r, &s.set, &s.request);

    let resolved = library.map(|_| configuration(&words));
    let refusals = (resolved.as_ref().err(), second.as_ref().err());
    report.hold("resolutions (by a second reading)", seed, &refusals, resolved == second);
    let with_static = inputs.request.with_static;
    let original = if with_static { inputs.resolve() } else { inputs.as_original(&s.set, &s.request, &second) };
    match (library, original) {
        (Ok(n), Ok(original)) => {
            report.count("systems accepted");
            kinds.iter().for_each(|kind| report.count(kind[1]));
            let c = resolved.expect("the library accepts");
            report.compare("numbers of members", seed, &"", (n, c.len()), (original.len(), original.len()));
            report.compare("listings", seed, &"", listing_of(s, &names, &c), listing(&original));
            report.hold("whole words", seed, &"", words[..NEEDED] == words_of(&names, &original));
            if r.chance(50) {
                report.count("configurations asked with bits to be ignored");
                generate::junk(r, &mut words, &inputs.observable());
            }
            ask(report, seed, r, s, &names, &words, &original, questions, "resolved");
        }
        (Err(e), Err(cause)) => {
            report.count(match e {
                Refusal::ModuleNotFound { .. } => "systems refused (5)",
                Refusal::JavaBaseNotFound => "systems refused (6)",
                Refusal::SplitPackage { .. } => "systems refused (7)",
                _ => "systems refused otherwise",
            });
            kinds.iter().for_each(|kind| report.count(kind[2]));
            report.hold("words left as they were on a refusal", seed, &"", words.iter().all(|w| *w == PATTERN));
            report.hold("causes of the library true", seed, &e, cause_is_true(s, &inputs, &e));
            if with_static {
                report.hold("causes of the original true", seed, &cause, inputs.is_true(&cause));
                match inputs.without_rounds().resolve() {
                    Err(_) => {
                        report.compare("refusals before the rounds", seed, &e, inputs.told(&s.set, &s.request, &e), Some(cause))
                    }
                    Ok(_) => report.count("refusals inside a round (both refuse)"),
                }
            }
        }
        (library, original) => {
            let original = original.map(|c| c.len());
            report.compare("outcomes", seed, &original, library.is_ok(), original.is_ok());
        }
    }

    let which = if r.chance(50) { Input::Set } else { Input::Request };
    damaged(report, seed, r, s, which);
    damaged_places(report, seed, r, s);
    damaged_static(report, seed, r, s);
    let any = generate::words(r);
    let original = inputs.configured(&configuration(&any));
    ask(report, seed, r, s, &names, &any, &original, questions, "arbitrary");
}

/// The configuration of lent words.
fn configuration(words: &[u64]) -> Configuration {
    Configuration::from_words(words[..NEEDED].to_vec().try_into().expect("as many words as the crate says"))
}

/// The words of what the original resolves, by the names of the positions.
fn words_of(names: &[String], original: &ResolvedConfiguration) -> Vec<u64> {
    let positions: HashMap<&str, usize> = names.iter().enumerate().map(|(i, n)| (n.as_str(), i)).collect();
    let position = |n: &str| if n == "ALL-UNNAMED" { second::UNNAMED } else { positions[n] };
    let members: Vec<usize> = original.modules().map(|m| position(m.name())).collect();
    let edges = |m: &ResolvedModule| m.reads().iter().map(|to| (position(m.name()), position(to))).collect::<Vec<_>>();
    second::words(&members, &original.modules().flat_map(edges).collect::<Vec<_>>())
}

/// What each call that is lent words is refused with.
fn refusals(set: &[u8], request: &[u8], words: &mut [u64]) -> [Option<Refusal>; 7] {
    let ask = |words: &[u64], kind| saqhovune::check_access(set, request, words, kind, b"a", b"a", b"").err();
    [
        ask(words, AccessKind::Access),
        ask(words, AccessKind::Reflection),
        saqhovune::can_read(set, words, b"a", b"a").err(),
        saqhovune::find_module_for_package(set, words, b"p").err(),
        saqhovune::readers_of(set, words, b"a").err(),
        saqhovune::transitive_reads(set, words, b"a").err(),
        saqhovune::resolve_into(set, request, words).err(),
    ]
}

/// Too few words are refused behind the records and before all else, and are left as they were.
fn few_words(report: &mut Report, seed: u64, r: &mut Random, set: &[u8], request: &[u8]) {
    let any = r.below(NEEDED);
    let count = *r.choose(&[0, 1, 1_032, any, NEEDED - 1, NEEDED - 1]);
    let mut words = vec![PATTERN; count];
    let found = refusals(set, request, &mut words);
    let both = checked(set, request).err();
    let alone = checked(set, &[]).err();
    let expected = [both, both, alone, alone, alone, alone, both].map(|e| e.or(Some(TOO_FEW)));
    report.compare("calls with too few words", seed, &count, found, expected);
    report.hold("too few words left as they were", seed, &count, words.iter().all(|w| *w == PATTERN));
}

/// The second reading is held to the original. Without ST the original is asked without the static requirements for the members
/// and refusals, and with them for the edges between these members.
fn check_second(report: &mut Report, seed: u64, s: &System, inputs: &Inputs, second: &Result<Configuration, Refusal>) {
    let with_static = inputs.request.with_static;
    let kind = |a: &'static str, b: &'static str| if with_static { a } else { b };
    let model = if with_static { inputs } else { &inputs.without_static() };
    match (second, model.resolve()) {
        (Ok(c), Ok(original)) => {
            let original = if with_static { original } else { inputs.resolve_members(&original) };
            let kind = kind("second reading with ST: listings", "second reading without ST: listings");
            report.compare(kind, seed, &"", listing(&inputs.configured(c)), listing(&original));
        }
        (Err(e), Err(cause)) if model.without_rounds().resolve().is_err() => {
            let kind = kind(
                "second reading with ST: refusals before the rounds",
                "second reading without ST: refusals before the rounds",
            );
            report.compare(kind, seed, e, inputs.told(&s.set, &s.request, e), Some(cause));
        }
        (Err(_), Err(_)) => report.count(kind(
            "second reading with ST: refusals inside a round (both refuse)",
            "second reading without ST: refusals inside a round (both refuse)",
        )),
        (second, original) => {
            let original = original.map(|c| c.len());
            report.compare("second reading: outcomes", seed, &original, second.is_ok(), original.is_ok());
        }
    }
}

/// What to count a system under: always, where it is accepted, and where it is refused.
fn kinds(s: &System, inputs: &Inputs, second: &Result<Configuration, Refusal>) -> Vec<[&'static str; 3]> {
    let mut kinds = Vec::new();
    if inputs.request.with_static {
        kinds.push(["systems with ST", "systems with ST accepted", "systems with ST refused (5 to 7)"]);
    } else {
        kinds.push(["systems without ST", "systems without ST accepted", "systems without ST refused (5 to 7)"]);
        if second::resolve(&s.set, &[&s.request[..], &with_static()].concat()) != *second {
            let kind = [
                "systems without ST that ST would change",
                "systems without ST that ST would change accepted",
                "systems without ST that ST would change refused (5 to 7)",
            ];
            kinds.push(kind);
        }
    }
    if records(&s.set).any(|r| r.mark == b"PL") {
        kinds.push(["systems with PL", "systems with PL accepted", "systems with PL refused (5 to 7)"]);
    }
    if records(&s.set).filter(|r| r.mark == b"PL" || r.offset == 0).count() == 8 {
        let kind = ["systems of eight places", "systems of eight places accepted", "systems of eight places refused (5 to 7)"];
        kinds.push(kind);
    }
    let is_large = inputs.modules.len() >= 100;
    if is_large {
        let kind = [
            "systems of 100 to 512 modules",
            "systems of 100 to 512 modules accepted",
            "systems of 100 to 512 modules refused (5 to 7)",
        ];
        kinds.push(kind);
    }
    if inputs.modules.len() > 256 {
        let kind = [
            "systems of 257 to 512 modules",
            "systems of 257 to 512 modules accepted",
            "systems of 257 to 512 modules refused (5 to 7)",
        ];
        kinds.push(kind);
    }
    if inputs.modules.len() == 512 {
        let kind = ["systems of 512 modules", "systems of 512 modules accepted", "systems of 512 modules refused (5 to 7)"];
        kinds.push(kind);
    }
    if inputs.observable().contains(&false) {
        let kind = [
            "systems with hidden modules",
            "systems with hidden modules accepted",
            "systems with hidden modules refused (5 to 7)",
        ];
        kinds.push(kind);
        if is_large {
            let kind = [
                "systems of 100 to 512 modules, some hidden",
                "systems of 100 to 512 modules, some hidden, accepted",
                "systems of 100 to 512 modules, some hidden, refused (5 to 7)",
            ];
            kinds.push(kind);
        }
    }
    kinds
}

/// A set or a request with some bytes changed or cut off.
fn damaged(report: &mut Report, seed: u64, r: &mut Random, s: &System, which: Input) {
    let (mut set, mut request) = (s.set.clone(), s.request.clone());
    let bytes = if which == Input::Set { &mut set } else { &mut request };
    for _ in 0..r.within(1, 2) {
        match r.below(8) {
            0 => bytes.truncate(r.below(bytes.len() + 1)),
            1 => bytes.extend_from_within(..r.below(bytes.len() + 1)),
            _ if bytes.is_empty() => {}
            _ => {
                let at = r.below(bytes.len());
                bytes[at] = *r.choose(&[0, 1, 0x20, 0x7F, b'M', b'O', bytes[at].wrapping_add(1), bytes[at].wrapping_sub(1)]);
            }
        }
    }
    refused(report, seed, r, &which, &set, &request);
}

/// A set with PL put in and taken out, with a body, up to the eighth and the ninth place, with names again, and up to the 512th
/// and the 513th module.
fn damaged_places(report: &mut Report, seed: u64, r: &mut Random, s: &System) {
    let mut all: Vec<Vec<u8>> = records(&s.set).map(|x| record(x.mark.try_into().unwrap(), x.body)).collect();
    let is = |x: &[u8], mark: &[u8]| x.starts_with(mark);
    // where a module may stand
    let between = |r: &mut Random, all: &[Vec<u8>]| {
        let starts = (0..=all.len()).filter(|i| all.get(*i).is_none_or(|x| is(x, b"MO") || is(x, b"PL")));
        *r.choose(&starts.collect::<Vec<_>>())
    };
    for _ in 0..r.within(1, 2) {
        match r.below(12) {
            0 | 1 => all.insert(r.below(all.len() + 1), place()),
            2 => all.insert(between(r, &all), place()),
            3 => {
                let body: &[u8] = r.pick(&[&b"\0"[..], b"\x01a", &[b'a'; 300]]);
                all.insert(between(r, &all), record(b"PL", body));
            }
            4 | 5 => {
                let starts: Vec<usize> = (0..all.len()).filter(|i| is(&all[*i], b"PL")).collect();
                if !starts.is_empty() {
                    all.remove(*r.choose(&starts));
                }
            }
            6 | 7 => {
                let more = r.within(8, 9).saturating_sub(all.iter().filter(|x| is(x, b"PL")).count());
                for _ in 0..more {
                    all.insert(between(r, &all), place());
                }
            }
            8 => {
                // modules in a new place, some of them hidden
                let more = r.within(512, 513).saturating_sub(all.iter().filter(|x| is(x, b"MO")).count());
                all.push(place());
                all.extend((0..more).map(|i| module(s.names.get(i).unwrap_or(&format!("more{i}")))));
            }
            _ => {
                let modules: Vec<&Vec<u8>> = all.iter().filter(|x| is(x, b"MO")).collect();
                let again = r.choose(&modules).to_vec();
                all.insert(between(r, &all), again);
            }
        }
    }
    refused(report, seed, r, &"places", &all.concat(), &s.request);
}

/// A request with ST put in, also with a body, or a set with ST.
fn damaged_static(report: &mut Report, seed: u64, r: &mut Random, s: &System) {
    let split = |input: &[u8]| -> Vec<Vec<u8>> { records(input).map(|x| record(x.mark.try_into().unwrap(), x.body)).collect() };
    let (mut set, mut request) = (split(&s.set), split(&s.request));
    for _ in 0..r.within(1, 2) {
        let body: &[u8] = r.pick(&[&b"\0"[..], b"\x01a", &[b'a'; 300]]);
        match r.below(8) {
            0 => set.insert(r.below(set.len() + 1), with_static()),
            1 => request.insert(r.below(request.len() + 1), record(b"ST", body)),
            2 => request.retain(|x| !x.starts_with(b"ST")),
            _ => request.insert(r.below(request.len() + 1), with_static()),
        }
    }
    refused(report, seed, r, &"ST", &set.concat(), &request.concat());
}

/// Refusals 1 to 3, or the number of modules, as records.rs, a second reading of the documents, has them.
fn checked(set: &[u8], request: &[u8]) -> Result<usize, Refusal> {
    parse_both(set, request).map(|(modules, _)| modules.len()).map_err(|bad| match bad.number {
        1 => Refusal::Malformed { input: if bad.which == "set" { Input::Set } else { Input::Request }, offset: bad.offset },
        2 => Refusal::TooLarge { offset: bad.offset },
        _ => Refusal::Repeated { offset: bad.offset },
    })
}

fn refused(report: &mut Report, seed: u64, r: &mut Random, of: &dyn std::fmt::Debug, set: &[u8], request: &[u8]) {
    let expected = checked(set, request);
    few_words(report, seed, r, set, request);
    report.compare("checks of damaged inputs (by a second reading)", seed, of, saqhovune::check(set, request), expected);
    if let Err(e) = expected {
        report.compare("resolutions of damaged inputs", seed, of, saqhovune::resolve(set, request), Err(e));
        for kind in [AccessKind::Access, AccessKind::Reflection] {
            let verdict = saqhovune::check_access(set, request, &[0u64; NEEDED], kind, b"a", b"a", b"");
            report.compare("questions of damaged inputs", seed, of, verdict, Err(e));
        }
    }
    if records(request).any(|r| r.mark == b"ST") || records(set).any(|r| r.mark == b"ST") {
        report.count(match expected {
            Ok(_) => "damaged inputs with ST accepted",
            Err(Refusal::Malformed { input: Input::Request, offset }) if request[offset..].starts_with(b"ST\0\0") => {
                "damaged inputs with ST refused (1 at a second ST)"
            }
            Err(Refusal::Malformed { input: Input::Request, offset }) if request[offset..].starts_with(b"ST") => {
                "damaged inputs with ST refused (1 at an ST with a body)"
            }
            Err(Refusal::Malformed { input: Input::Set, offset }) if set[offset..].starts_with(b"ST") => {
                "damaged inputs with ST refused (1 at an ST in the set)"
            }
            Err(_) => "damaged inputs with ST refused otherwise",
        });
    }
    if records(set).any(|r| r.mark == b"PL") {
        let at = |offset: usize| set[offset..].starts_with(b"PL");
        let behind = |offset: usize| offset >= 4 && set[offset - 4..].starts_with(b"PL\0\0");
        report.count(match expected {
            Ok(_) => "damaged inputs with PL accepted",
            Err(Refusal::Malformed { input: Input::Set, offset }) if at(offset) => "damaged inputs with PL refused (1 at a PL)",
            Err(Refusal::Malformed { input: Input::Set, offset }) if behind(offset) => {
                "damaged inputs with PL refused (1 behind a PL)"
            }
            Err(Refusal::Malformed { .. }) => "damaged inputs with PL refused (1 elsewhere)",
            Err(Refusal::TooLarge { offset: 0 }) => "damaged inputs with PL refused (2 by length)",
            Err(Refusal::TooLarge { offset }) if at(offset) => "damaged inputs with PL refused (2 at the ninth place)",
            Err(Refusal::TooLarge { .. }) => "damaged inputs with PL refused (2 at the 513th module)",
            Err(_) => "damaged inputs with PL refused (3)",
        });
    }
}

/// A name for each of the 512 positions, also for those of hidden modules and those that the set does not have.
fn names(inputs: &Inputs) -> Vec<String> {
    let observable = inputs.observable();
    let name = |i: usize| match inputs.modules.get(i) {
        Some(m) if observable[i] => m.name().into(),
        Some(m) => format!("(position {i}, a hidden {})", m.name()),
        None => format!("(position {i})"),
    };
    (0..512).map(name).collect()
}

fn listing_of(s: &System, names: &[String], c: &Configuration) -> String {
    let mut members: Vec<usize> = c.members().collect();
    members.sort_by_key(|i| &names[*i]);
    let mut out = format!("resolved {}\n", members.len());
    for &i in &members {
        out += &format!("module {}\n", names[i]);
        let mut reads: BTreeSet<&str> = (0..names.len()).filter(|j| c.reads(i, *j)).map(|j| names[j].as_str()).collect();
        if c.reads_unnamed(i) {
            reads.insert("ALL-UNNAMED");
        }
        for r in reads {
            out += &format!("reads {r}\n");
        }
    }
    for p in &s.packages {
        if let Some(i) = saqhovune::find_module_for_package(&s.set, c, p.as_bytes()).expect("the set is well-formed") {
            out += &format!("owner {p} {}\n", names[i]);
        }
    }
    out
}

/// Whether the refusal names something that is so, at a place that has it.
fn cause_is_true(s: &System, inputs: &Inputs, e: &Refusal) -> bool {
    // Where the first name of a record starts in its input, and its length.
    let place = |r: &Record, skip: usize| (r.offset + 4 + skip + 1, usize::from(r.body[skip]));
    let has_place = match *e {
        Refusal::ModuleNotFound { input: Input::Request, start, len } => {
            let mut roots = records(&s.request).filter(|r| r.mark == b"RT");
            // the first root of this name
            let wanted = s.request.get(start..start + len);
            roots.find(|r| r.body.get(1..) == wanted).is_some_and(|r| place(&r, 0) == (start, len))
        }
        Refusal::ModuleNotFound { start, len, .. } => {
            let observable = inputs.observable();
            let mut modules = 0;
            let mut required = records(&s.set).filter(|r| {
                modules += usize::from(r.mark == b"MO");
                r.mark == b"RQ" && observable[modules - 1] && r.body[1] & 0x40 == 0
            });
            required.any(|r| place(&r, 2) == (start, len))
        }
        Refusal::SplitPackage { start, len, second, .. } => {
            let module = records(&s.set).skip_while({
                let mut seen = 0;
                move |r| {
                    seen += usize::from(r.mark == b"MO");
                    seen <= second
                }
            });
            let of_module = module.skip(1).take_while(|r| r.mark != b"MO" && r.mark != b"PL");
            let mut packages = of_module.filter(|r| r.mark == b"PK");
            // the first record of the package
            let wanted = s.set.get(start..start + len);
            packages.find(|r| r.body.get(1..) == wanted).is_some_and(|r| place(&r, 0) == (start, len))
        }
        _ => true,
    };
    has_place && inputs.told(&s.set, &s.request, e).is_some_and(|cause| inputs.is_true(&cause))
}

fn row_names(names: &[String], row: &Row) -> BTreeSet<String> {
    let mut all: BTreeSet<String> = row.positions().map(|i| names[i].clone()).collect();
    if row.contains_unnamed() {
        all.insert("ALL-UNNAMED".into());
    }
    all
}

#[allow(clippy::too_many_arguments)]
fn ask(
    report: &mut Report,
    seed: u64,
    r: &mut Random,
    s: &System,
    names: &[String],
    words: &[u64],
    original: &ResolvedConfiguration,
    questions: usize,
    which: &str,
) {
    let resolved = which == "resolved";
    let over = |a: &'static str, b: &'static str| if resolved { a } else { b };
    let access = AccessCheck::new(original);
    let graph = ModuleGraph::from_configuration(original);
    for _ in 0..questions {
        let q = generate::question(r, s);
        let [a, t, p] = q.each_ref().map(|b| text(b));
        let of = (which, &a, &t, &p);
        let verdict = saqhovune::check_access(&s.set, &s.request, words, AccessKind::Access, &q[0], &q[1], &q[2]);
        let verdict = format!("{:?}", verdict.expect("the inputs are well-formed"));
        let expected = format!("{:?}", access.check_access(&a, &t, &p));
        report.count(match expected.as_str() {
            "Allowed" => "verdicts Allowed",
            "NotReadable" => "verdicts NotReadable",
            _ => "verdicts NotExported",
        });
        report.compare(over("verdicts, resolved", "verdicts, arbitrary"), seed, &of, verdict, expected);
        let verdict = saqhovune::check_access(&s.set, &s.request, words, AccessKind::Reflection, &q[0], &q[1], &q[2]);
        let verdict = format!("{:?}", verdict.expect("the inputs are well-formed"));
        let expected = format!("{:?}", access.check_reflection_access(&a, &t, &p));
        report.compare(over("reflection verdicts, resolved", "reflection verdicts, arbitrary"), seed, &of, verdict, expected);
        let reads = saqhovune::can_read(&s.set, words, &q[0], &q[1]);
        report.compare(over("can_read, resolved", "can_read, arbitrary"), seed, &of, reads, Ok(access.can_read(&a, &t)));
        owner(report, seed, s, names, words, original, &q[2], over("owners, resolved", "owners, arbitrary"));
    }
    for _ in 0..questions.div_ceil(4) {
        let name = generate::asked_name(r, s);
        let n = text(&name);
        let row = saqhovune::readers_of(&s.set, words, &name).expect("the set is well-formed");
        let expected = graph.readers_of(&n).cloned().unwrap_or_default();
        report.compare(over("readers_of, resolved", "readers_of, arbitrary"), seed, &n, row_names(names, &row), expected);
        let row = saqhovune::transitive_reads(&s.set, words, &name).expect("the set is well-formed");
        let expected = graph.transitive_reads(&n);
        report.compare(
            over("transitive_reads, resolved", "transitive_reads, arbitrary"),
            seed,
            &n,
            row_names(names, &row),
            expected,
        );
    }
}

/// Where two members of an arbitrary configuration have the package, the original has no answer.
#[allow(clippy::too_many_arguments)]
fn owner(
    report: &mut Report,
    seed: u64,
    s: &System,
    names: &[String],
    words: &[u64],
    original: &ResolvedConfiguration,
    package: &[u8],
    kind: &'static str,
) {
    let p = text(package);
    if original.modules().filter(|m| m.descriptor().packages.contains(&p)).count() > 1 {
        report.count("skipped: package of several members");
        return;
    }
    let found = saqhovune::find_module_for_package(&s.set, words, package).expect("the set is well-formed");
    let found = found.map(|i| names[i].clone());
    report.compare(kind, seed, &p, found, original.find_module_for_package(&p).map(String::from));
}
