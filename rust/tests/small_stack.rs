//! Every function of the crate in a thread with a stack of 1 MiB, on inputs that lead as deep into the library as is known: long ones,
//! with an LM, a chain of requirements, and modules that are bound in a round. A stack that is too small ends the test program.
use saqhovune::form::*;
use saqhovune::*;
use std::{fs, thread};

fn in_small_stack(call: fn()) {
    thread::Builder::new().stack_size(1 << 20).spawn(call).unwrap().join().unwrap();
}

/// The chain m0, m1, and so on: with java.base, late, bound and a hidden m0 they are 512 modules.
const CHAIN: usize = 508;
const LATE: usize = 1 + CHAIN;
const BOUND: usize = LATE + 1;
const MODULES: usize = BOUND + 2;

fn link(i: usize) -> String {
    format!("m{i}")
}

/// Each module of the chain requires the next, and names a service and a package; `bound` provides one, so that it comes up in a
/// round, and has a static requirement of `late`. Both `m0` and `bound` require a module that is absent and not permitted. As many
/// packages follow as there is room for.
fn set() -> Vec<u8> {
    let mut set = [module("java.base"), package("java/lang"), exports("java/lang", &[])].concat();
    for i in 0..CHAIN {
        set.extend([module(&link(i)), package(&format!("p/{i}")), uses(&format!("s/{i}"))].concat());
        if i == 0 {
            set.extend([requires("unlisted", 0), opens("p/0", &["m1"]), main_class("p/0/Main")].concat());
        }
        if i + 1 < CHAIN {
            set.extend(requires_with(&link(i + 1), TRANSITIVE, "1"));
        }
    }
    set.extend(module("late"));
    set.extend([module_with("bound", OPEN, false, "1"), requires("late", STATIC), requires("unlisted", 0)].concat());
    set.extend(provides("s/7", &["q/Seven"]));
    let last = [place(), module("m0")].concat();
    for i in 0.. {
        let more = package(&format!("q/{i}"));
        if set.len() + more.len() + last.len() > 65_535 {
            break;
        }
        set.extend(more);
    }
    [set, last].concat()
}

/// The first of the chain as root, an LM with every module and thousands of others, as many roots as there is room for, ST.
fn request() -> Vec<u8> {
    let others = (0..3_000).map(|i| format!("other.{i}"));
    let permitted: Vec<_> = (0..CHAIN).map(link).chain(["late".into(), "bound".into()]).chain(others).collect();
    let permitted: Vec<_> = permitted.iter().map(String::as_str).collect();
    let mut request = [root("m0"), limit(&permitted), add_read("m0", "ALL-UNNAMED")].concat();
    request.extend([add_export("java.base", "java/util", "m0"), add_open("java.base", "java/lang", "m0")].concat());
    for i in 0.. {
        let more = root(&link(i % CHAIN));
        if request.len() + more.len() + with_static().len() > 65_535 {
            break;
        }
        request.extend(more);
    }
    [request, with_static()].concat()
}

#[test]
fn questions() {
    in_small_stack(|| {
        let (set, request) = (set(), request());
        assert!(set.len() > 65_500 && request.len() > 65_500);
        assert_eq!(check(&set, &request), Ok(MODULES));
        let mut words = vec![0; WORDS];
        assert_eq!(resolve_into(&set, &request, &mut words), Ok(MODULES - 1));
        let resolved = resolve(&set, &request).unwrap();
        let c = &resolved.configuration;
        assert_eq!(resolved.count, MODULES - 1);
        assert!(c.words()[..] == words && Configuration::from_words(words.try_into().unwrap()) == *c);
        assert_eq!(c.members().collect::<Vec<_>>(), (0..MODULES - 1).collect::<Vec<_>>());
        assert_eq!((c.len(), c.is_empty()), (MODULES - 1, false));
        assert!(c.contains(BOUND) && c.reads(BOUND, LATE) && c.reads_unnamed(1));

        let may = |asker: &[u8], target: &[u8], package: &[u8]| {
            let verdict = |kind| check_access(&set, &request, c, kind, asker, target, package).unwrap();
            (verdict(AccessKind::Access), verdict(AccessKind::Reflection))
        };
        assert_eq!(may(b"m1", b"java.base", b"java/lang"), (Verdict::Allowed, Verdict::NotOpened));
        assert_eq!(may(b"m0", b"java.base", b"java/util"), (Verdict::Allowed, Verdict::NotOpened));
        assert_eq!(may(b"m0", b"java.base", b"java/lang"), (Verdict::Allowed, Verdict::Allowed));
        assert_eq!(may(b"m0", b"late", b"q/0"), (Verdict::NotReadable, Verdict::NotReadable));
        assert_eq!(may(b"m0", b"m506", b"p/506"), (Verdict::NotExported, Verdict::NotOpened));
        assert_eq!(can_read(&set, c, b"m0", b"m507"), Ok(true));
        assert_eq!(can_read(&set, c, b"m507", b"m0"), Ok(false));
        assert_eq!(find_module_for_package(&set, c, b"q/3000"), Ok(Some(BOUND)));

        let row = readers_of(&set, c, b"late").unwrap();
        assert_eq!(row.positions().collect::<Vec<_>>(), [BOUND]);
        assert!(row.contains(BOUND) && !row.contains_unnamed() && !row.is_empty());
        let row = transitive_reads(&set, c, b"m0").unwrap();
        assert_eq!((row.len(), row.contains_unnamed()), (CHAIN, true));

        assert_eq!(module_names(&set).count(), MODULES);
        assert_eq!(modules(&set).filter(|m| m.hidden_by.is_some()).count(), 1);
        assert_eq!(hidden_messages(&set).collect::<Vec<_>>(), ["m0 of place 2 is hidden by place 1"]);
    });
}

#[test]
fn refusals() {
    in_small_stack(|| {
        let (set, request) = (set(), request());
        let end = records(&set).find(|r| r.body.ends_with(&name("q/0"))).unwrap().offset;
        let set = [&set[..end], &record(b"PK", &name("p/9"))].concat();
        let refusal = resolve(&set, &request).unwrap_err();
        assert_eq!((refusal.number(), refusal), (7, Refusal::SplitPackage { start: end + 5, len: 3, owner: 10, second: BOUND }));
        assert_eq!(refusal.message(&set, &request), "modules m9 and bound both have package p/9");
    });
}

fn utf8(text: &str) -> Vec<u8> {
    [&(text.len() as u16).to_be_bytes()[..], text.as_bytes()].concat()
}

/// The class file of a module with this many packages, more constants than the smaller table of the class reader holds.
fn class_file(packages: u16) -> Vec<u8> {
    let texts = ["module-info", "Module", "ModulePackages", "many"].map(|t| [vec![1], utf8(t)].concat());
    let mut pool = [texts.concat(), vec![7, 0, 1, 19, 0, 4]].concat();
    let mut indices = packages.to_be_bytes().to_vec();
    for i in 0..packages {
        let at = 7 + 2 * i;
        pool.extend([&[1], &utf8(&format!("p{i}"))[..], &[20], &at.to_be_bytes()].concat());
        indices.extend((at + 1).to_be_bytes());
    }
    let attribute = |name, content: &[u8]| [&[0, name], &(content.len() as u32).to_be_bytes()[..], content].concat();
    let head = [&[0xCA, 0xFE, 0xBA, 0xBE, 0, 0, 0, 61][..], &(7 + 2 * packages).to_be_bytes()].concat();
    let middle = vec![0x80, 0, 0, 5, 0, 0, 0, 0, 0, 0, 0, 0, 0, 2];
    let module = attribute(2, &[&[0, 6][..], &[0; 14]].concat());
    [head, pool, middle, module, attribute(3, &indices)].concat()
}

/// Packages in byte order.
fn in_order(count: usize) -> Vec<String> {
    let mut packages: Vec<_> = (0..count).map(|i| format!("p{i}")).collect();
    packages.sort();
    packages
}

#[test]
fn class_reader() {
    in_small_stack(|| {
        let file = class_file(4_800);
        assert!(file.len() > 60_000 && file.len() <= 65_535, "{}", file.len());
        let expected = [module("many"), in_order(4_800).iter().flat_map(|p| package(p)).collect()].concat();
        assert_eq!(from_class_file_vec(&file).unwrap(), expected);
        let mut out = vec![0; expected.len()];
        assert_eq!(from_class_file(&file, &mut out), Ok(expected.len()));
        assert_eq!(out, expected);
    });
}

#[test]
fn jar_reader() {
    in_small_stack(|| {
        let packages: Vec<u8> = (0..6_500).rev().flat_map(|i| package(&format!("p{i}"))).collect();
        assert!(packages.len() > 60_000 && packages.len() <= 65_535, "{}", packages.len());
        let names = in_order(6_500);
        let head = [module_with("many", 0, true, ""), requires("java.base", 0x8000)].concat();
        let all = |write: &dyn Fn(&str) -> Vec<u8>| names.iter().flat_map(|p| write(p)).collect::<Vec<_>>();
        let expected = [head, all(&|p| exports(p, &[])), all(&|p| opens(p, &[])), all(&|p| package(p))].concat();
        assert_eq!(automatic_from_jar_name_vec(b"many-1.jar", None, &packages).unwrap(), expected);
        let mut out = vec![0; expected.len()];
        assert_eq!(automatic_from_jar_name(b"1.jar", Some(b"many"), &packages, &mut out), Ok(expected.len()));
        assert_eq!(out, expected);
    });
}

/// No public function of the crate is missing above.
#[test]
fn every_function() {
    let here = include_str!("small_stack.rs");
    let part_of_name = |c: char| c.is_alphanumeric() || c == '_';
    let calls = |function: &str| here.match_indices(&format!("{function}(")).any(|(at, _)| !here[..at].ends_with(part_of_name));
    let files = fs::read_dir(concat!(env!("CARGO_MANIFEST_DIR"), "/src")).unwrap().map(|f| f.unwrap().path());
    for file in files.filter(|f| !f.ends_with("raw.rs")) {
        let text = fs::read_to_string(&file).unwrap();
        for function in text.split("pub fn ").skip(1).map(|rest| rest.split(['(', '<']).next().unwrap()) {
            assert!(calls(function), "{function} of {} is not called", file.display());
        }
    }
}
