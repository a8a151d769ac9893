//! Each refusal of a set and a request with its number, its particulars and its message.
use saqhovune::form::*;
use saqhovune::*;

const TOO_FEW: Refusal = Refusal::OutputTooShort { needed: WORDS };

/// The refusal of a resolution into so many words, none of which is written.
fn refused(set: &[u8], request: &[u8], words: usize) -> Refusal {
    let mut words = vec![7; words];
    let refusal = resolve_into(set, request, &mut words).unwrap_err();
    assert!(words.iter().all(|w| *w == 7));
    refusal
}

/// Too few words are told behind 1 to 3, and before all else.
fn of_few_words(refusal: Refusal) -> Refusal {
    if refusal.number() <= 3 {
        refusal
    } else {
        TOO_FEW
    }
}

#[track_caller]
fn is(set: &[u8], request: &[u8], refusal: Refusal, number: u8, message: &str) {
    assert_eq!(refused(set, request, WORDS), refusal);
    assert_eq!(refused(set, request, WORDS + 1), refusal);
    assert_eq!(refused(set, request, WORDS - 1), of_few_words(refusal));
    assert_eq!(refusal.number(), number);
    assert_eq!(refusal.message(set, request), message);
    assert!(!refusal.to_string().is_empty());
    if number <= 3 {
        assert_eq!(check(set, request), Err(refusal));
        for words in [vec![0u64; WORDS], vec![0; WORDS - 1]] {
            for kind in [AccessKind::Access, AccessKind::Reflection] {
                assert_eq!(check_access(set, request, &words, kind, b"a", b"a", b"p"), Err(refusal));
            }
            if check(set, &[]) == Err(refusal) {
                assert_eq!(can_read(set, &words, b"a", b"a"), Err(refusal));
                assert_eq!(find_module_for_package(set, &words, b"p"), Err(refusal));
                assert_eq!(readers_of(set, &words, b"a"), Err(refusal));
                assert_eq!(transitive_reads(set, &words, b"a"), Err(refusal));
            }
        }
    }
}

fn base() -> Vec<u8> {
    module("java.base")
}

#[test]
fn malformed() {
    let set = [base(), b"XX\0\0".to_vec()].concat();
    let refusal = Refusal::Malformed { input: Input::Set, offset: 18 };
    is(&set, &[], refusal, 1, "the set's record at offset 18 is malformed");

    let request = [root("a"), limit(&[]), limit(&[])].concat();
    let refusal = Refusal::Malformed { input: Input::Request, offset: 12 };
    is(&base(), &request, refusal, 1, "the request's record at offset 12 is malformed");
}

#[test]
fn malformed_static() {
    for fault in [with_static(), record(b"ST", b"\0")] {
        let request = [root("a"), with_static(), fault].concat();
        let refusal = Refusal::Malformed { input: Input::Request, offset: 10 };
        is(&base(), &request, refusal, 1, "the request's record at offset 10 is malformed");
    }
    let refusal = Refusal::Malformed { input: Input::Request, offset: 6 };
    is(&base(), &[root("a"), record(b"ST", b"\0")].concat(), refusal, 1, "the request's record at offset 6 is malformed");
    let refusal = Refusal::Malformed { input: Input::Set, offset: 18 };
    is(&[base(), with_static()].concat(), &[], refusal, 1, "the set's record at offset 18 is malformed");
}

#[test]
fn too_large() {
    let long = vec![0; 65_536];
    let refusal = Refusal::TooLarge { offset: 0 };
    is(&long, &[], refusal, 2, "the set is longer than 65,535 bytes");
    is(b"?", &long, refusal, 2, "the request is longer than 65,535 bytes");

    let many: Vec<u8> = (0..512).flat_map(|i| module(&format!("m{i}"))).collect();
    assert_eq!(check(&many, &[]), Ok(512));
    let set = [many.clone(), module("m512")].concat();
    let message = format!("module 513 at offset {}: a set has at most 512 modules", many.len());
    is(&set, &[], Refusal::TooLarge { offset: many.len() }, 2, &message);
}

/// Modules in the second place, with the names of some before, count too.
#[test]
fn hidden_modules_count() {
    let numbered = |i: usize| module(&format!("m{i}"));
    let good: Vec<u8> = [(0..400).flat_map(numbered).collect(), place(), (0..112).flat_map(numbered).collect()].concat();
    assert_eq!(check(&good, &[]), Ok(512));
    for last in [112, 600, 111] {
        let set = [good.clone(), numbered(last)].concat();
        let message = format!("module 513 at offset {}: a set has at most 512 modules", good.len());
        is(&set, &[], Refusal::TooLarge { offset: good.len() }, 2, &message);
    }
}

#[test]
fn ninth_place() {
    let message = "the set has more than eight places, the ninth at offset 32";
    let eight = place().repeat(8);
    assert_eq!(check(&eight, &[]), Ok(0));
    is(&place().repeat(9), &[], Refusal::TooLarge { offset: 32 }, 2, message);
    is(&[eight.clone(), record(b"PL", b"\0")].concat(), &[], malformed_at(32), 1, "the set's record at offset 32 is malformed");

    let first = [base(), place().repeat(7)].concat();
    assert_eq!(check(&first, &[]), Ok(1));
    let set = [first, place(), base(), base()].concat();
    is(&set, &[], Refusal::TooLarge { offset: 46 }, 2, "the set has more than eight places, the ninth at offset 46");
}

fn malformed_at(offset: usize) -> Refusal {
    Refusal::Malformed { input: Input::Set, offset }
}

/// Behind PL only MO, PL and the end; and no body.
#[test]
fn malformed_places() {
    let of_module =
        [requires("a", 0), exports("p", &[]), opens("p", &[]), uses("s"), provides("s", &[]), package("p"), main_class("M")];
    let others = [root("a"), limit(&[]), record(b"XX", b""), b"PL".to_vec(), b"PL\0".to_vec(), b"MO\0\x01".to_vec()];
    let bodies = [record(b"PL", b"\0"), record(b"PL", &name("a")), b"PL\0\x01".to_vec(), b"pl\0\0".to_vec()];
    for start in [vec![], base(), [base(), package("p"), place(), module("a")].concat()] {
        let good = [start.clone(), place()].concat();
        assert!(check(&good, &[]).is_ok());
        for fault in of_module.iter().chain(&others).chain(&bodies) {
            let message = format!("the set's record at offset {} is malformed", good.len());
            is(&[&good[..], fault].concat(), &[], malformed_at(good.len()), 1, &message);
        }
        for fault in &bodies {
            let message = format!("the set's record at offset {} is malformed", start.len());
            is(&[&start[..], fault].concat(), &[], malformed_at(start.len()), 1, &message);
        }
    }
    let request = [root("a"), place()].concat();
    let refusal = Refusal::Malformed { input: Input::Request, offset: 6 };
    is(&base(), &request, refusal, 1, "the request's record at offset 6 is malformed");
}

#[test]
fn repeated_in_a_place() {
    let set = [module("a"), place(), module("a"), module("a")].concat();
    is(&set, &[], Refusal::Repeated { offset: 24 }, 3, "module a is in place 2 twice, the second time at offset 24");
    let set = [place(), module("a"), module("a"), place()].concat();
    is(&set, &[], Refusal::Repeated { offset: 14 }, 3, "module a is in place 1 twice, the second time at offset 14");
    assert_eq!(check(&[module("a"), place(), module("b"), place(), module("a")].concat(), &[]), Ok(3));

    let set = [base(), place(), module("ALL-UNNAMED")].concat();
    let message = "the module at offset 22 of the set has the name ALL-UNNAMED, which no module may have";
    is(&set, &[], Refusal::Repeated { offset: 22 }, 3, message);
}

#[test]
fn repeated() {
    let set = [base(), module("a"), module("a")].concat();
    let refusal = Refusal::Repeated { offset: 28 };
    is(&set, &[], refusal, 3, "module a is in the set twice, the second time at offset 28");

    let set = [base(), module("ALL-UNNAMED")].concat();
    let message = "the module at offset 18 of the set has the name ALL-UNNAMED, which no module may have";
    is(&set, &[], Refusal::Repeated { offset: 18 }, 3, message);
}

#[test]
fn absent() {
    let refusal = Refusal::ModuleNotFound { input: Input::Request, start: 5, len: 1 };
    is(&base(), &root("a"), refusal, 5, "the request's root a is not in the set");
    assert_eq!(resolve(&base(), &[root("a"), limit(&[])].concat()).unwrap().count, 1);

    let foot = module("page.foot");
    let set = [base(), foot.clone(), uses("s"), requires("page.frames", 0), module("z")].concat();
    let start = base().len() + foot.len() + uses("s").len() + 7;
    let refusal = Refusal::ModuleNotFound { input: Input::Set, start, len: 11 };
    let message = "module page.foot requires page.frames, which is not in the set";
    is(&set, &root("page.foot"), refusal, 5, message);
}

/// Where the set has several places the message tells which has the module.
#[test]
fn absent_and_split_of_places() {
    let foot = [module("page.foot"), requires("page.frames", 0)].concat();
    let front = [base(), place()].concat();
    let set = [front.clone(), foot.clone(), place(), module("page.foot")].concat();
    let refusal = Refusal::ModuleNotFound { input: Input::Set, start: front.len() + module("page.foot").len() + 7, len: 11 };
    let message = "module page.foot of place 2 requires page.frames, which is not in the set";
    is(&set, &root("page.foot"), refusal, 5, message);
    let set = [place(), base(), foot].concat();
    let refusal = Refusal::ModuleNotFound { input: Input::Set, start: front.len() + module("page.foot").len() + 7, len: 11 };
    is(&set, &root("page.foot"), refusal, 5, "module page.foot requires page.frames, which is not in the set");

    let hidden = [module("a"), package("p")].concat();
    let set = [base(), hidden.clone(), place(), hidden, module("b"), package("p")].concat();
    let refusal = Refusal::SplitPackage { start: set.len() - 1, len: 1, owner: 1, second: 3 };
    let message = "modules a of place 1 and b of place 2 both have package p";
    is(&set, &[root("a"), root("b")].concat(), refusal, 7, message);
}

#[test]
fn java_base() {
    is(&[], &[], Refusal::JavaBaseNotFound, 6, "module java.base is not in the set");
    is(&module("a"), &root("a"), Refusal::JavaBaseNotFound, 6, "module java.base is not in the set");
}

#[test]
fn split() {
    let set = [base(), module("a"), package("p"), module("b"), package("o"), package("p")].concat();
    let refusal = Refusal::SplitPackage { start: set.len() - 1, len: 1, owner: 1, second: 2 };
    is(&set, &[root("a"), root("b")].concat(), refusal, 7, "modules a and b both have package p");
    assert_eq!(resolve(&set, &root("b")).unwrap().count, 2);
}

/// A message for inputs that the refusal is not of has no names, and is one all the same.
#[test]
fn other_inputs() {
    let refusals = [
        Refusal::TooLarge { offset: 3 },
        Refusal::Repeated { offset: 3 },
        Refusal::ModuleNotFound { input: Input::Set, start: usize::MAX, len: 2 },
        Refusal::ModuleNotFound { input: Input::Request, start: 1, len: usize::MAX },
        Refusal::SplitPackage { start: 0, len: 1, owner: 5, second: 6 },
    ];
    for refusal in refusals {
        for set in [&b""[..], b"MO", b"MO\0\0", b"MO\0\x04\0\0\0\x09"] {
            assert_eq!(refusal.message(set, b""), refusal.to_string());
        }
    }
}

/// That of a reader is not taken for one of the set that is passed.
#[test]
fn too_large_without_a_place() {
    let refusal = Refusal::TooLarge { offset: 0 };
    assert_eq!(refusal.message(&base(), &[]), refusal.to_string());
    assert_eq!(refusal.message(&place(), &[]), refusal.to_string());
}

#[test]
fn is_an_error() {
    let error: Box<dyn std::error::Error> = Box::new(Refusal::JavaBaseNotFound);
    assert_eq!(error.to_string(), "module java.base is not in the set");
}
