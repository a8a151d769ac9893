//! Refusals 1 to 3, by hand from document 01 and, for ST, U6 of document 02: each fault stands right behind a part that is good, and
//! its offset is that part's length.
use super::{REQUEST, SET, System, system};
use saqhovune::form::*;

const UNNAMED: &str = "ALL-UNNAMED";

/// A set with this fault behind the good part; a whole module follows.
pub(super) fn set(name: &str, number: u8, good: &[Vec<u8>], fault: &[u8]) -> System {
    let which = if number == 1 { SET } else { 0 };
    let at = good.concat().len();
    system(name, &[good.concat(), fault.to_vec(), module("after")], &[]).refused(number, which, at)
}

/// A set that ends with the fault.
pub(super) fn cut(name: &str, good: &[Vec<u8>], fault: &[u8]) -> System {
    system(name, &[good.concat(), fault.to_vec()], &[]).refused(1, SET, good.concat().len())
}

/// A request with this fault behind the good part.
pub(super) fn request(name: &str, good: &[Vec<u8>], fault: &[u8]) -> System {
    let at = good.concat().len();
    system(name, &[module("java.base")], &[good.concat(), fault.to_vec(), root("java.base")]).refused(1, REQUEST, at)
}

fn cut_request(name: &str, good: &[Vec<u8>], fault: &[u8]) -> System {
    system(name, &[module("java.base")], &[good.concat(), fault.to_vec()]).refused(1, REQUEST, good.concat().len())
}

fn without_last(record: Vec<u8>) -> Vec<u8> {
    record[..record.len() - 1].to_vec()
}

/// The record with one byte more in its body.
pub(super) fn longer(r: Vec<u8>) -> Vec<u8> {
    record(&[r[0], r[1]], &[&r[4..], &[0]].concat())
}

/// The record with one byte less in its body, and so a body that ends too early.
fn shorter(r: Vec<u8>) -> Vec<u8> {
    record(&[r[0], r[1]], &r[4..r.len() - 1])
}

/// Each kind of record of a set that belongs to a module.
pub(super) fn of_module() -> Vec<Vec<u8>> {
    vec![
        requires("a", 0),
        exports("p", &["a"]),
        opens("p", &["a"]),
        uses("s"),
        provides("s", &["i"]),
        package("p"),
        main_class("M"),
    ]
}

fn of_request() -> Vec<Vec<u8>> {
    vec![root("a"), limit(&["a"]), add_read("a", "b"), add_export("a", "p", "b"), add_open("a", "p", "b")]
}

pub(super) fn mark(record: &[u8]) -> String {
    String::from_utf8_lossy(&record[..2]).into()
}

fn kinds() -> Vec<System> {
    let base = || vec![module("java.base")];
    let mut all = Vec::new();
    for r in of_module() {
        let m = mark(&r);
        all.push(set(&format!("{m} before any MO is malformed"), 1, &[], &r));
        all.push(set(&format!("{m} with a byte left over is malformed"), 1, &base(), &longer(r.clone())));
        all.push(set(&format!("{m} with a name past its body is malformed"), 1, &base(), &shorter(r.clone())));
        all.push(request(&format!("{m} in a request is malformed"), &[root("java.base")], &r));
    }
    for r in of_request() {
        let m = mark(&r);
        all.push(set(&format!("{m} in a set is malformed"), 1, &base(), &r));
        all.push(request(&format!("{m} of a request with a byte left over is malformed"), &[], &longer(r.clone())));
        all.push(request(&format!("{m} of a request with a name past its body is malformed"), &[], &shorter(r)));
    }
    all
}

fn headers() -> Vec<System> {
    let base = || vec![module("java.base"), package("p")];
    vec![
        cut("one byte of a header is malformed", &base(), b"P"),
        cut("two bytes of a header are malformed", &base(), b"PK"),
        cut("three bytes of a header are malformed", &base(), b"PK\0"),
        cut("one byte alone is malformed at 0", &[], b"M"),
        cut("an MO past the end is malformed", &base(), &without_last(module("a"))),
        cut("a PK past the end is malformed", &base(), &without_last(package("q"))),
        set("an empty body is malformed", 1, &base(), &record(b"PK", b"")),
        set("a mark that is not known is malformed", 1, &base(), &record(b"XX", &[1, b'a'])),
        set("a mark in small letters is malformed", 1, &base(), &record(b"pk", &[1, b'a'])),
        set("a mark of zeros is malformed", 1, &base(), &[0, 0, 0, 0]),
        cut_request("one byte of a request is malformed", &[root("java.base")], b"R"),
        cut_request("three bytes of a request are malformed", &[root("java.base")], b"RT\0"),
        cut_request("a root past the end is malformed", &[root("java.base")], &without_last(root("a"))),
        request("an MO in a request is malformed", &[root("java.base")], &module("a")),
        request("a mark that a request does not know is malformed", &[limit(&[])], &record(b"XX", b"")),
    ]
}

fn names() -> Vec<System> {
    let base = || vec![module("java.base")];
    let mo = |automatic: u8, rest: &[u8]| record(b"MO", &[&[0, 0, automatic], rest].concat());
    let pk = |name: &[u8]| record(b"PK", &[&[name.len() as u8], name].concat());
    vec![
        set("an MO with automatic 2 is malformed", 1, &base(), &mo(2, b"\x01a\0")),
        set("an MO with automatic 255 is malformed", 1, &base(), &mo(255, b"\x01a\0")),
        set("an MO with a name of length 0 is malformed", 1, &base(), &mo(0, b"\0\0")),
        set("an MO without a version's length is malformed", 1, &base(), &mo(0, b"\x01a")),
        set("an MO with a version past its body is malformed", 1, &base(), &mo(0, b"\x01a\x02b")),
        set("an MO with a byte behind its version is malformed", 1, &base(), &mo(0, b"\x01a\0\0")),
        set("an MO with a space in its name is malformed", 1, &base(), &mo(0, b"\x02a \0")),
        set("an MO with a space in its version is malformed", 1, &base(), &mo(0, b"\x01a\x01 ")),
        set("an MO of two bytes is malformed", 1, &base(), &record(b"MO", b"\0\0")),
        set("a name of length 0 is malformed", 1, &base(), &pk(b"")),
        set("a name with byte 0x20 is malformed", 1, &base(), &pk(b"a b")),
        set("a name with byte 0x7F is malformed", 1, &base(), &pk(b"a\x7f")),
        set("a name with byte 0x80 is malformed", 1, &base(), &pk(b"\x80")),
        set("a name with byte 0 is malformed", 1, &base(), &pk(b"a\0")),
        set("a requirement with a space in its version is malformed", 1, &base(), &requires_with("a", 0, " ")),
        set("a target of length 0 is malformed", 1, &base(), &record(b"EX", b"\x01p\0\x01\0")),
        set("a target with byte 0x7F is malformed", 1, &base(), &record(b"OP", b"\x01p\0\x02\x01a\x01\x7f")),
        set("a list of fewer names than its count is malformed", 1, &base(), &record(b"PV", b"\x01s\0\x02\x01i")),
        set("a list of more names than its count is malformed", 1, &base(), &record(b"PV", b"\x01s\0\x01\x01i\x01j")),
        set("a list with half a count is malformed", 1, &base(), &record(b"EX", b"\x01p\0")),
        request("a root of length 0 is malformed", &[root("java.base")], &record(b"RT", &[0])),
        request("a root with a space is malformed", &[root("java.base")], &root("a b")),
        request("a permitted name of length 0 is malformed", &[], &record(b"LM", b"\0\x01\0")),
        request("a list of permitted names without its count is malformed", &[], &record(b"LM", b"")),
        request("a read edge without target is malformed", &[], &record(b"AR", b"\x01a")),
        request("an added export with a target of length 0 is malformed", &[], &record(b"AE", b"\x01a\x01p\0")),
        request("an added opening without target is malformed", &[], &record(b"AO", b"\x01a\x01p")),
    ]
}

fn rules() -> Vec<System> {
    let base = || vec![module("java.base")];
    let a = || vec![module("java.base"), module("a")];
    let main = || vec![module("java.base"), main_class("M")];
    vec![
        set("a requirement of ALL-UNNAMED is malformed", 1, &base(), &requires(UNNAMED, 0)),
        set("a static requirement of ALL-UNNAMED is malformed", 1, &base(), &requires(UNNAMED, STATIC)),
        set("a second MC of a module is malformed", 1, &main(), &main_class("N")),
        set("a second MC that is the same is malformed", 1, &main(), &main_class("M")),
        request("a second LM is malformed", &[limit(&["a"])], &limit(&["b"])),
        request("a second LM that is the same is malformed", &[limit(&[]), root("a")], &limit(&[])),
        request("a second ST is malformed", &[with_static(), root("a")], &with_static()),
        request("a second ST right behind the first is malformed", &[with_static()], &with_static()),
        request("a second ST with a byte in its body is malformed", &[with_static()], &longer(with_static())),
        request("ST with a byte in its body is malformed", &[root("a")], &longer(with_static())),
        request("ST with a name in its body is malformed", &[], &record(b"ST", &name("a"))),
        request("a second ST before a second LM", &[with_static(), limit(&[])], &[with_static(), limit(&[])].concat()),
        request("a second LM before a second ST", &[with_static(), limit(&[])], &[limit(&[]), with_static()].concat()),
        cut_request("an ST past the end is malformed", &[root("a")], b"ST\0\x01"),
        cut_request("three bytes of an ST are malformed", &[root("a")], b"ST\0"),
        set("ST in a set is malformed", 1, &base(), &with_static()),
        set("ST in front of a set is malformed", 1, &[], &with_static()),
        set("ST behind PL is malformed", 1, &[module("java.base"), place()], &with_static()),
        set("ST with a byte in a set is malformed", 1, &base(), &longer(with_static())),
        set("a module name seen before is refused with 3", 3, &a(), &module("a")),
        set("java.base twice is refused with 3", 3, &a(), &module("java.base")),
        set("a name seen before with other flags is refused with 3", 3, &a(), &module_with("a", OPEN, true, "1")),
        set("a module ALL-UNNAMED is refused with 3", 3, &base(), &module(UNNAMED)),
        set("an automatic module ALL-UNNAMED is refused with 3", 3, &[], &module_with(UNNAMED, 0, true, "")),
    ]
}

fn order() -> Vec<System> {
    let base = module("java.base");
    let many = |n: usize| (0..n).map(|i| module(&format!("m{i}"))).collect::<Vec<_>>();
    let malformed = record(b"XX", b"");
    let twice = [base.clone(), base.clone()].concat();
    let too_long = [root("java.base").repeat(4_681), b"RT".to_vec()].concat();
    assert_eq!(too_long.len(), 65_536);
    vec![
        system("the first of two faults counts: 3 before 1", &[twice.clone(), malformed.clone()], &[]).refused(3, 0, base.len()),
        system("the first of two faults counts: 1 before 3", &[base.clone(), malformed.clone(), base.clone()], &[]).refused(
            1,
            SET,
            base.len(),
        ),
        system("at one MO 1 comes before 3", &[base.clone(), longer(base.clone())], &[]).refused(1, SET, base.len()),
        system("a fault of the set comes before one of the request", &[base.clone(), malformed.clone()], &[b"R".to_vec()])
            .refused(1, SET, base.len()),
        system("3 in the set comes before a malformed request", std::slice::from_ref(&twice), &[b"R".to_vec()]).refused(
            3,
            0,
            base.len(),
        ),
        system("a malformed request comes before 6", &[], &[b"R".to_vec()]).refused(1, REQUEST, 0),
        system("a malformed request comes before 5", std::slice::from_ref(&base), &[root("x"), b"R".to_vec()]).refused(
            1,
            REQUEST,
            root("x").len(),
        ),
        set("the 513th module is refused with 2", 2, &many(512), &module("m512")),
        set("at the 513th MO 1 comes before 2", 1, &many(512), &longer(module("m512"))),
        set("at the 513th MO 2 comes before 3", 2, &many(512), &module("m0")),
        set("a record of the 512th module is looked at before the 513th", 1, &many(512), &malformed),
        system("a request of 65,536 bytes comes before a malformed set", &[b"M".to_vec()], &[too_long]).refused(2, 0, 0),
    ]
}

pub fn systems() -> Vec<System> {
    [headers(), names(), kinds(), rules(), order()].into_iter().flatten().collect()
}
