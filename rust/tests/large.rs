//! Sets that take the library's other paths: more services in one round than its table holds, and packages with one hash, which its
//! filter of packages lets pass.
mod alike;

use alike::alike;
use saqhovune::form::*;
use saqhovune::{resolve, Refusal};

/// A name of two bytes that tells `i`, in byte order.
fn short(i: usize) -> String {
    assert!(i < 94 * 94);
    String::from_utf8(vec![b'!' + (i / 94) as u8, b'!' + (i % 94) as u8]).unwrap()
}

/// How many modules start.
fn started(set: &[u8], request: &[u8]) -> usize {
    resolve(set, request).expect("it is accepted").count
}

#[test]
fn many_services() {
    let used = |i: usize| uses(&short(i));
    let providers = [module("a"), provides(&short(8_250), &[]), module("b"), provides("nobody", &[])].concat();
    let set = |count: usize| [module("java.base"), (0..count).flat_map(used).collect(), providers.clone()].concat();
    assert_eq!(started(&set(8_100), &[]), 1);
    assert_eq!(started(&set(8_251), &[]), 2);
    assert_eq!(started(&set(8_500), &[]), 2);
}

#[test]
fn new_services_only() {
    // a is bound in the first round for s, c in the second for t, which a uses; nobody uses u.
    let set = [
        module("java.base"),
        uses("s"),
        module("c"),
        provides("t", &[]),
        module("a"),
        provides("s", &[]),
        uses("t"),
        module("d"),
        provides("u", &[]),
    ];
    assert_eq!(started(&set.concat(), &[]), 3);
}

/// Each module but java.base is bound in a round of its own.
#[test]
fn many_rounds() {
    let bound = |i: usize| [module(&format!("m{i}")), provides(&short(i), &[]), uses(&short(i - 1))].concat();
    let set = [(1..512).flat_map(bound).collect(), module("java.base"), uses(&short(511))].concat();
    assert_eq!(started(&set, &[]), 512);
    let without = |k: usize| (1..512).filter(|i| *i != k).flat_map(bound).collect::<Vec<_>>();
    assert_eq!(started(&[without(200), module("java.base"), uses(&short(511))].concat(), &[]), 512 - 200);
}

#[test]
fn packages_with_one_hash() {
    let packages = |from: usize, to: usize| (from..to).rev().flat_map(|i| package(&alike(i))).collect::<Vec<_>>();
    let set = |second: Vec<u8>| [module("java.base"), module("a"), packages(0, 400), module("b"), second].concat();
    let request = [root("a"), root("b")].concat();
    assert_eq!(started(&set(packages(400, 800)), &request), 3);

    let shared = [packages(700, 800), package(&alike(7)), package(&alike(3)), packages(600, 700)].concat();
    let set = set(shared);
    let least = alike(3).min(alike(7));
    let at = set.windows(least.len()).rposition(|w| w == least.as_bytes()).unwrap();
    let refusal = Refusal::SplitPackage { start: at, len: least.len(), owner: 1, second: 2 };
    assert_eq!(resolve(&set, &request).unwrap_err(), refusal);
}

#[test]
fn repeated_packages() {
    let twice = |n: &str| [package(n), package(n)].concat();
    let set = [module("java.base"), module("a"), twice("p"), module("b"), twice("q")].concat();
    assert_eq!(started(&set, &[root("a"), root("b")].concat()), 3);
}
