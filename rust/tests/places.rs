//! Places: hidden modules have a position and are nothing else.
use saqhovune::form::*;
use saqhovune::*;

/// Positions: 0 java.base, 1 a; in the second place 2 a, hidden, and 3 b; in the third, 4 java.base, hidden, and 5 c.
fn set() -> Vec<u8> {
    [
        module("java.base"),
        package("java/lang"),
        uses("s"),
        module("a"),
        requires("b", 0),
        package("a/p"),
        exports("a/p", &[]),
        place(),
        module_with("a", OPEN, true, "2"),
        requires("gone", 0),
        requires("c", TRANSITIVE),
        package("b/p"),
        package("old/p"),
        exports("old/p", &[]),
        provides("s", &[]),
        module("b"),
        package("b/p"),
        place(),
        module("java.base"),
        package("b/p"),
        uses("t"),
        module("c"),
        provides("t", &[]),
        package("c/p"),
    ]
    .concat()
}

/// ALL-UNNAMED as the target of an edge: the bit behind those of the positions.
const UNNAMED: usize = 512;

/// The configuration of these members and edges.
fn configured(members: &[usize], edges: &[(usize, usize)]) -> Configuration {
    let mut words = vec![0; WORDS];
    let mut add = |at: usize, i: usize| words[at + i / 64] |= 1 << (i % 64);
    members.iter().for_each(|&i| add(0, i));
    edges.iter().for_each(|&(i, j)| add(8 + 9 * i, j));
    Configuration::from_words(words.try_into().unwrap())
}

fn readers(c: &Configuration, name: &str) -> Vec<usize> {
    readers_of(&set(), c, name.as_bytes()).unwrap().positions().collect()
}

fn reached(c: &Configuration, name: &str) -> Vec<usize> {
    transitive_reads(&set(), c, name.as_bytes()).unwrap().positions().collect()
}

fn owner(c: &Configuration, package: &str) -> Option<usize> {
    find_module_for_package(&set(), c, package.as_bytes()).unwrap()
}

fn verdicts(c: &Configuration, asker: &str, target: &str, package: &str) -> (Verdict, Verdict) {
    let (set, [a, t, p]) = (set(), [asker, target, package].map(str::as_bytes));
    [AccessKind::Access, AccessKind::Reflection].map(|kind| check_access(&set, &[], c, kind, a, t, p).unwrap()).into()
}

#[test]
fn listed() {
    let set = set();
    let listed: Vec<_> = modules(&set).map(|m| (m.position, m.place, String::from_utf8_lossy(m.name), m.hidden_by)).collect();
    let expected = [
        (0, 1, "java.base".into(), None),
        (1, 1, "a".into(), None),
        (2, 2, "a".into(), Some(1)),
        (3, 2, "b".into(), None),
        (4, 3, "java.base".into(), Some(1)),
        (5, 3, "c".into(), None),
    ];
    assert_eq!(listed, expected);
    assert_eq!(module_names(&set).collect::<Vec<_>>(), modules(&set).map(|m| m.name).collect::<Vec<_>>());
    let messages: Vec<String> = hidden_messages(&set).collect();
    assert_eq!(messages, ["a of place 2 is hidden by place 1", "java.base of place 3 is hidden by place 1"]);
    assert_eq!(modules(&set).last().unwrap().to_string(), "c of place 3");
    assert_eq!(check(&set, &[]), Ok(6));
}

/// Places count from 1, whether the first has a PL or not, and empty ones count.
#[test]
fn numbered() {
    let numbers = |set: &[Vec<u8>]| modules(&set.concat()).map(|m| (m.place, m.hidden_by)).collect::<Vec<_>>();
    assert_eq!(numbers(&[module("a"), place(), module("a")]), [(1, None), (2, Some(1))]);
    assert_eq!(numbers(&[place(), module("a"), place(), module("a")]), [(1, None), (2, Some(1))]);
    assert_eq!(numbers(&[place(), place(), module("a"), place(), place(), module("a")]), [(2, None), (4, Some(2))]);
    assert_eq!(numbers(&[module("a"), place(), module("b"), place(), module("a")]), [(1, None), (2, None), (3, Some(1))]);
    assert_eq!(numbers(&[module("b"), place(), module("a"), place(), module("a")]), [(1, None), (2, None), (3, Some(2))]);
    assert_eq!(numbers(&[place(), place()]), []);
    assert_eq!(hidden_messages(&[]).count(), 0);
}

/// The hidden a requires an absent module, and has b's package: neither refuses.
#[test]
fn resolved() {
    let request = [root("a"), add_read("a", "ALL-UNNAMED"), add_read("b", "a")].concat();
    let r = resolve(&set(), &request).unwrap();
    let c = &r.configuration;
    assert_eq!((r.count, c.members().collect::<Vec<_>>()), (3, vec![0, 1, 3]));
    let edges: Vec<_> = (0..512).flat_map(|i| (0..512).map(move |j| (i, j))).filter(|&(i, j)| c.reads(i, j)).collect();
    assert_eq!(edges, [(1, 0), (1, 3), (3, 0), (3, 1)]);
    assert_eq!((0..512).filter(|&i| c.reads_unnamed(i)).collect::<Vec<_>>(), [1]);
    assert_eq!(["java/lang", "a/p", "b/p", "old/p"].map(|p| owner(c, p)), [Some(0), Some(1), Some(3), None]);
}

/// Roots, requirements and permitted names name the first module of a name.
#[test]
fn the_first_counts() {
    let one = [module("java.base"), module("a"), requires("b", 0), module("b")].concat();
    let other = [place(), module("a"), requires("c", 0), module("c")].concat();
    let resolved = |set: &[&[u8]]| resolve(&set.concat(), &root("a")).unwrap().configuration.members().collect::<Vec<_>>();
    assert_eq!(resolved(&[&one, &other]), [0, 1, 2]);
    assert_eq!(resolved(&[&other, &place(), &one]), [0, 1, 2]);
    assert_eq!(resolved(&[&place(), &one, &place(), &place(), &one]), [0, 1, 2]);
}

#[test]
fn hidden_services() {
    let base = [module("java.base"), uses("s")].concat();
    let hidden = [place(), module("d"), provides("s", &[])].concat();
    let count = |set: &[&[u8]]| resolve(&set.concat(), &[]).unwrap().count;
    assert_eq!(count(&[&base, &hidden]), 2);
    assert_eq!(count(&[&base, &module("d"), &hidden]), 1);
    // use by a hidden module binds nothing
    let provider = [module("d"), provides("t", &[])].concat();
    assert_eq!(count(&[&module("java.base"), &provider, &place(), &module("java.base"), &uses("t")]), 1);
}

#[test]
fn automatic() {
    let set =
        [module("java.base"), module_with("a", 0, true, ""), place(), module("a"), module("java.base"), module("b")].concat();
    let c = resolve(&set, &[root("a"), root("b")].concat()).unwrap().configuration;
    assert_eq!(c.members().collect::<Vec<_>>(), [0, 1, 4]);
    assert_eq!((0..512).filter(|&j| c.reads(1, j)).collect::<Vec<_>>(), [0, 4]);
}

/// With every bit set the hidden positions 2 and 4 are as those past the last module.
#[test]
fn every_bit() {
    let c = Configuration::from_words(vec![u64::MAX; WORDS].try_into().unwrap());
    let visible = [0, 1, 3, 5];
    for name in ["java.base", "a", "b", "c"] {
        assert_eq!(readers(&c, name), visible);
        assert_eq!(reached(&c, name), visible);
    }
    assert_eq!(readers(&c, "ALL-UNNAMED"), visible);
    assert_eq!(["b/p", "old/p", "a/p", "c/p"].map(|p| owner(&c, p)), [Some(3), None, Some(1), Some(5)]);
    // a is neither automatic nor open: only the hidden one is
    assert_eq!(verdicts(&c, "b", "a", "a/p"), (Verdict::Allowed, Verdict::NotOpened));
    assert_eq!(verdicts(&c, "b", "a", "old/p"), (Verdict::NotExported, Verdict::NotOpened));
    assert_eq!(verdicts(&c, "ALL-UNNAMED", "a", "old/p"), (Verdict::NotExported, Verdict::NotOpened));
}

#[test]
fn hidden_members_and_edges() {
    // a hidden member reads nothing and owns nothing
    let c = configured(&[2, 3], &[(2, 3), (2, UNNAMED)]);
    assert_eq!(can_read(&set(), &c, b"a", b"b"), Ok(false));
    assert_eq!((readers(&c, "b"), readers(&c, "ALL-UNNAMED"), reached(&c, "a")), (vec![], vec![], vec![]));
    assert!(!transitive_reads(&set(), &c, b"a").unwrap().contains_unnamed());
    assert_eq!(verdicts(&c, "a", "b", "b/p"), (Verdict::NotReadable, Verdict::NotReadable));
    assert_eq!(owner(&c, "old/p"), None);

    // an edge to a hidden position leads nowhere, and not to the module of that name
    let c = configured(&[1, 2, 3], &[(1, 2), (2, 3), (3, 2)]);
    assert_eq!(can_read(&set(), &c, b"b", b"a"), Ok(false));
    assert_eq!((readers(&c, "a"), reached(&c, "a"), reached(&c, "b")), (vec![], vec![], vec![]));
    assert_eq!(verdicts(&c, "b", "a", "a/p"), (Verdict::NotReadable, Verdict::NotReadable));

    // the target is not a member, whatever its hidden namesake is
    let c = configured(&[2, 3], &[(3, 1)]);
    assert_eq!(can_read(&set(), &c, b"b", b"a"), Ok(true));
    assert_eq!(verdicts(&c, "b", "a", "a/p"), (Verdict::NotExported, Verdict::NotOpened));
    assert_eq!(verdicts(&c, "ALL-UNNAMED", "a", "a/p"), (Verdict::NotExported, Verdict::NotOpened));
}
