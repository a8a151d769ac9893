//! Resolution and questions, on the listing of document 01.
use saqhovune::form::*;
use saqhovune::*;

fn set() -> Vec<u8> {
    [
        module("java.base"),
        package("java/lang"),
        module("page.core"),
        requires("page.frames", TRANSITIVE),
        uses("page/Reader"),
        module("page.foot"),
        requires("page.frames", 0),
        provides("page/Reader", &[]),
        package("page/foot"),
        module("page.frames"),
        package("page/frame"),
        exports("page/frame", &["page.foot"]),
    ]
    .concat()
}

fn resolved() -> Configuration {
    resolve(&set(), &root("page.core")).unwrap().configuration
}

fn names(row: Row) -> Vec<String> {
    let set = set();
    let all: Vec<&[u8]> = module_names(&set).collect();
    row.positions().map(|i| String::from_utf8_lossy(all[i]).into_owned()).collect()
}

#[test]
fn listing() {
    let set = set();
    let names: Vec<&[u8]> = module_names(&set).collect();
    assert_eq!(names, [b"java.base".as_slice(), b"page.core", b"page.foot", b"page.frames"]);
    assert_eq!(check(&set, &root("page.core")), Ok(4));
    let r = resolve(&set, &root("page.core")).unwrap();
    let c = &r.configuration;
    assert_eq!((r.count, c.len(), c.is_empty()), (4, 4, false));
    assert_eq!(c.members().collect::<Vec<_>>(), [0, 1, 2, 3]);
    let edges: Vec<_> = (0..512).flat_map(|i| (0..512).map(move |j| (i, j))).filter(|&(i, j)| c.reads(i, j)).collect();
    assert_eq!(edges, [(1, 0), (1, 3), (2, 0), (2, 3), (3, 0)]);
    assert!((0..512).all(|i| !c.reads_unnamed(i)));
    let owner = |p: &str| find_module_for_package(&set, c, p.as_bytes());
    assert_eq!(owner("java/lang"), Ok(Some(0)));
    assert_eq!(owner("page/foot"), Ok(Some(2)));
    assert_eq!(owner("page/frame"), Ok(Some(3)));
    assert_eq!(owner("page"), Ok(None));
}

#[test]
fn listed_is_not_started() {
    let c = resolve(&set(), &root("page.frames")).unwrap().configuration;
    assert_eq!(c.members().collect::<Vec<_>>(), [0, 3]);
    assert_eq!(find_module_for_package(&set(), &c, b"page/foot"), Ok(None));
}

/// page.proof and page.frames are needed by static requirements alone; that of page.frames passes on.
#[test]
fn static_requirements() {
    let core = [module("page.core"), requires("page.proof", STATIC), requires("page.frames", STATIC | TRANSITIVE)].concat();
    let foot = [module("page.foot"), requires("page.core", 0)].concat();
    let set = [module("java.base"), core, foot, module("page.frames"), module("page.proof")].concat();
    let of = |request: &[Vec<u8>]| {
        let c = resolve(&set, &request.concat()).unwrap().configuration;
        (c.members().collect::<Vec<_>>(), [c.reads(1, 3), c.reads(2, 3), c.reads(1, 4), c.reads(2, 4)])
    };
    assert_eq!(of(&[root("page.core")]), (vec![0, 1], [false; 4]));
    assert_eq!(of(&[root("page.foot")]), (vec![0, 1, 2], [false; 4]));
    assert_eq!(of(&[root("page.foot"), root("page.frames")]), (vec![0, 1, 2, 3], [true, true, false, false]));
    let whole = (vec![0, 1, 2, 3, 4], [true, true, true, false]);
    assert_eq!(of(&[with_static(), root("page.foot")]), whole);
    assert_eq!(of(&[root("page.foot"), with_static()]), whole);
}

#[test]
fn unnamed_and_cycles() {
    let set = [module("java.base"), module("a"), requires("b", TRANSITIVE), module("b"), requires("a", TRANSITIVE)].concat();
    let c = resolve(&set, &[root("a"), add_read("b", "ALL-UNNAMED")].concat()).unwrap().configuration;
    assert!(c.reads(1, 1) && c.reads(2, 2));
    assert_eq!((c.reads_unnamed(1), c.reads_unnamed(2)), (false, true));
    assert!(transitive_reads(&set, &c, b"a").unwrap().contains_unnamed());
    assert_eq!(readers_of(&set, &c, b"ALL-UNNAMED").unwrap().positions().collect::<Vec<_>>(), [2]);
}

#[test]
fn positions_past_the_last() {
    let c = resolved();
    for i in [4, 255, 256, 511, 512, usize::MAX] {
        assert!(!c.contains(i) && !c.reads(i, 0) && !c.reads(0, i) && !c.reads_unnamed(i));
    }
}

#[test]
fn verdicts() {
    let (set, request, c) = (set(), root("page.core"), resolved());
    let verdict = |kind: AccessKind, question: [&str; 3]| {
        let [a, t, p] = question.map(str::as_bytes);
        check_access(&set, &request, &c, kind, a, t, p).unwrap()
    };
    let access = |a: &str, t: &str, p: &str| verdict(AccessKind::Access, [a, t, p]);
    let reflection = |a: &str, t: &str, p: &str| verdict(AccessKind::Reflection, [a, t, p]);
    assert_eq!(access("page.foot", "page.frames", "page/frame"), Verdict::Allowed);
    assert_eq!(access("page.core", "page.frames", "page/frame"), Verdict::NotExported);
    assert_eq!(access("page.frames", "page.core", "page/core"), Verdict::NotReadable);
    assert_eq!(access("ALL-UNNAMED", "page.frames", "page/frame"), Verdict::NotExported);
    assert_eq!(access("", "", ""), Verdict::Allowed);
    assert_eq!(reflection("page.foot", "page.frames", "page/frame"), Verdict::NotOpened);
    assert_eq!(reflection("page.frames", "page.core", "page/core"), Verdict::NotReadable);
    assert_eq!(reflection("page.frames", "page.frames", "page/frame"), Verdict::Allowed);

    // an override for page.core of one kind, which grants nothing of the other
    let with = |more: Vec<u8>| {
        let request = [request.clone(), more].concat();
        [AccessKind::Access, AccessKind::Reflection]
            .map(|kind| check_access(&set, &request, &c, kind, b"page.core", b"page.frames", b"page/frame").unwrap())
    };
    assert_eq!(with(vec![]), [Verdict::NotExported, Verdict::NotOpened]);
    assert_eq!(with(add_export("page.frames", "page/frame", "page.core")), [Verdict::Allowed, Verdict::NotOpened]);
    assert_eq!(with(add_open("page.frames", "page/frame", "page.core")), [Verdict::NotExported, Verdict::Allowed]);
}

#[test]
fn graph() {
    let (set, c) = (set(), resolved());
    assert_eq!(can_read(&set, &c, b"page.core", b"page.frames"), Ok(true));
    assert_eq!(can_read(&set, &c, b"page.frames", b"page.core"), Ok(false));
    assert_eq!(names(readers_of(&set, &c, b"page.frames").unwrap()), ["page.core", "page.foot"]);
    assert_eq!(names(transitive_reads(&set, &c, b"page.core").unwrap()), ["java.base", "page.frames"]);
    assert!(readers_of(&set, &c, b"nobody").unwrap().is_empty());
    let row = transitive_reads(&set, &c, b"page.frames").unwrap();
    assert_eq!((row.len(), row.contains(0), row.contains_unnamed()), (1, true, false));
}
