//! The words that a host lends for a configuration: how many there must be, what a resolution writes, and what is ignored where they
//! are read. The layout is written here anew, from the header.
use saqhovune::form::*;
use saqhovune::*;

const MODULES: usize = 512;
const NEEDED: usize = 4_616;
const TOO_FEW: Refusal = Refusal::OutputTooShort { needed: NEEDED };

/// Words that are all different.
fn pattern(len: usize) -> Vec<u64> {
    (1..=len as u64).map(|i| i.wrapping_mul(0x9E37_79B9_7F4A_7C15)).collect()
}

/// The word of the edge from i to j, and that of ALL-UNNAMED.
fn edge_word(i: usize, j: usize) -> usize {
    8 + 9 * i + j / 64
}

fn unnamed_word(i: usize) -> usize {
    8 + 9 * i + 8
}

/// The words of these members, edges and readers of ALL-UNNAMED.
fn words_of(members: &[usize], edges: &[(usize, usize)], unnamed: &[usize]) -> Vec<u64> {
    let mut words = vec![0; NEEDED];
    members.iter().for_each(|&i| words[i / 64] |= 1 << (i % 64));
    edges.iter().for_each(|&(i, j)| words[edge_word(i, j)] |= 1 << (j % 64));
    unnamed.iter().for_each(|&i| words[unnamed_word(i)] |= 1);
    words
}

fn numbered(i: usize) -> String {
    format!("m{i}")
}

/// 0 java.base, 1 a, 2 b; in a second place 3 a, hidden, and 4 c.
fn set() -> Vec<u8> {
    [
        module("java.base"),
        package("java/lang"),
        module("a"),
        requires("b", 0),
        package("a/p"),
        exports("a/p", &[]),
        module("b"),
        requires("c", 0),
        package("b/p"),
        opens("b/p", &[]),
        place(),
        module("a"),
        package("old/p"),
        module("c"),
        package("c/p"),
    ]
    .concat()
}

fn request() -> Vec<u8> {
    [root("a"), add_read("b", "ALL-UNNAMED"), add_read("b", "a"), add_export("ALL-UNNAMED", "w", "b")].concat()
}

fn expected() -> Vec<u64> {
    words_of(&[0, 1, 2, 4], &[(1, 0), (1, 2), (2, 0), (2, 1), (2, 4), (4, 0)], &[2])
}

#[test]
fn as_many_as_needed() {
    assert_eq!(WORDS, NEEDED);
    for len in [0, 1, 8, 1_031, 1_032, NEEDED - 1] {
        let mut words = pattern(len);
        assert_eq!(resolve_into(&set(), &request(), &mut words), Err(TOO_FEW), "{len}");
        assert_eq!(words, pattern(len), "{len}");
    }
    for len in [NEEDED, NEEDED + 1, NEEDED + 9, 2 * NEEDED] {
        let mut words = pattern(len);
        assert_eq!(resolve_into(&set(), &request(), &mut words), Ok(4), "{len}");
        assert!(words[..NEEDED] == expected(), "{len}");
        assert_eq!(words[NEEDED..], pattern(len)[NEEDED..], "{len}");
    }
    assert!(resolve(&set(), &request()).unwrap().configuration.words()[..] == expected());
}

/// A set and a request for each number, and the number where the words are too few.
fn refused() -> Vec<(u8, u8, Vec<u8>, Vec<u8>)> {
    let all: Vec<u8> = (0..MODULES + 1).flat_map(|i| module(&numbered(i))).collect();
    let base = || module("java.base");
    let split = [base(), package("p"), module("a"), package("p")].concat();
    vec![
        (1, 1, [base(), b"XX\0\0".to_vec()].concat(), vec![]),
        (1, 1, base(), [root("a"), b"XX\0\0".to_vec()].concat()),
        (1, 1, vec![], b"R".to_vec()),
        (2, 2, vec![0; 65_536], vec![]),
        (2, 2, b"?".to_vec(), vec![0; 65_536]),
        (2, 2, all, vec![]),
        (2, 2, place().repeat(9), vec![]),
        (3, 3, [base(), base()].concat(), vec![]),
        (3, 3, module("ALL-UNNAMED"), vec![]),
        (5, 4, base(), root("a")),
        (5, 4, [base(), requires("a", 0)].concat(), vec![]),
        (6, 4, vec![], vec![]),
        (6, 4, module("a"), root("a")),
        (7, 4, split, root("a")),
    ]
}

/// The records come first, then the words, then the resolution; no refusal writes a word.
#[test]
fn order_of_refusals() {
    let number = |set: &[u8], request: &[u8], len: usize| {
        let mut words = pattern(len);
        let refusal = resolve_into(set, request, &mut words).unwrap_err();
        assert!(words == pattern(len), "{refusal:?}, {len} words");
        if refusal.number() == 4 {
            assert_eq!(refusal, TOO_FEW);
        }
        refusal.number()
    };
    for (enough, few, set, request) in refused() {
        for len in [NEEDED, NEEDED + 50] {
            assert_eq!(number(&set, &request, len), enough, "{len} words");
        }
        for len in [0, 1_032, NEEDED - 1] {
            assert_eq!(number(&set, &request, len), few, "refusal {enough}, {len} words");
        }
    }
}

/// What each call that reads words answers, where it is refused.
fn readings(set: &[u8], request: &[u8], words: &[u64]) -> [Option<Refusal>; 6] {
    let ask = |kind| check_access(set, request, words, kind, b"a", b"b", b"p").err();
    [
        ask(AccessKind::Access),
        ask(AccessKind::Reflection),
        can_read(set, words, b"a", b"b").err(),
        find_module_for_package(set, words, b"p").err(),
        readers_of(set, words, b"a").err(),
        transitive_reads(set, words, b"a").err(),
    ]
}

/// Where words are read, the records come first too; calls without a request look at the set alone.
#[test]
fn order_of_refusals_where_words_are_read() {
    for (_, _, set, request) in refused() {
        let (both, alone) = (check(&set, &request).err(), check(&set, &[]).err());
        for len in [0, 1, 1_032, NEEDED - 1] {
            let (both, alone) = (both.or(Some(TOO_FEW)), alone.or(Some(TOO_FEW)));
            let expected = [both, both, alone, alone, alone, alone];
            assert_eq!(readings(&set, &request, &pattern(len)), expected, "{len} words");
        }
        for len in [NEEDED, NEEDED + 1] {
            assert_eq!(readings(&set, &request, &pattern(len)), [both, both, alone, alone, alone, alone], "{len} words");
        }
    }
    // names that are the same, or java.base, are no answer before the words either
    assert_eq!(can_read(&set(), &[0u64; 1], b"a", b"a"), Err(TOO_FEW));
    assert_eq!(can_read(&set(), &[0u64; 1], b"a", b"java.base"), Err(TOO_FEW));
    assert_eq!(check_access(&set(), &[], &[0u64; 1], AccessKind::Access, b"a", b"a", b"p"), Err(TOO_FEW));
}

/// Every module of a full set in the place of its position: all are automatic and read all others.
#[test]
fn full_of_edges() {
    let set: Vec<u8> = (0..MODULES - 1).flat_map(|i| module_with(&numbered(i), 0, true, "")).chain(module("java.base")).collect();
    let roots: Vec<u8> = (0..MODULES - 1).flat_map(|i| root(&numbered(i))).collect();
    let unnamed: Vec<usize> = (0..MODULES - 1).filter(|i| i % 3 == 0).collect();
    let added: Vec<u8> = unnamed.iter().flat_map(|&i| add_read(&numbered(i), "ALL-UNNAMED")).collect();
    let others = |i: usize| (0..MODULES).filter(move |&j| i != j).map(move |j| (i, j));
    let edges: Vec<_> = (0..MODULES - 1).flat_map(others).collect();
    let members: Vec<usize> = (0..MODULES).collect();

    let mut words = pattern(NEEDED + 1);
    assert_eq!(resolve_into(&set, &[roots, added].concat(), &mut words), Ok(MODULES));
    assert!(words[..NEEDED] == words_of(&members, &edges, &unnamed));
    assert_eq!(words[NEEDED..], pattern(NEEDED + 1)[NEEDED..]);

    let c = Configuration::from_words(words[..NEEDED].to_vec().try_into().unwrap());
    let row = |row: Row| row.positions().collect::<Vec<_>>();
    assert_eq!((c.len(), c.members().collect::<Vec<_>>()), (MODULES, members.clone()));
    assert_eq!(row(readers_of(&set, &c, b"java.base").unwrap()), members[..MODULES - 1]);
    assert_eq!(row(readers_of(&set, &c, b"m300").unwrap()), [&members[..300], &members[301..MODULES - 1]].concat());
    assert_eq!(row(readers_of(&set, &c, b"ALL-UNNAMED").unwrap()), unnamed);
    assert_eq!(row(transitive_reads(&set, &c, b"m510").unwrap()), members);
    assert!(row(transitive_reads(&set, &c, b"java.base").unwrap()).is_empty());
    assert!(c.reads(0, 511) && c.reads(510, 511) && !c.reads(511, 510) && !c.reads(300, 300));
    assert!(c.reads_unnamed(510) && !c.reads_unnamed(511) && !c.reads_unnamed(509));
}

/// A few members among 512 modules: the words of the others are zero.
#[test]
fn few_of_many() {
    let requiring =
        |i: usize| [module(&numbered(i)), if i % 100 == 99 { requires(&numbered(i - 1), 0) } else { vec![] }].concat();
    let set = [(0..511).flat_map(requiring).collect(), module("java.base")].concat();
    let request: Vec<u8> = [99, 299, 499].iter().flat_map(|&i| root(&numbered(i))).collect();
    let mut words = pattern(NEEDED);
    assert_eq!(resolve_into(&set, &request, &mut words), Ok(7));
    let own = [99, 299, 499].iter().flat_map(|&i| [(i, i - 1), (i, 511), (i - 1, 511)]).collect::<Vec<_>>();
    assert!(words == words_of(&[98, 99, 298, 299, 498, 499, 511], &own, &[]));
}

/// What is answered over these words: to each question of these names and packages.
fn answers(words: &[u64]) -> Vec<String> {
    let (set, request) = (set(), request());
    let names = ["java.base", "a", "b", "c", "d", "ALL-UNNAMED", ""];
    let mut all = Vec::new();
    for a in names {
        let n = a.as_bytes();
        all.push(format!("{a} {:?} {:?}", readers_of(&set, words, n), transitive_reads(&set, words, n)));
        for b in names {
            all.push(format!("{a} {b} {:?}", can_read(&set, words, n, b.as_bytes())));
            for p in ["a/p", "b/p", "c/p", "old/p", "w"] {
                let ask = |kind| check_access(&set, &request, words, kind, n, b.as_bytes(), p.as_bytes());
                all.push(format!("{a} {b} {p} {:?} {:?}", ask(AccessKind::Access), ask(AccessKind::Reflection)));
            }
        }
    }
    for p in ["java/lang", "a/p", "b/p", "c/p", "old/p", "w"] {
        all.push(format!("{p} {:?}", find_module_for_package(&set, words, p.as_bytes())));
    }
    assert!(all.iter().all(|line| !line.contains("Err")));
    all
}

/// The positions of `set` that have no visible module.
fn without_module() -> impl Iterator<Item = usize> {
    [3].into_iter().chain(5..MODULES)
}

/// Junk of each kind alone, and all of it at once.
#[test]
fn junk_is_ignored() {
    let at_members = |words: &mut Vec<u64>| without_module().for_each(|i| words[i / 64] |= 1 << (i % 64));
    let in_rows =
        |words: &mut Vec<u64>| (0..MODULES).for_each(|i| without_module().for_each(|j| words[edge_word(i, j)] |= 1 << (j % 64)));
    let of_others = |words: &mut Vec<u64>| {
        without_module().for_each(|i| words[edge_word(i, 0)..=unnamed_word(i)].fill(u64::MAX));
    };
    let in_ninth = |words: &mut Vec<u64>| (0..MODULES).for_each(|i| words[unnamed_word(i)] |= !1);
    let beyond = |words: &mut Vec<u64>| words.resize(NEEDED + 100, u64::MAX);
    let junk: [(&str, &dyn Fn(&mut Vec<u64>)); 5] = [
        ("members without a module", &at_members),
        ("edges to positions without a module", &in_rows),
        ("rows of positions without a module", &of_others),
        ("upper bits of ninth words", &in_ninth),
        ("words beyond", &beyond),
    ];
    let clean = answers(&expected());
    let mut whole = expected();
    for (kind, put) in junk {
        let mut words = expected();
        put(&mut words);
        assert!(words != expected(), "{kind}");
        assert_eq!(answers(&words), clean, "{kind}");
        put(&mut whole);
    }
    assert_eq!(answers(&whole), clean);

    // bits that count: each changes an answer
    for (at, bit) in [(0, 4), (edge_word(1, 0), 2), (edge_word(1, 0), 4), (unnamed_word(1), 0), (unnamed_word(2), 0)] {
        let mut words = whole.clone();
        words[at] ^= 1 << bit;
        assert_ne!(answers(&words), clean, "bit {bit} of word {at}");
    }
}

/// One bit at a time: which of the three tests sees it.
#[test]
fn single_bits() {
    let some = [0, 1, 63, 64, 127, 255, 256, 300, 448, 510, 511];
    let one = |at: usize, bit: usize| {
        let mut words = vec![0; NEEDED];
        words[at] = 1 << bit;
        Configuration::from_words(words.try_into().unwrap())
    };
    let seen = |c: &Configuration| {
        let edges = some.into_iter().flat_map(|i| (0..MODULES).map(move |j| (i, j))).filter(|&(i, j)| c.reads(i, j));
        let unnamed = (0..MODULES).filter(|&i| c.reads_unnamed(i));
        (c.members().collect::<Vec<_>>(), edges.collect::<Vec<_>>(), unnamed.collect::<Vec<_>>())
    };
    for i in some {
        assert_eq!(seen(&one(i / 64, i % 64)), (vec![i], vec![], vec![]));
        assert_eq!(seen(&one(unnamed_word(i), 0)), (vec![], vec![], vec![i]));
        assert_eq!(seen(&one(unnamed_word(i), 1)), (vec![], vec![], vec![]));
        assert_eq!(seen(&one(unnamed_word(i), 63)), (vec![], vec![], vec![]));
        for j in [0, 65, 256, 511] {
            assert_eq!(seen(&one(edge_word(i, j), j % 64)), (vec![], vec![(i, j)], vec![]));
        }
    }
}

/// The members are counted without a set: the ones of the first eight words.
#[test]
fn count_of_members() {
    let of = |words: Vec<u64>| Configuration::from_words(words.try_into().unwrap());
    assert_eq!((of(vec![u64::MAX; NEEDED]).len(), of(vec![0; NEEDED]).len()), (MODULES, 0));
    let mut words = vec![u64::MAX; NEEDED];
    words[..8].fill(0);
    assert!(of(words.clone()).is_empty());
    for (i, word) in words[..8].iter_mut().enumerate() {
        *word = 1 << (7 * i) | 1 << 63;
    }
    assert_eq!(of(words).len(), 16);
}
