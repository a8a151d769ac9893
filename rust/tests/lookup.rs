//! Lookup of modules by name at its limits: full sets in several orders, names that differ late or in their length alone, names that
//! come between two of the set, hidden ones. The library searches a sorted table; here a walk from the front says what it finds.
use saqhovune::form::*;
use saqhovune::*;
use std::collections::BTreeSet;

/// What a set may be long, and how many modules it may have.
const LIMIT: usize = 65_535;
const MODULES: usize = 512;

/// Fifteen bytes of names in ascending order, the lowest and the highest among them.
const LETTERS: &[u8; 15] = b"!-09AMZ_amnyz|~";

fn text(bytes: &[u8]) -> String {
    String::from_utf8(bytes.to_vec()).unwrap()
}

/// The `n`-th tail of two bytes.
fn tail(n: usize) -> String {
    format!("{}{}", (b'A' + (n / 16) as u8) as char, (b'B' + (n % 16) as u8) as char)
}

/// Up to 512 names of one kind each, in ascending order: as many as a set has room for beside java.base and a requirement.
fn families() -> Vec<(String, Vec<String>)> {
    let sharing = |n: usize| (format!("sharing {n} bytes"), (0..MODULES).map(|i| "s".repeat(n) + &tail(i)).collect());
    let mut all: Vec<(String, Vec<String>)> = [6, 8, 14, 15, 16, 17, 100, 240, 250].map(sharing).into();
    all.push(("prefixes of each other".into(), (1..256).flat_map(|n| ["a", "b"].map(|c| c.repeat(n))).collect()));
    let ending = |n: usize| LETTERS.map(|c| "m".repeat(n) + &text(&[c]));
    all.push(("of 1 to 34 bytes".into(), (0..34).flat_map(ending).collect()));
    all.push(("of 241 to 255 bytes".into(), (240..255).flat_map(ending).collect()));
    let changed = |at: usize| LETTERS.map(|c| text(&[&b"x".repeat(at)[..], &[c], &b"x".repeat(33 - at)].concat()));
    all.push(("of 34 bytes, one of them different".into(), (0..34).flat_map(changed).collect()));
    for (kind, names) in &mut all {
        let mut room = LIMIT - module("java.base").len() - requires(&"n".repeat(255), 0).len();
        let fits = |n: &String| {
            room = room.saturating_sub(module(n).len());
            room > 0
        };
        *names = names.iter().cloned().take_while(fits).collect();
        names.sort();
        assert!(names.len() > 200 && names.windows(2).all(|n| n[0] < n[1]), "{kind}: {}", names.len());
    }
    assert!(all.iter().filter(|(_, names)| names.len() == MODULES).count() == 7);
    all
}

/// The names in order, against it, from both ends in turn, from the middle outwards and shuffled.
fn orders(sorted: &[String]) -> Vec<Vec<String>> {
    let n = sorted.len();
    let by = |at: &dyn Fn(usize) -> usize| (0..n).map(|i| sorted[at(i)].clone()).collect::<Vec<_>>();
    let ends = by(&|i| if i % 2 == 0 { i / 2 } else { n - 1 - i / 2 });
    let outwards = ends.iter().rev().cloned().collect();
    let mut shuffled = sorted.to_vec();
    shuffled.sort_by_key(|name| name.bytes().fold(name.len() as u32, |sum, b| (sum ^ u32::from(b)).wrapping_mul(16_777_619)));
    vec![sorted.to_vec(), by(&|i| n - 1 - i), ends, outwards, shuffled]
}

/// Tests each kind of names in each order; the text and the number say which.
fn in_every_order(test: impl Fn(&str, usize, &[String])) {
    for (kind, names) in families() {
        orders(&names).iter().enumerate().for_each(|(k, names)| test(&format!("{kind}, order {k}"), k, names));
    }
}

/// Every third of the names with their positions, from another on in each order: in three orders these are all positions.
fn thirds(names: &[String], k: usize) -> impl Iterator<Item = (usize, &String)> {
    names.iter().enumerate().skip(k % 3).step_by(3)
}

fn set_of(names: &[String]) -> Vec<u8> {
    names.iter().flat_map(|n| module(n)).collect()
}

/// All positions are members; each reads the one so many behind it, alone.
fn reading(step: usize) -> Configuration {
    let mut words = vec![0; WORDS];
    words[..8].fill(u64::MAX);
    for i in 0..MODULES {
        let to = (i + step) % MODULES;
        words[8 + 9 * i + to / 64] |= 1 << (to % 64);
    }
    Configuration::from_words(words.try_into().unwrap())
}

/// The position of the module that the library finds by this name.
fn found(set: &[u8], own: &Configuration, name: &[u8]) -> Option<usize> {
    let row = readers_of(set, own, name).unwrap();
    assert_eq!(transitive_reads(set, own, name), Ok(row));
    let positions: Vec<usize> = row.positions().collect();
    assert!(positions.len() < 2 && !row.contains_unnamed());
    positions.first().copied()
}

/// The position that a walk from the front finds.
fn walk(names: &[impl AsRef<[u8]>], name: &[u8]) -> Option<usize> {
    names.iter().position(|n| n.as_ref() == name)
}

/// Byte strings near a name: cut, longer by bytes of any kind, of a length that differs by 256.
fn near(name: &str) -> Vec<Vec<u8>> {
    let name = name.as_bytes();
    let (last, front) = name.split_last().unwrap();
    let behind = |bytes: &[u8]| [name, bytes].concat();
    let zeros = |length: usize| behind(&vec![0; length.saturating_sub(name.len()).max(1)]);
    let instead = |b: u8| [front, &[b]].concat();
    let changed = [instead(last - 1), instead(last + 1), instead(last | 0x80), instead(0)];
    let longer = [b"\0", b"!", b"~", b"\xFF"].map(|b| behind(b));
    let far = [behind(&[0; 256]), behind(&b"a".repeat(256)), name.repeat(256 / name.len() + 1)];
    [vec![front.to_vec()], changed.into(), longer.into(), [8, 16, 17].map(zeros).into(), far.into()].concat()
}

/// Names that cannot stand in a record or are too short or too long for one.
fn odd() -> Vec<Vec<u8>> {
    let many = [256, 257, 272, 511, 512, 65_535, 65_536, 65_537].map(|n| vec![b'a'; n]);
    let few: [&[u8]; 5] = [b"", b"\0", &[0; 8], &[0; 17], &[0xFF; 16]];
    [many.to_vec(), few.map(<[u8]>::to_vec).into()].concat()
}

/// Questions find what the walk finds: without java.base, as nothing but the check of the set comes before.
#[test]
fn by_questions() {
    let own = reading(0);
    in_every_order(|of, k, names| {
        let set = set_of(names);
        for (i, name) in thirds(names, k) {
            assert_eq!(found(&set, &own, name.as_bytes()), Some(i), "{of}, {name}");
            let other = &near(name)[i % 15];
            assert_eq!(found(&set, &own, other), walk(names, other), "{of}, {other:?}");
        }
        for other in odd() {
            assert_eq!(found(&set, &own, &other), None, "{of}, {other:?}");
        }
    });
}

/// Both names of a question are looked up: each module reads the next one alone.
#[test]
fn both_names() {
    let next = reading(1);
    let verdict = |set: &[u8], asker: &[u8], target: &[u8]| {
        let [a, r] =
            [AccessKind::Access, AccessKind::Reflection].map(|kind| check_access(set, &[], &next, kind, asker, target, b"p"));
        let reads = can_read(set, &next, asker, target).unwrap();
        let expected =
            if reads { (Verdict::NotExported, Verdict::NotOpened) } else { (Verdict::NotReadable, Verdict::NotReadable) };
        assert_eq!((a, r), (Ok(expected.0), Ok(expected.1)));
        reads
    };
    in_every_order(|of, k, names| {
        let set = set_of(names);
        for (i, asker) in names.iter().enumerate().rev().skip(k).step_by(10) {
            let target = |k: usize| names[(i + k) % names.len()].as_bytes();
            let is_last = i + 1 == names.len() && names.len() < MODULES;
            assert_eq!(verdict(&set, asker.as_bytes(), target(1)), !is_last, "{of}, {asker}");
            assert!(!verdict(&set, asker.as_bytes(), target(2)), "{of}, {asker}");
            let zero = |n: &[u8]| [n, b"\0"].concat();
            assert!(!verdict(&set, &zero(asker.as_bytes()), target(1)), "{of}, {asker}");
            assert!(!verdict(&set, asker.as_bytes(), &zero(target(1))), "{of}, {asker}");
        }
    });
}

/// The members of a resolution.
fn members(set: &[u8], request: &[u8]) -> Vec<usize> {
    resolve(set, request).unwrap().configuration.members().collect()
}

fn ascending<const N: usize>(positions: [usize; N]) -> Vec<usize> {
    BTreeSet::from(positions).into_iter().collect()
}

/// Roots, requirements and AR find every module; java.base stands among the others.
#[test]
fn by_resolution() {
    in_every_order(|of, k, names| {
        let names = &names[..names.len().min(MODULES - 1)];
        let base = names.len() * 3 / 4;
        let names = [&names[..base], &["java.base".into()], &names[base..]].concat();
        let set = set_of(&names);
        let last = names.len() - 1;
        for (i, name) in thirds(&names, k) {
            let j = (i + 7) % names.len();
            let request = [root(name), add_read(name, &names[j]), root(&names[j])].concat();
            let c = resolve(&set, &request).unwrap().configuration;
            assert_eq!(c.members().collect::<Vec<_>>(), ascending([base, i, j]), "{of}, {name}");
            assert!(c.reads(i, j), "{of}, {name}");
            let requiring = [&set[..], &requires(name, 0)].concat();
            assert_eq!(members(&requiring, &root(&names[last])), ascending([base, i, last]), "{of}, {name}");
        }
    });
}

/// Names that come right behind one of the set are absent as roots, such that come before it as requirements.
#[test]
fn between_neighbours() {
    in_every_order(|of, k, names| {
        let names = &names[..names.len().min(MODULES - 1)];
        let set = [set_of(names), module("java.base")].concat();
        let mut asked = 0;
        for (_, name) in thirds(names, k) {
            let (last, front) = name.as_bytes().split_last().unwrap();
            let absent = |n: &&String| {
                let legal = (1..256).contains(&n.len()) && n.bytes().all(|b| b.is_ascii_graphic());
                legal && walk(names, n.as_bytes()).is_none()
            };
            for other in [format!("{name}!")].iter().filter(absent) {
                let refusal = Refusal::ModuleNotFound { input: Input::Request, start: 5, len: other.len() };
                assert_eq!(resolve(&set, &root(other)).unwrap_err(), refusal, "{of}, {other}");
                asked += 1;
            }
            for other in [text(front), text(front) + &text(&[last - 1]) + "~"].iter().filter(absent) {
                let requiring = [&set[..], &requires(other, 0)].concat();
                let refusal = Refusal::ModuleNotFound { input: Input::Set, start: set.len() + 7, len: other.len() };
                assert_eq!(resolve(&requiring, &[]).unwrap_err(), refusal, "{of}, {other}");
                asked += 1;
            }
        }
        assert!(asked > names.len() / 3, "{of}: {asked}");
    });
}

/// A name that the set has already is found in the check, whichever it is.
#[test]
fn repeated() {
    in_every_order(|of, k, names| {
        let names = &names[..names.len().min(MODULES - 1)];
        let set = set_of(names);
        for (_, name) in thirds(names, k) {
            let again = [&set[..], &module(name)].concat();
            assert_eq!(check(&again, &[]), Err(Refusal::Repeated { offset: set.len() }), "{of}, {name:?}");
        }
    });
}

/// Sets of so many places that have the same names, and sets where each place has some names of the one before, in other orders.
fn in_places(names: &[String], count: usize) -> Vec<Vec<u8>> {
    let each = names.len() / count;
    let same = |k: usize| set_of(&orders(&names[..each])[k % 5]);
    let partly = |k: usize| {
        let from = if k == 0 { 0 } else { k * each - each / 2 };
        set_of(&orders(&names[from..from + each])[(k + 1) % 5])
    };
    let joined = |place_of: &dyn Fn(usize) -> Vec<u8>| (0..count).map(place_of).collect::<Vec<_>>().join(&place()[..]);
    vec![joined(&same), joined(&partly)]
}

/// Of modules of one name the first is found.
#[test]
fn hidden() {
    let own = reading(0);
    for (kind, mut names) in families() {
        names.insert(names.len() / 50, "java.base".into());
        names.truncate(MODULES);
        for count in [2, 3, 8] {
            for set in in_places(&names, count) {
                let listed: Vec<_> = modules(&set).collect();
                assert_eq!(check(&set, &[]), Ok(listed.len()), "{kind}, {count} places");
                assert!(listed.iter().any(|m| m.hidden_by.is_some()), "{kind}, {count} places");
                let names: Vec<&[u8]> = module_names(&set).collect();
                let base = walk(&names, b"java.base").unwrap();
                for m in listed.iter().step_by(5) {
                    let first = walk(&names, m.name).unwrap();
                    assert_eq!(m.hidden_by.is_none(), first == m.position);
                    assert_eq!(found(&set, &own, m.name), Some(first), "{kind}, {count} places, {m}");
                    assert_eq!(members(&set, &root(&text(m.name))), ascending([base, first]), "{kind}, {count} places, {m}");
                }
            }
        }
    }
}

/// A name may stand once in each place, and a second time in none.
#[test]
fn repeated_in_places() {
    // p is a PL, other letters are modules; the number is the index of the letter that is refused
    let cases = [
        ("papa", None),
        ("apa", None),
        ("papapapapapapapa", None),
        ("apaa", Some(3)),
        ("papaa", Some(4)),
        ("apbb", Some(3)),
        ("apbaa", Some(4)),
        ("apaba", Some(4)),
        ("abpbpaba", Some(7)),
        ("abpbpabb", Some(7)),
        ("abpapbab", Some(7)),
        ("papapapapapapapaa", Some(16)),
        ("papapapapapapapbab", Some(17)),
    ];
    let bytes = |letters: &str| {
        let record = |c: char| if c == 'p' { place() } else { module(&c.to_string()) };
        letters.chars().flat_map(record).collect::<Vec<_>>()
    };
    for (letters, refused) in cases {
        let expected = match refused {
            Some(at) => Err(Refusal::Repeated { offset: bytes(&letters[..at]).len() }),
            None => Ok(letters.chars().filter(|c| *c != 'p').count()),
        };
        assert_eq!(check(&bytes(letters), &[]), expected, "{letters}");
    }
    for (kind, names) in families() {
        for count in [2, 8] {
            for set in in_places(&names[..names.len().min(MODULES - 1) / count * count], count) {
                let listed: Vec<_> = modules(&set).collect();
                let in_last: Vec<&[u8]> = listed.iter().filter(|m| m.place == count).map(|m| m.name).collect();
                for m in &listed {
                    let again = [&set[..], &module(&text(m.name))].concat();
                    let refused = walk(&in_last, m.name).is_some();
                    let expected = if refused { Err(Refusal::Repeated { offset: set.len() }) } else { Ok(listed.len() + 1) };
                    assert_eq!(check(&again, &[]), expected, "{kind}, {count} places, {m}");
                }
            }
        }
    }
}
