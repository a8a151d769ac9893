//! Random sets, requests, questions, configurations and jar names.
use crate::random::Random;
use saqhovune::WORDS;
use saqhovune::form::*;
use std::collections::BTreeSet;

const NAMES: [&str; 21] = [
    "a",
    "b",
    "c",
    "d",
    "e",
    "f",
    "g",
    "h",
    "page.core",
    "page.foot",
    "page.frames",
    "java.bas",
    "java.basf",
    "java.base.x",
    "ALL-UNNAMEE",
    "ALL-UNNAME",
    "A",
    "~",
    "!",
    "zz",
    "Z-1",
];
const ABSENT: [&str; 4] = ["nope", "gone.away", "java", "#"];
const SHARED: [&str; 4] = ["p", "q/r", "p/q", "java/lang"];

/// A set and a request, with the names in use.
pub struct System {
    pub names: Vec<String>,
    pub absent: Vec<String>,
    pub packages: Vec<String>,
    pub set: Vec<u8>,
    pub request: Vec<u8>,
    /// Where there are many modules: of 100 records as many as the set has, if it has room for them.
    share: Option<usize>,
}

impl System {
    /// A module's name, an absent one in `p` of 100, or ALL-UNNAMED.
    fn any_name(&self, r: &mut Random, p: usize) -> String {
        match r.below(100) {
            x if x < p => r.choose(&self.absent).clone(),
            x if x < p + 10 => "ALL-UNNAMED".into(),
            _ => r.choose(&self.names).clone(),
        }
    }
}

fn strings(from: &[String]) -> Vec<&str> {
    from.iter().map(String::as_str).collect()
}

/// A system of 2 to 12 module names, one in forty of 13 to 512, in half of them in places. It is never longer than a set may be.
pub fn system(r: &mut Random) -> System {
    loop {
        let n = if r.below(40) == 0 { r.within(13, 512) } else { r.within(2, 12) };
        let s = system_of(r, n);
        if s.set.len() <= 65_535 && s.request.len() <= 65_535 {
            return s;
        }
    }
}

fn system_of(r: &mut Random, n: usize) -> System {
    let mut names: Vec<String> = NAMES.iter().map(|s| s.to_string()).collect();
    r.shuffle(&mut names);
    names.extend((names.len()..n).map(|i| format!("m{i}")));
    names.truncate(n);
    if r.chance(93) {
        names[r.below(n)] = "java.base".into();
    }
    let mut absent: Vec<String> = ABSENT.iter().map(|s| s.to_string()).collect();
    absent.push("n".repeat(255));
    absent.extend(NAMES.iter().filter(|s| !names.iter().any(|n| n == *s)).map(|s| s.to_string()));
    written(r, names, absent, None)
}

fn written(r: &mut Random, names: Vec<String>, absent: Vec<String>, share: Option<usize>) -> System {
    let mut s = System { names, absent, packages: Vec::new(), set: Vec::new(), request: Vec::new(), share };
    modules(r, &mut s);
    requests(r, &mut s);
    s
}

/// A system of 100 to 512 module names, which share their first bytes, 7 to 9 or 15 to 17 of them or more, and of which many are
/// prefixes of others; in any order, and in half of the systems in places. It is never longer than a set may be.
pub fn many(r: &mut Random) -> System {
    loop {
        let common = *r.choose(&[0, 1, 6, 7, 8, 9, 14, 15, 16, 17, 24, 60, 120, 246]);
        let letters = *r.choose(&[&b"ab"[..], b"!~", b"!-Az~", b"abcdefghijklmnop"]);
        let any = |r: &mut Random| {
            // a package's name is two bytes longer
            let tail = (0..r.within(usize::from(common == 0), if common == 246 { 7 } else { 9 }))
                .map(|_| char::from(*r.choose(letters)));
            "java.bas".chars().cycle().take(common).chain(tail).collect::<String>()
        };
        let n = if r.chance(25) { 512 } else { r.within(100, 512) };
        let n = n.min(60_000 / (common + 16));
        let mut names = BTreeSet::from(["java.base".to_string()]);
        for _ in 0..20 * n {
            if names.len() < n {
                names.insert(any(r));
            }
        }
        let mut absent: Vec<String> = ABSENT.iter().map(|s| s.to_string()).collect();
        absent.extend((0..50).map(|_| any(r)).filter(|a| !names.contains(a)));
        let mut names: Vec<String> = names.into_iter().collect();
        match r.below(4) {
            0 => {}
            1 => names.reverse(),
            _ => r.shuffle(&mut names),
        }
        let share = *r.choose(&[5, 20, 60, 100]);
        let s = written(r, names, absent, Some(share));
        if s.set.len() <= 65_535 && s.request.len() <= 65_535 {
            return s;
        }
    }
}

/// The modules of a set by the index of their names, and None where a place starts. Each name stands in one place; some stand in
/// others too, and there the first hides the rest. There are at most 512 modules in all.
fn placed(r: &mut Random, n: usize) -> Vec<Option<usize>> {
    if r.chance(50) {
        return (0..n).map(Some).collect();
    }
    let mut places = vec![Vec::new(); r.within(1, 8)];
    for i in 0..n {
        let k = r.below(places.len());
        places[k].push(i);
    }
    let again = *r.choose(&[0, 5, 20, 50]); // of 100 names, in each other place
    let mut room = 512 - n;
    let mut all = Vec::new();
    for (k, place) in places.iter_mut().enumerate() {
        for i in 0..n {
            if room > 0 && r.chance(again) && !place.contains(&i) {
                place.push(i);
                room -= 1;
            }
        }
        r.shuffle(place);
        if k > 0 || r.chance(50) {
            all.push(None);
        }
        all.extend(place.iter().copied().map(Some));
    }
    all
}

fn modules(r: &mut Random, s: &mut System) {
    let n = s.names.len();
    let absent = *r.choose(&[0, 0, 0, 2, 10, 30]); // of 100 requirements
    let shared = *r.choose(&[0, 0, 0, 3, 15, 40]); // of 100 modules: a package that others may have
    let optional = *r.choose(&[10, 30, 60]);
    let both = *r.choose(&[0, 0, 10, 30]); // of 100 requirements: static and not
    let missing = *r.choose(&[0, 0, 0, 30]); // of 100 modules: one requirement more, of one absent name
    let more = *r.choose(&[0, 20, 60, 90]); // of 100 modules: one static requirement more
    let transitive = *r.choose(&[15, 40, 80]);
    let automatic = *r.choose(&[0, 10, 30]);
    let open = *r.choose(&[0, 15, 40]);
    let dense = *r.choose(&[50, 100, 150, 300]);
    let chain = r.chance(30); // several rounds of services
    let provided = *r.choose(&[95, 95, 70]); // of 100 modules there
    let required = *r.choose(&[0, 20, 60]); // of 100 users there: a static requirement of the provider
    let services = *r.choose(&[1, 2, 4, 6, n, n]);
    let service = |i: usize| format!("s/{}", i % services);
    let mut chained: Vec<usize> = (0..n).collect();
    r.shuffle(&mut chained);
    let mut packages: BTreeSet<String> = SHARED.iter().map(|p| p.to_string()).collect();
    let listed = placed(r, n);
    let mut room = 65_535usize.saturating_sub(listed.iter().map(|i| i.map_or(4, |i| s.names[i].len() + 12)).sum());
    for i in listed {
        let Some(i) = i else {
            s.set.extend(place());
            continue;
        };
        let own_name = s.names[i].clone();
        let mut body = Vec::new();
        for _ in 0..r.count(if chain { dense / 8 } else { dense }) {
            let target = match r.below(100) {
                x if x < absent => r.choose(&s.absent).clone(),
                x if x < absent + 5 => own_name.clone(),
                x if x < absent + 12 => "java.base".into(),
                _ => r.choose(&s.names).clone(),
            };
            let mut flags = if r.chance(transitive) { TRANSITIVE } else { 0 };
            flags |= if r.chance(optional) { STATIC } else { 0 };
            flags |= if r.chance(20) { *r.choose(&[0x8000, 0x1000, 0x0001, 0xFF9F]) } else { 0 };
            let long = "v".repeat(255);
            body.push(requires_with(&target, flags, r.pick(&["", "", "1.0", &long])));
            if r.chance(both) {
                body.push(requires(&target, flags ^ STATIC));
            }
        }
        if r.chance(missing) {
            body.push(requires(&s.absent[0], *r.choose(&[0, STATIC, STATIC, STATIC | TRANSITIVE])));
        }
        for (from, p) in [(&s.absent, 6), (&s.names, more)] {
            if r.chance(p) {
                let target = r.choose(from);
                body.push(requires(target, STATIC | *r.choose(&[0, TRANSITIVE])));
            }
        }
        if chain {
            if r.chance(95) {
                body.push(uses(&service(chained[i] + 1)));
                if let Some(provider) = chained.iter().position(|k| *k == chained[i] + 1).filter(|_| r.chance(required)) {
                    body.push(requires(&s.names[provider], STATIC | *r.choose(&[0, TRANSITIVE])));
                }
            }
            if r.chance(provided) {
                body.push(provides(&service(chained[i]), &["i/a", "i/b"][..r.below(3)]));
            }
        }
        for _ in 0..r.count(if chain { 10 } else { 50 }) {
            body.push(uses(&service(r.below(services))));
        }
        for _ in 0..r.count(if chain { 10 } else { 50 }) {
            body.push(provides(&service(r.below(services)), &["i/0", "i/1", "i/2"][..r.below(4)]));
        }
        let mut own: Vec<String> = (0..r.count(100)).map(|j| format!("{own_name}/{j}")).collect();
        if r.chance(shared) {
            own.push(r.pick(&SHARED).into());
        }
        if r.chance(10) {
            own.extend_from_within(..own.len().min(1)); // a repeated PK
        }
        packages.extend(own.iter().cloned());
        body.extend(own.iter().map(|p| package(p)));
        for make in [exports, opens] {
            for _ in 0..r.count(150) {
                let p = if !own.is_empty() && r.chance(75) {
                    r.choose(&own).clone()
                } else {
                    packages.iter().nth(r.below(packages.len())).unwrap().clone()
                };
                for _ in 0..1 + usize::from(r.chance(25)) {
                    let k = if r.chance(50) { 0 } else { r.within(1, 3) };
                    let targets: Vec<String> = (0..k).map(|_| s.any_name(r, 10)).collect();
                    body.push(make(&p, &strings(&targets)));
                }
            }
        }
        if r.chance(20) {
            body.push(main_class("main/Class"));
        }
        r.shuffle(&mut body);
        if let Some(share) = s.share {
            body.retain(|x| {
                let kept = r.chance(share) && x.len() <= room;
                room -= if kept { x.len() } else { 0 };
                kept
            });
        }
        let mut flags = if r.chance(open) { OPEN } else { 0 };
        flags |= if r.chance(30) { *r.choose(&[0x8000, 0x1000, 0x0001, 0xFFDF]) } else { 0 };
        s.set.extend(module_with(&own_name, flags, r.chance(automatic), r.pick(&["", "", "2", "x~!"])));
        s.set.extend(body.concat());
    }
    s.packages = packages.into_iter().collect();
}

fn requests(r: &mut Random, s: &mut System) {
    let mut all = Vec::new();
    for _ in 0..*r.choose(&[0, 1, 1, 1, 2, 3, 4]) {
        let target = match r.below(100) {
            0..2 => r.choose(&s.absent).clone(),
            2..4 => "ALL-UNNAMED".into(),
            4..12 => "java.base".into(),
            _ => r.choose(&s.names).clone(),
        };
        for _ in 0..1 + usize::from(r.chance(15)) {
            all.push(root(&target));
        }
    }
    match r.below(100) {
        0..8 => all.push(limit(&[])),
        8..45 => {
            let share = *r.choose(&[40, 70, 90]);
            let mut keep: Vec<String> = s.names.iter().filter(|_| r.chance(share)).cloned().collect();
            for _ in 0..r.count(40) {
                keep.push(r.choose(&s.absent).clone());
            }
            if r.chance(20) {
                keep.extend_from_within(..keep.len().min(1));
            }
            r.shuffle(&mut keep);
            all.push(limit(&strings(&keep)));
        }
        _ => {}
    }
    if r.chance(50) {
        all.push(with_static());
    }
    for _ in 0..r.count(90) {
        all.push(add_read(&s.any_name(r, 8), &s.any_name(r, 10)));
    }
    for make in [add_export, add_open] {
        for _ in 0..r.count(150) {
            let p = r.choose(&s.packages).clone();
            all.push(make(&s.any_name(r, 5), &p, &s.any_name(r, 5)));
        }
    }
    r.shuffle(&mut all);
    s.request = all.concat();
}

/// Three byte strings: asker, target, package.
pub type Question = [Vec<u8>; 3];

fn odd(r: &mut Random) -> Vec<u8> {
    let long = [b'a'; 300];
    let all: [&[u8]; 8] = [b"", b"ALL-UNNAMED", b"\xff\xfe", b"\xc3\xa9", &long, b"java.base\0", b"JAVA.BASE", b" "];
    r.pick(&all).to_vec()
}

/// Any name that a question may have; where there are many modules, also one that is nearly a module's.
pub fn asked_name(r: &mut Random, s: &System) -> Vec<u8> {
    let mut name = match r.below(100) {
        0..14 => b"ALL-UNNAMED".to_vec(),
        14..22 => b"java.base".to_vec(),
        22..28 => odd(r),
        28..34 => r.choose(&s.absent).clone().into_bytes(),
        _ => r.choose(&s.names).clone().into_bytes(),
    };
    if s.share.is_some() && r.chance(20) {
        match r.below(4) {
            0 => name.push(0),
            1 => name.push(*r.choose(b"!~\xFF")),
            2 => name.resize(name.len() + 256, 0),
            _ => name.truncate(name.len().saturating_sub(1)),
        }
    }
    name
}

/// A package; half of the time one of the target's own.
pub fn asked_package(r: &mut Random, s: &System, target: &[u8]) -> Vec<u8> {
    let start = [target, b"/"].concat();
    let near: Vec<&String> = s.packages.iter().filter(|p| p.as_bytes().starts_with(&start)).collect();
    match r.below(100) {
        x if x < 50 && !near.is_empty() => (*r.choose(&near)).clone().into_bytes(),
        90..95 => odd(r),
        95.. => b"no/such".to_vec(),
        _ => r.choose(&s.packages).clone().into_bytes(),
    }
}

pub fn question(r: &mut Random, s: &System) -> Question {
    let asker = asked_name(r, s);
    let target = if r.chance(3) { asker.clone() } else { asked_name(r, s) };
    let package = asked_package(r, s, &target);
    [asker, target, package]
}

/// Words of any configuration, dense or thin, also at positions that the set does not have, in every bit of the ninth words and
/// beyond.
pub fn words(r: &mut Random) -> Vec<u64> {
    let thin = r.below(4);
    let word = |r: &mut Random, times: usize| (0..times).fold(r.next(), |w, _| w & r.next());
    (0..WORDS + r.below(3)).map(|i| word(r, if i < 8 { thin.min(1) } else { thin })).collect()
}

/// Sets bits that are to be ignored: of members, rows and ninth words at positions where there is no module to see, edges to such
/// positions, upper bits of all ninth words.
pub fn junk(r: &mut Random, words: &mut [u64], observable: &[bool]) {
    let of = |i: usize| if observable.get(i) == Some(&true) { 0 } else { 1 << (i % 64) };
    let others: Vec<u64> = (0..8).map(|k| (0..64).fold(0, |w, i| w | of(64 * k + i))).collect();
    let thin = r.below(3);
    let mut put = |w: &mut u64, bits: u64| *w |= bits & (0..thin).fold(r.next(), |w, _| w & r.next());
    (0..8).for_each(|k| put(&mut words[k], others[k]));
    for i in 0..512 {
        let own = &mut words[8 + 9 * i..][..9];
        let hidden = of(i) != 0;
        (0..8).for_each(|k| put(&mut own[k], if hidden { u64::MAX } else { others[k] }));
        put(&mut own[8], if hidden { u64::MAX } else { !1 });
    }
}

/// A jar name, the manifest's name and packages, some of them twice.
pub fn jar(r: &mut Random) -> (String, Option<String>, Vec<String>) {
    const LETTERS: [&str; 5] = ["a", "b", "Z", "foot", "notes2"];
    const OTHERS: [&str; 20] =
        ["-", "-", "-1", "-2", "1", "9", ".", "..", "_", "$", "/", "/", ".jar", ".JAR", "é", "߀", "字", "\u{1F600}", " ", "\0"];
    let mut jar = String::new();
    for _ in 0..r.below(12) {
        jar.push_str(if r.chance(60) { r.pick(&LETTERS) } else { r.pick(&OTHERS) });
    }
    if r.chance(60) {
        jar.push_str(".jar");
    }
    if r.below(100) == 0 {
        let fill = 256usize.saturating_sub(jar.len() + r.below(2)); // 255 or 256 bytes
        jar.insert_str(0, &r.pick(&["a", "/", "-", "b.", "-1"]).repeat(256)[..fill]);
    }
    let manifest = r.chance(25).then(|| {
        const PARTS: [&str; 14] = ["a", "B", "x1", "_", "$", ".", "page", ".a", ".b", ".$", "..", "1", "-", " "];
        let known = *r.choose(&[10, 14]);
        let mut m: String = (0..r.below(8)).map(|_| r.pick(&PARTS[..known])).collect();
        match r.below(100) {
            0 => m.push_str(r.pick(&["é", "字", "߀"])),
            1..4 => m.insert_str(0, &"a".repeat((254 + r.below(3)).saturating_sub(m.len()))), // 254 to 256 bytes
            _ => {}
        }
        m
    });
    let packages = (0..r.below(5)).map(|_| r.pick(&["p", "q", "p/q", "q/p", "~", "!", "java/lang"]).into()).collect();
    (jar, manifest, packages)
}
