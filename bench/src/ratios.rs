//! The table of ratios: the library against the original, and against Java where a JDK is at hand.
use crate::inputs::{self, System};
use crate::time::{self, Time, times};
use compare::module::access::AccessCheck;
use compare::module::descriptor::ModuleDescriptor;
use compare::module::finder::ModuleFinder;
use compare::module::reference::ModuleReference;
use compare::original::Inputs;
use compare::records::{parse_both, write_descriptor};
use compare::{class, original};
use saqhovune::{AccessKind, Configuration, WORDS, form};
use std::collections::{BTreeSet, HashMap};
use std::hint::black_box;
use std::path::Path;

/// The modules by name in a map of std, as the original's own finders have them.
struct MapFinder(HashMap<String, ModuleReference>);

impl ModuleFinder for MapFinder {
    fn find(&self, name: &str) -> Option<ModuleReference> {
        self.0.get(name).cloned()
    }

    fn find_all(&self) -> Vec<ModuleReference> {
        self.0.values().cloned().collect()
    }
}

/// Prints the rows, and keeps what the goals ask for.
struct Table {
    seconds: f64,
    goals: Vec<(String, f64, f64)>,
}

impl Table {
    fn head() {
        println!("| input | bytes | ours | (median) | against | time | (median) | ratio |");
        println!("|---|---:|---:|---:|---|---:|---:|---:|");
    }

    fn row(&mut self, input: &str, bytes: usize, ours: Time, against: &str, theirs: Time, goal: Option<f64>) {
        let [a, b, c, d] = [ours.best, ours.median, theirs.best, theirs.median].map(time::text);
        let ratio = theirs.best / ours.best;
        let digits = if ratio < 0.1 { 5 } else { 2 };
        println!("| {input} | {bytes} | {a} | {b} | {against} | {c} | {d} | {ratio:.digits$} |");
        if let Some(goal) = goal {
            self.goals.push((format!("{input}, against {against}"), ratio, goal));
        }
    }

    fn resolve(&mut self, s: &System, goal: Option<f64>) {
        let (modules, request) = parse_both(&s.set, &s.request).expect("the input is well-formed");
        let inputs = Inputs { modules, request };
        let resolver = inputs.resolver();
        let finder = |modules: &[ModuleReference]| MapFinder(modules.iter().map(|m| (m.name().to_string(), m.clone())).collect());
        let found = finder(&inputs.modules);
        let mut words = vec![0; WORDS];
        let count = saqhovune::resolve_into(&s.set, &s.request, &mut words).expect("it resolves");
        let theirs = resolver.resolve(&inputs.request.roots, &found).expect("it resolves");
        assert_eq!(count, theirs.len(), "members of {}", s.of);

        let bytes = s.set.len() + s.request.len();
        let mut ours = || {
            black_box(saqhovune::resolve_into(black_box(&s.set), black_box(&s.request), &mut words)).unwrap();
        };
        let mut alone = || {
            black_box(resolver.resolve(black_box(&inputs.request.roots), &found)).unwrap();
        };
        let mut whole = || {
            let (modules, request) = parse_both(black_box(&s.set), black_box(&s.request)).unwrap();
            let inputs = Inputs { modules, request };
            black_box(inputs.resolver().resolve(&inputs.request.roots, &finder(&inputs.modules))).unwrap();
        };
        let t = times(self.seconds, &mut [&mut ours, &mut alone, &mut whole]);
        let input = format!("resolve {}: {count} start", s.of);
        self.row(&input, bytes, t[0], "`Resolver::resolve` alone", t[1], goal);
        self.row(&input, bytes, t[0], "decoding of compare, then `Resolver::resolve`", t[2], None);

        let mut ours = || {
            black_box(saqhovune::check(black_box(&s.set), black_box(&s.request))).unwrap();
        };
        let mut theirs = || {
            black_box(parse_both(black_box(&s.set), black_box(&s.request))).unwrap();
        };
        let t = times(self.seconds, &mut [&mut ours, &mut theirs]);
        self.row(&format!("check {}", s.of), bytes, t[0], "decoding of compare", t[1], None);
    }

    fn questions(&mut self, s: &System) {
        let (modules, request) = parse_both(&s.set, &s.request).expect("the input is well-formed");
        let inputs = Inputs { modules, request };
        let original = inputs.resolve().expect("it resolves");
        let access = AccessCheck::new(&original);
        let c: Configuration = saqhovune::resolve(&s.set, &s.request).expect("it resolves").configuration;
        let all = inputs::questions(&s.set, 10_000);
        for [a, t, p] in &all[..1000] {
            let v = saqhovune::check_access(&s.set, &s.request, &c, AccessKind::Access, a.as_bytes(), t.as_bytes(), p.as_bytes());
            assert_eq!(format!("{:?}", v.unwrap()), format!("{:?}", access.check_access(a, t, p)), "{a} {t} {p}");
        }
        let ours = |q: &[[String; 3]]| {
            for [a, t, p] in q {
                let v =
                    saqhovune::check_access(&s.set, &s.request, &c, AccessKind::Access, a.as_bytes(), t.as_bytes(), p.as_bytes());
                black_box(v).unwrap();
            }
        };
        let theirs = |q: &[[String; 3]]| {
            for [a, t, p] in q {
                black_box(access.check_access(a, t, p));
            }
        };
        let whole = |q: &[[String; 3]]| {
            let (modules, request) = parse_both(black_box(&s.set), &s.request).unwrap();
            let c = Inputs { modules, request }.configured(&c);
            let access = AccessCheck::new(&c);
            for [a, t, p] in q {
                black_box(access.check_access(a, t, p));
            }
        };
        let bytes = s.set.len() + s.request.len();
        for (input, q) in [("one question on (a)", &all[..1]), ("10,000 questions on (a), one call each", &all[..])] {
            let t =
                times(self.seconds, &mut [&mut || ours(black_box(q)), &mut || theirs(black_box(q)), &mut || whole(black_box(q))]);
            self.row(input, bytes, t[0], "`AccessCheck::check_access` alone", t[1], None);
            self.row(input, bytes, t[0], "decoding of compare once, then the same", t[2], None);
        }
    }

    fn class(&mut self, input: &str, file: &[u8], java: Option<Time>, goal: Option<f64>) {
        let mut out = vec![0; 1 << 17];
        let n = saqhovune::from_class_file(file, &mut out).expect("it is accepted");
        let read = |file: &[u8]| ModuleDescriptor::from_class_file(&class::read(file).expect("it is accepted")).unwrap();
        assert_eq!(Some(&out[..n]), write_descriptor(&read(file), false).as_deref(), "records of {input}");
        let mut ours = || {
            black_box(saqhovune::from_class_file(black_box(file), &mut out)).unwrap();
        };
        let mut theirs = || {
            black_box(read(black_box(file)));
        };
        let t = times(self.seconds, &mut [&mut ours, &mut theirs]);
        self.row(input, file.len(), t[0], "reader of compare, then `from_class_file`", t[1], None);
        if let Some(java) = java {
            self.row(input, file.len(), t[0], "Java's `ModuleDescriptor.read`", java, goal);
        }
    }

    fn jar(&mut self, jar: &str, packages: usize) {
        let names: Vec<String> = (0..packages).map(|i| format!("foot/notes/part{i}")).collect();
        let records: Vec<u8> = names.iter().flat_map(|p| form::package(p)).collect();
        let set: BTreeSet<String> = names.iter().cloned().collect();
        let mut out = vec![0; 1 << 18];
        let n = saqhovune::automatic_from_jar_name(jar.as_bytes(), None, &records, &mut out).expect("it is accepted");
        assert_eq!(out[..n], original::jar(jar, None, &names).expect("it is accepted"), "records of {jar}");
        let mut ours = || {
            black_box(saqhovune::automatic_from_jar_name(black_box(jar.as_bytes()), None, &records, &mut out)).unwrap();
        };
        let mut theirs = || {
            black_box(ModuleDescriptor::automatic_from_jar_name(black_box(jar), None, set.clone())).unwrap();
        };
        let t = times(self.seconds, &mut [&mut ours, &mut theirs]);
        let input = format!("jar {jar}, {packages} packages");
        self.row(&input, jar.len() + records.len(), t[0], "`automatic_from_jar_name`, packages in a set", t[1], None);
    }
}

/// Java's times, as Read.java prints them: the file's name, best and median.
fn java_times(file: Option<&Path>) -> HashMap<String, Time> {
    let text = file.map(|f| std::fs::read_to_string(f).unwrap_or_else(|e| panic!("{}: {e}", f.display())));
    let line = |l: &str| {
        let mut words = l.split_whitespace();
        let name = words.next()?.to_string();
        Some((name, Time { best: words.next()?.parse().ok()?, median: words.next()?.parse().ok()? }))
    };
    text.unwrap_or_default().lines().filter_map(line).collect()
}

const ABOUT: [&str; 7] = [
    "Best of many runs and median; the calls of a row take turns. A call over 5 s is made once, and Java runs in a process of its",
    "own right before. Ratio: best of the other through best of ours, so above 1 ours is faster. One thread, buffers warm and",
    "reused. Ours starts from bytes, which each call reads and checks from front to back, and writes into lent buffers.",
    "The original alone starts from decoded modules, with a resolver and a finder made before.",
    "Decoding and class file reading around it are those of compare: document 01 adds the byte form, and the crate",
    "`ristretto_classfile` is not at hand.",
    "`ahash` is a stand-in.",
];

/// The folder has a folder for each module of a JDK; the file has Java's times; `classes` is tests/classes.
pub fn print(seconds: f64, classes: &Path, folder: Option<&Path>, java: Option<&Path>) {
    for line in ABOUT {
        println!("{line}");
    }
    println!();
    let files = folder.map(inputs::class_files).unwrap_or_default();
    let java = java_times(java);
    let a = if files.is_empty() { inputs::like_a_jdk() } else { inputs::jdk(&files) };
    let mut table = Table { seconds, goals: Vec::new() };
    Table::head();
    table.resolve(&a, Some(3.0));
    table.resolve(&inputs::many(), Some(3.0));
    table.resolve(&inputs::listing(), None);
    table.questions(&a);
    for (name, file) in files.iter().filter(|(n, _)| n == "java.base") {
        table.class(&format!("class file of {name}"), file, java.get(name).copied(), Some(5.0));
    }
    for name in ["tomcat-catalina", "xz"] {
        let path = classes.join(name).with_extension("class");
        let file = std::fs::read(&path).unwrap_or_else(|e| panic!("{}: {e}", path.display()));
        table.class(&format!("class file {name}.class"), &file, java.get(name).copied(), None);
    }
    table.jar("foot-notes-2.4.jar", 0);
    table.jar("foot-notes-2.4.jar", 3);
    table.jar("foot-notes-2.4.jar", 1000);
    println!();
    for (of, ratio, goal) in &table.goals {
        println!("goal {goal:.0}: {ratio:.2}, {} ({of})", if ratio >= goal { "met" } else { "NOT met" });
    }
}
