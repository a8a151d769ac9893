//! The inputs of the table.
use compare::random::Random;
use saqhovune::form::*;
use std::fs;
use std::path::Path;

/// What a set may be long.
pub const LIMIT: usize = 65_535;

/// A set and a request.
pub struct System {
    pub of: String,
    pub set: Vec<u8>,
    pub request: Vec<u8>,
}

/// The class files of the modules in a folder, by module name: each is FOLDER/MODULE/module-info.class.
pub fn class_files(folder: &Path) -> Vec<(String, Vec<u8>)> {
    let entries = fs::read_dir(folder).unwrap_or_else(|e| panic!("{}: {e}", folder.display()));
    let mut files: Vec<_> = entries
        .flatten()
        .filter_map(|e| Some((e.file_name().into_string().ok()?, fs::read(e.path().join("module-info.class")).ok()?)))
        .collect();
    files.sort();
    files
}

/// (a) The modules of a JDK, from its own class files; root java.se, and ST, as some may have static requirements.
pub fn jdk(files: &[(String, Vec<u8>)]) -> System {
    let records = files.iter().map(|(name, file)| {
        saqhovune::from_class_file_vec(file).unwrap_or_else(|e| panic!("the module-info.class of {name}: {e}"))
    });
    let set: Vec<u8> = records.flatten().collect();
    assert!(set.len() <= LIMIT, "the JDK's {} modules take {} bytes, more than a set may have", files.len(), set.len());
    let request = [root("java.se"), with_static()].concat();
    System { of: format!("(a) {} modules of the JDK, root java.se", files.len()), set, request }
}

/// (a) where no JDK is at hand: 70 modules of about the same shape.
pub fn like_a_jdk() -> System {
    let r = &mut Random::new(17);
    let name = |i: usize| match i {
        0 => "java.base".to_string(),
        1 => "java.se".to_string(),
        i if i < 24 => format!("java.part{i}"),
        i => format!("jdk.internal.part{i}"),
    };
    let mut set = Vec::new();
    for i in 0..70 {
        set.extend(module_with(&name(i), 0, false, "17.0.15"));
        if i > 0 {
            set.extend(requires_with("java.base", 0x8000, "17.0.15"));
        }
        if i == 1 {
            (2..24).for_each(|j| set.extend(requires_with(&name(j), TRANSITIVE, "17.0.15")));
            continue;
        }
        for _ in 0..i.saturating_sub(2).min(r.below(5)) {
            let j = r.within(2, i - 1);
            set.extend(requires_with(&name(j), if r.chance(40) { TRANSITIVE } else { 0 }, "17.0.15"));
        }
        let packages = if i == 0 { 180 } else { 4 };
        let package_name = |j: usize| format!("{}/internal/feature{j}", name(i).replace('.', "/"));
        for j in 0..packages * 2 / 3 {
            let targets: Vec<String> = (0..if j % 2 == 0 { 0 } else { r.within(1, 9) }).map(|_| name(r.within(2, 69))).collect();
            set.extend(exports(&package_name(j), &targets.iter().map(String::as_str).collect::<Vec<_>>()));
        }
        for j in 0..r.within(1, 4) {
            set.extend(uses(&format!("java/spi/Service{}", (i + j) % 40)));
        }
        set.extend(provides(&format!("java/spi/Service{}", i % 40), &["java/internal/Implementation"]));
        (0..packages).for_each(|j| set.extend(package(&package_name(j))));
    }
    assert!(set.len() <= LIMIT, "{} bytes", set.len());
    System { of: "(a) 70 modules like a JDK's, root java.se".into(), set, request: root("java.se") }
}

/// (b) 256 modules near 65,535 bytes, nearly all of which start.
pub fn many() -> System {
    let r = &mut Random::new(256);
    let name = |i: usize| if i == 0 { "java.base".to_string() } else { format!("plugin.part.m{i}") };
    let mut set = Vec::new();
    for i in 0..256 {
        let end = (i + 1) * LIMIT / 256;
        let mut put = |record: Vec<u8>| {
            let fits = set.len() + record.len() <= end;
            if fits {
                set.extend(record);
            }
            fits
        };
        put(module(&name(i)));
        if i > 0 {
            put(requires("java.base", 0x8000));
            let flags = if r.chance(30) { TRANSITIVE } else { 0 };
            put(requires(&name(i - 1), flags));
            put(requires(&name(r.below(i)), if r.chance(30) { TRANSITIVE } else { STATIC }));
        }
        put(uses(&format!("plugin/Service{}", i % 16)));
        put(provides(&format!("plugin/Service{}", r.below(32)), &["plugin/Implementation"]));
        for j in 0.. {
            let p = format!("plugin/part/m{i}/{j}");
            if !put(package(&p)) || (j % 2 == 0 && !put(exports(&p, &[]))) {
                break;
            }
        }
    }
    System { of: "(b) 256 modules".into(), set, request: [root(&name(200)), root(&name(255)), with_static()].concat() }
}

/// (c) Document 01's listing.
pub fn listing() -> System {
    let set = [
        module("java.base"),
        package("java/lang"),
        module("page.core"),
        requires("page.frames", TRANSITIVE),
        uses("page/Reader"),
        module("page.foot"),
        requires("page.frames", 0),
        provides("page/Reader", &["page/foot/FootReader"]),
        package("page/foot"),
        module("page.frames"),
        package("page/frame"),
    ];
    System { of: "(c) the listing of document 01".into(), set: set.concat(), request: root("page.core") }
}

/// Questions of modules and packages of a set; of every ten askers one is ALL-UNNAMED, and mostly the package is the target's.
pub fn questions(set: &[u8], count: usize) -> Vec<[String; 3]> {
    let r = &mut Random::new(10_000);
    let mut modules: Vec<(String, Vec<String>)> = Vec::new();
    let text = |b: &[u8]| String::from_utf8_lossy(b).into_owned();
    let mut names = module_names(set);
    for record in records(set) {
        match record.mark {
            b"MO" => modules.push((text(names.next().unwrap()), Vec::new())),
            b"PK" => modules.last_mut().unwrap().1.push(text(&record.body[1..])),
            _ => {}
        }
    }
    let with_packages: Vec<_> = modules.iter().filter(|(_, p)| !p.is_empty()).collect();
    (0..count)
        .map(|_| {
            let asker = if r.chance(10) { "ALL-UNNAMED".into() } else { r.choose(&modules).0.clone() };
            let (target, own) = r.choose(&with_packages);
            let other = &r.choose(&with_packages).1;
            let packages = if r.chance(80) { own } else { other };
            [asker, target.clone(), r.choose(packages).clone()]
        })
        .collect()
}
