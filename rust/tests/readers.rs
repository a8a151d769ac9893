//! The class reader and the jar reader.
use saqhovune::form::*;
use saqhovune::*;

fn utf8(text: &str) -> Vec<u8> {
    [&[1, 0, text.len() as u8], text.as_bytes()].concat()
}

/// The class file of a module with these packages that exports the first one to itself, so many times.
fn class_file(n: &str, packages: &[&str], targets: u8) -> Vec<u8> {
    let mut pool = [utf8("module-info"), vec![7, 0, 1], utf8("Module"), utf8("ModulePackages"), utf8(n), vec![19, 0, 5]].concat();
    let mut indices = vec![0, packages.len() as u8];
    for (i, p) in packages.iter().enumerate() {
        let at = 7 + 2 * i as u8;
        pool.extend([utf8(p), vec![20, 0, at]].concat());
        indices.extend([0, at + 1]);
    }
    let export = if targets == 0 { vec![] } else { [vec![0, 8, 0, 0, 0, targets], [0, 6].repeat(targets.into())].concat() };
    let exports = [vec![0, u8::from(targets > 0)], export].concat();
    let content = [&[0, 6, 0, 0, 0, 0, 0, 0], &exports[..], &[0; 6]].concat();
    let attribute = |name, content: &[u8]| [&[0, name, 0, 0, 0, content.len() as u8], content].concat();
    [
        vec![0xCA, 0xFE, 0xBA, 0xBE, 0, 0, 0, 61, 0, 7 + 2 * packages.len() as u8],
        pool,
        vec![0x80, 0, 0, 2, 0, 0, 0, 0, 0, 0, 0, 0, 0, 2],
        attribute(3, &content),
        attribute(4, &indices),
    ]
    .concat()
}

/// Calls with every length of output up to the one needed: nothing is written before it is reached.
fn lengths(expected: &[u8], write: impl Fn(&mut [u8]) -> Result<usize, Refusal>) {
    for room in 0..expected.len() {
        let mut out = vec![0xA5; room];
        assert_eq!(write(&mut out), Err(Refusal::OutputTooShort { needed: expected.len() }));
        assert!(out.iter().all(|&b| b == 0xA5));
    }
    let mut out = vec![0xA5; expected.len() + 2];
    assert_eq!(write(&mut out), Ok(expected.len()));
    assert_eq!(out, [expected, &[0xA5, 0xA5]].concat());
}

/// A refusal writes nothing.
#[track_caller]
fn refused(refusal: Refusal, number: u8, message: &str, write: impl Fn(&mut [u8]) -> Result<usize, Refusal>) {
    let mut out = [0xA5; 100];
    assert_eq!(write(&mut out), Err(refusal));
    assert_eq!(out, [0xA5; 100]);
    assert_eq!((refusal.number(), refusal.message(&[], &[]).as_str()), (number, message));
}

const TOO_LARGE: &str = "an input or a record to be written is longer than 65,535 bytes, or a jar name is longer than 255";

#[test]
fn class_files() {
    let file = class_file("page.foot", &["page/foot", "page/a", "page/foot"], 0);
    let expected = [module("page.foot"), package("page/a"), package("page/foot")].concat();
    assert_eq!(from_class_file_vec(&file).unwrap(), expected);
    lengths(&expected, |out| from_class_file(&file, out));
    let set = [module("java.base"), expected].concat();
    assert_eq!(resolve(&set, &root("page.foot")).unwrap().count, 2);
}

/// The records may be longer than the file.
#[test]
fn longer_than_the_file() {
    let name = "n".repeat(200);
    let file = class_file(&name, &["p"], 30);
    let expected = [module(&name), exports("p", &[name.as_str(); 30]), package("p")].concat();
    assert!(expected.len() > file.len());
    assert_eq!(from_class_file_vec(&file).unwrap(), expected);
}

#[test]
fn class_files_refused() {
    let file = class_file("page.foot", &[], 0);
    refused(Refusal::DescriptorParseError { offset: 0 }, 8, "the class file is malformed at offset 0", |out| {
        from_class_file(&[], out)
    });
    let message = format!("the class file is malformed at offset {}", file.len());
    refused(Refusal::DescriptorParseError { offset: file.len() }, 8, &message, |out| {
        from_class_file(&[&file[..], b"x"].concat(), out)
    });
    let refusal = Refusal::TooLarge { offset: 0 };
    refused(refusal, 2, TOO_LARGE, |out| from_class_file(&[0; 65_536], out));
    assert_eq!(from_class_file_vec(&[0; 65_536]), Err(refusal));
}

/// The bytes of a constant with each tag, as JVM Specification 4.4 lists them: a Utf8 without text, Dynamic since version 55. Behind it
/// zeros follow, which are no constant, so the offset told is the one behind it. Cut off, or with no such tag, it is told itself.
#[test]
fn widths_of_constants() {
    let sections: [(&[u8], usize); 12] = [
        (&[7], 3),
        (&[9, 10, 11], 5),
        (&[8], 3),
        (&[3, 4], 5),
        (&[5, 6], 9),
        (&[12], 5),
        (&[1], 3),
        (&[15], 4),
        (&[16], 3),
        (&[17, 18], 5),
        (&[19], 3),
        (&[20], 3),
    ];
    for (tag, major) in (0..=255).flat_map(|tag| [53, 54, 55, 61].map(|major| (tag, major))) {
        let known = tag != 17 || major >= 55;
        let width = sections.iter().find(|(tags, _)| known && tags.contains(&tag)).map_or(0, |&(_, width)| width);
        let file = [&[0xCA, 0xFE, 0xBA, 0xBE, 0, 0, 0, major, 0, 4, tag][..], &[0; 20]].concat();
        for length in 11..=file.len() {
            let offset = if length < 10 + width { 10 } else { 10 + width };
            assert_eq!(
                from_class_file(&file[..length], &mut []),
                Err(Refusal::DescriptorParseError { offset }),
                "{tag} in {major}, {length} bytes"
            );
        }
    }
}

#[test]
fn jars() {
    let packages = [package("q"), package("p"), package("q")].concat();
    let expected = [
        module_with("foot.notes", 0, true, ""),
        requires("java.base", 0x8000),
        exports("p", &[]),
        exports("q", &[]),
        opens("p", &[]),
        opens("q", &[]),
        package("p"),
        package("q"),
    ]
    .concat();
    assert_eq!(automatic_from_jar_name_vec(b"plug-ins/foot-notes-2.4.jar", None, &packages).unwrap(), expected);
    lengths(&expected, |out| automatic_from_jar_name(b"foot-notes-2.4.jar", None, &packages, out));
    assert_eq!(automatic_from_jar_name_vec(b"1.jar", Some(b"foot.notes"), &packages).unwrap(), expected);
}

#[test]
fn jars_refused() {
    let jar = |name: &'static [u8], manifest: Option<&'static [u8]>| {
        move |out: &mut [u8]| automatic_from_jar_name(name, manifest, &[], out)
    };
    refused(Refusal::InvalidAutomaticModuleName, 9, "the jar's name leaves no module name", jar(b".jar", None));
    refused(Refusal::InvalidAutomaticModuleName, 9, "the jar's name leaves no module name", jar(b"", None));
    let message = "the module name that the manifest or the jar's name gives is not a legal one";
    refused(Refusal::InvalidModuleName, 10, message, jar(b"a-1-2.jar", None));
    refused(Refusal::InvalidModuleName, 10, message, jar(b"a.jar", Some(b"")));
    refused(Refusal::TooLarge { offset: 0 }, 2, TOO_LARGE, jar(&[b'a'; 256], Some(b"a")));
    assert!(automatic_from_jar_name_vec(&[b'a'; 255], None, &[]).is_ok());
    for other in [module("a"), place()] {
        let packages = [package("p"), other].concat();
        let refusal = Refusal::Malformed { input: Input::Packages, offset: 6 };
        refused(refusal, 1, "the package record at offset 6 is malformed", |out| {
            automatic_from_jar_name(b"a.jar", None, &packages, out)
        });
    }
}
