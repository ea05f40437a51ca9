//! Calls the library over a module that a C compiler made. `WREWRITE_WANT` is a folder with what the programs write of it: the files
//! `rewritten`, `map` and `snipped`; without it only the modules of this file are tried.

use std::path::PathBuf;
use wrewrite::{check, find, rewrite, validate, version, Error, ErrorKind, Options, Snip};

const SAMPLE: &[u8] = include_bytes!("../../../crates/wtools/data/sample.wasm");

/// An imported function and three bodies, of which the first branches too far and the third reads a local that it doesn't have.
const REFUSED: &[u8] = b"\0asm\x01\0\0\0\x01\x04\x01\x60\0\0\x02\x07\x01\x01m\x01f\0\0\x03\x04\x03\0\0\0\x0a\x0f\x03\x04\0\x0c\x01\x0b\x02\0\x0b\x05\0\x20\0\x1a\x0b";

/// An imported function m.f and three functions with bodies: the second, which the name section calls `loop`, is exported as `run`, and
/// the first and the third are both called `twin`; m.f is called `log`.
const NAMED: &[u8] = b"\0asm\x01\0\0\0\x01\x04\x01\x60\0\0\x02\x07\x01\x01m\x01f\0\0\x03\x04\x03\0\0\0\x07\x07\x01\x03run\0\x02\x0a\x0a\x03\x02\0\x0b\x02\0\x0b\x02\0\x0b\
    \0\x1f\x04name\x01\x18\x04\0\x03log\x01\x04twin\x02\x04loop\x03\x04twin";

/// A function that is `nop`, with the sections .debug_line and sourceMappingURL.
const STALE: &[u8] =
    b"\0asm\x01\0\0\0\x01\x04\x01\x60\0\0\x03\x02\x01\0\x0a\x05\x01\x03\0\x01\x0b\0\x0d\x0b.debug_linex\0\x13\x10sourceMappingURL\x01z";

/// The same function without its `nop`, and without these sections.
const SHORT: &[u8] = b"\0asm\x01\0\0\0\x01\x04\x01\x60\0\0\x03\x02\x01\0\x0a\x04\x01\x02\0\x0b";

fn wanted(name: &str) -> Option<Vec<u8>> {
    let folder = PathBuf::from(std::env::var_os("WREWRITE_WANT")?);
    Some(std::fs::read(folder.join(name)).expect("the file that is wanted"))
}

fn rewritten(source: &[u8]) -> Vec<u8> {
    rewrite(source, Options::default()).unwrap().module
}

fn parts(error: &Error) -> (ErrorKind, Option<usize>, Option<usize>, &str) {
    (error.kind, error.place, error.function, &error.text)
}

#[test]
fn writes_what_the_program_writes() {
    let made = rewrite(SAMPLE, Options::default()).unwrap();
    let with_map = rewrite(SAMPLE, Options::default().with_map()).unwrap();
    assert_eq!((&made.module, made.map), (&with_map.module, None));
    assert_eq!(rewritten(&made.module), made.module);
    if let Some(want) = wanted("rewritten") {
        assert_eq!(made.module, want);
        assert_eq!(with_map.map.unwrap().into_bytes(), wanted("map").unwrap());
    }
}

#[test]
fn snips_functions() {
    let function: usize = std::env::var("WREWRITE_FUNCTION").map_or(0, |index| index.parse().unwrap());
    let made = Snip::new(SAMPLE).functions([function, function]).run().unwrap();
    if let Some(want) = wanted("snipped") {
        assert_eq!(made.module, want);
    }
    assert_eq!(Snip::new(SAMPLE).run(), rewrite(SAMPLE, Options::default()));
    let error = Snip::new(SAMPLE).function(usize::MAX).run().unwrap_err();
    assert_eq!(error.kind, ErrorKind::NoFunction);
}

#[test]
fn snips_with_a_map() {
    let options = Options::default().with_map();
    let made = Snip::new(NAMED).function(2).options(options).run().unwrap();
    // of the bodies that are kept, the `end` at 0x2b and the one at 0x31, which is a byte later now
    assert_eq!(made.module.len(), NAMED.len() + 1);
    assert_eq!(made.map.unwrap(), "2b 2b\n31 32\n");
}

#[test]
fn snips_by_name() {
    let by_name = Snip::new(NAMED).named("loop").unwrap().run().unwrap();
    assert_eq!(by_name, Snip::new(NAMED).function(2).run().unwrap());
    assert_eq!(by_name.module[38..51], *b"\x0a\x0b\x03\x02\0\x0b\x03\0\0\x0b\x02\0\x0b");
    let error = Snip::new(NAMED).named("nobody").unwrap_err();
    assert_eq!(parts(&error), (ErrorKind::NoFunction, None, None, "no function with a body has this name (NoFunction)"));
}

#[test]
fn finds_functions() {
    assert_eq!(find(NAMED, "loop"), Ok(2));
    assert_eq!(find(NAMED, "run"), Ok(2));
    assert_eq!(find(NAMED, "log").unwrap_err().kind, ErrorKind::NoFunction);
    let error = find(NAMED, "twin").unwrap_err();
    assert_eq!(parts(&error), (ErrorKind::NoFunction, None, None, "several functions have this name (SeveralFunctions)"));
    assert_eq!(find(b"", "loop").unwrap_err().kind, ErrorKind::Refused);
}

#[test]
fn warns_of_what_is_out_of_date() {
    let made = rewrite(STALE, Options::default()).unwrap();
    let warnings = made.warnings;
    assert_eq!((warnings.source_map, warnings.debug_info, warnings.names), (true, true, false));
    assert_eq!(rewrite(&made.module, Options::default()).unwrap().warnings, Default::default());
}

#[test]
fn strips_sections() {
    for options in [Options::default().strip_debug(), Options::default().strip_all()] {
        let made = rewrite(STALE, options).unwrap();
        assert_eq!((made.module.as_slice(), made.warnings), (SHORT, Default::default()));
    }
    let made = rewrite(NAMED, Options::default().strip_debug()).unwrap();
    assert_eq!(made.module, NAMED);
    let made = rewrite(NAMED, Options::default().strip_all()).unwrap();
    assert_eq!(made.module, NAMED[..50]);
}

#[test]
fn refuses_object_files() {
    let object = [SHORT, b"\0\x09\x07linking\x02"].concat();
    let error = rewrite(&object, Options::default()).unwrap_err();
    assert_eq!((error.kind, error.function), (ErrorKind::Refused, None));
    assert_eq!(error.text, "this is an object file: link it first (ObjectFile)");
}

#[test]
fn says_what_is_refused() {
    let error = rewrite(REFUSED, Options::default()).unwrap_err();
    assert_eq!(parts(&error), (ErrorKind::Refused, Some(0x22), Some(1), "a label is not open (NoSuchLabel)"));
    assert_eq!(error.to_string(), "0x22: function 1: a label is not open (NoSuchLabel)");
    let error = rewrite(b"", Options::default()).unwrap_err();
    assert_eq!(parts(&error), (ErrorKind::Refused, Some(0), None, "the bytes end too early (Truncated)"));
}

#[test]
fn finds_each_fault() {
    let mut faults = check(REFUSED);
    assert_eq!(faults.next().unwrap().to_string(), "0x22: function 1: a label is not open (NoSuchLabel)");
    assert_eq!(
        faults.next().unwrap().to_string(),
        "0x2a: function 3: an index is out of bounds for the function's locals (LocalOutOfRange)"
    );
    assert!(faults.next().is_none() && faults.next().is_none());
    assert_eq!(check(SAMPLE).count(), 0);
    assert_eq!(check(b"").map(|fault| fault.text).collect::<Vec<_>>(), ["the bytes end too early (Truncated)"]);
}

#[test]
fn validates_modules() {
    assert_eq!(validate(SAMPLE), Ok(()));
    let error = validate(REFUSED).unwrap_err();
    let text = "the operator is not valid here (InvalidOperator)";
    assert_eq!(parts(&error), (ErrorKind::Refused, Some(0x22), Some(1), text));
}

#[test]
fn has_the_version_of_the_crate() {
    let (major, minor, patch) = version();
    assert_eq!(format!("{major}.{minor}.{patch}"), env!("CARGO_PKG_VERSION"));
}

#[test]
fn two_threads_at_once() {
    let runs: Vec<_> = (0..2).map(|_| std::thread::spawn(|| rewritten(SAMPLE))).collect();
    for run in runs {
        assert_eq!(run.join().unwrap(), rewritten(SAMPLE));
    }
}
