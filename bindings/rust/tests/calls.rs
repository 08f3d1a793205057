//! The six calls, on the sheets of examples/ and on small ones.

use intake::{Decision, Intake, Number};
use std::{fs, path::PathBuf};

/// A sheet that passes one rule and admits its second outcome; its condition misses a name.
const SHEET: &[u8] = br#"{"entity":"e","version":1,"args":{"v":2},"fields":{},"old_fields":{},"to_state":"b","state":"a","states":["a","b"],
    "condition":{"eq":["$args.w",1]},"preconditions":[{"assert":{"gt":["$args.v",1]}}],"invariants":[{"assert":false,"name":"i","message":"m"}],
    "outcomes":[{"name":"first","when":{"lt":["$args.v",1]}},{"name":"second"}]}"#;

fn root() -> PathBuf {
    PathBuf::from(env!("CARGO_MANIFEST_DIR")).join("../..")
}

fn answered(line: &str) -> Decision<'_> {
    Decision { number: Number::Answered, line: Some(line.as_bytes()) }
}

fn printed(decision: Decision) -> Vec<u8> {
    decision.line.map_or_else(|| format!("(refused {})\n", decision.number as u32).into_bytes(), <[u8]>::to_vec)
}

#[test]
fn every_example_gives_its_line() {
    let mut intake = Intake::new();
    let mut sheets = 0;
    for entry in fs::read_dir(root().join("examples")).unwrap() {
        let path = entry.unwrap().path();
        if path.extension().map_or(false, |extension| extension == "json") {
            let sheet = fs::read(&path).unwrap();
            assert_eq!(printed(intake.decide(&sheet)), fs::read(path.with_extension("line")).unwrap(), "{}", path.display());
            sheets += 1;
        }
    }
    assert!(sheets > 0);
}

#[test]
fn each_call_answers() {
    let mut intake = Intake::new();
    assert_eq!(intake.evaluate(SHEET), answered("(truth unknown (names \"$args.w\"))\n"));
    assert_eq!(intake.preconditions(SHEET), answered("(passed)\n"));
    assert_eq!(intake.invariants(SHEET), Decision { number: Number::InvariantFalse, line: Some(b"(refused 17 0 \"i\" \"m\")\n") });
    assert_eq!(intake.select(SHEET), answered("(selected 1 \"second\")\n"));
    assert_eq!(intake.admit(0, SHEET), answered("(admitted 0 \"first\")\n"));
    assert_eq!(intake.admit(2, SHEET), Decision { number: Number::NoInput, line: None });
    assert_eq!(intake.admit(u64::MAX, SHEET), Decision { number: Number::NoInput, line: None });
    assert_eq!(intake.decide(SHEET), answered("(admitted 1 \"second\")\n"));
}

#[test]
fn no_line_past_the_output() {
    let line = b"(admitted 1 \"second\")\n";
    assert_eq!(Intake::with_output(line.len()).decide(SHEET).line, Some(&line[..]));
    for bytes in [0, line.len() - 1] {
        assert_eq!(Intake::with_output(bytes).decide(SHEET), Decision { number: Number::LineTooLong, line: None });
    }
}

#[test]
fn any_bytes_are_answered() {
    let mut intake = Intake::new();
    assert_eq!(intake.decide(b"").number, Number::NotJson);
    assert_eq!(intake.decide(&[255]).number, Number::NotUtf8);
    assert_eq!(intake.decide(&[b' '; 32_769]).number, Number::SheetTooLong);
}

/// What stands behind INTAKE_ in the header's lines that begin so.
fn of_the_header(beginning: &str) -> Vec<String> {
    let header = fs::read_to_string(root().join("include/intake.h")).unwrap();
    header.lines().filter_map(|line| line.strip_prefix(beginning)?.strip_prefix("INTAKE_").map(str::to_owned)).collect()
}

#[test]
fn numbers_are_those_of_the_header() {
    let header: Vec<String> = of_the_header("    ").iter().map(|line| line.replace('_', "").trim_end_matches(',').to_lowercase()).collect();
    let here: Vec<String> = intake::NUMBERS.iter().map(|number| format!("{number:?} = {}", *number as u32).to_lowercase()).collect();
    assert_eq!(here, header);
}

#[test]
fn the_output_is_that_of_the_header() {
    assert!(of_the_header("#define ").contains(&format!("OUTPUT_BYTES {}", intake::OUTPUT_BYTES)));
}

#[test]
fn the_library_has_the_version_of_the_crate() {
    let parts: Vec<u32> = env!("CARGO_PKG_VERSION").split('.').map(|part| part.parse().unwrap()).collect();
    assert_eq!(intake::version(), 10_000 * parts[0] + 100 * parts[1] + parts[2]);
}
