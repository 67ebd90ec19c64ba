//! The stored vectors hold what the reference says, and `cgx_test_reader` is run on
//! files of theirs and is to print what the reference says.

use std::fs;

use cgx_harness::vectors::{all, answers, in_project, reached, read, write, Case, REACHED};

fn cases() -> Vec<Case> {
    all().into_iter().flat_map(|(_, cases)| cases).collect()
}

#[test]
fn vectors_are_what_the_reference_says() {
    let cases = cases();
    assert!(cases.len() >= 1_134, "{} cases", cases.len());
    let differing: Vec<&str> = cases
        .iter()
        .filter(|case| answers(case) != case.says)
        .map(|case| case.name.as_str())
        .collect();
    assert!(differing.is_empty(), "{differing:?}");
}

#[test]
fn names_stand_once() {
    let mut names: Vec<String> = cases().into_iter().map(|case| case.name).collect();
    let all = names.len();
    names.sort();
    names.dedup();
    assert_eq!(names.len(), all);
}

#[test]
fn what_is_written_is_read_back() {
    for (path, cases) in all() {
        let text = fs::read_to_string(&path).expect("a stored file");
        assert!(write(&cases) == text, "{}", path.display());
        assert_eq!(read(&text).as_ref(), Ok(&cases));
    }
    for wrong in [
        "hex 00",
        "case a\nhex 0",
        "case a\nhex 0g",
        "case a\nfrom 4",
        "case a\n word",
    ] {
        assert!(read(wrong).is_err(), "{wrong}");
    }
}

#[test]
fn what_only_rattle_reaches_is_what_the_reference_says() {
    let cases = cases();
    let folder = in_project("crates/cgx_test_reader");
    let stored = |name: &str| {
        let path = folder.join(name);
        fs::read(&path).unwrap_or_else(|error| panic!("{}: {error}", path.display()))
    };
    let (mut names, mut printed) = (String::new(), String::new());
    for name in REACHED {
        let case = cases
            .iter()
            .find(|case| case.name == name)
            .expect("a stored case");
        assert!(stored(&format!("data/{name}")) == case.bytes, "{name}");
        names += &format!("{name}\n");
        printed += &reached(case);
    }
    assert!(stored("args") == names.as_bytes(), "args");
    assert!(stored("stdout") == printed.as_bytes(), "stdout");
}
