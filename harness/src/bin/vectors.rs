//! Compares the stored vectors with what the reference says of them.
//!
//! `vectors` names each case whose answers differ; `vectors --write` stores
//! the reference's answers anew, and the files that `cgx_test_reader` is run on
//! with what it must print. The last line is `N passed, M failed`.

use std::fs;
use std::process::ExitCode;

use cgx_harness::vectors::{all, answers, in_project, reached, write, Case, REACHED};

fn main() -> ExitCode {
    let words: Vec<String> = std::env::args().skip(1).collect();
    match words.iter().map(String::as_str).collect::<Vec<_>>()[..] {
        [] => compare(),
        ["--write"] => store(),
        _ => {
            eprintln!("usage: vectors [--write]");
            ExitCode::from(2)
        }
    }
}

fn compare() -> ExitCode {
    let (mut passed, mut failed) = (0, 0);
    for (_, cases) in all() {
        for case in cases {
            if answers(&case) == case.says {
                passed += 1;
            } else {
                failed += 1;
                println!("{}: FAILED", case.name);
            }
        }
    }
    println!("{passed} passed, {failed} failed");
    ExitCode::from(u8::from(failed > 0))
}

fn store() -> ExitCode {
    let mut stored: Vec<Case> = Vec::new();
    for (path, mut cases) in all() {
        for case in &mut cases {
            case.says = answers(case);
        }
        fs::write(path, write(&cases)).expect("the vectors can be written");
        stored.append(&mut cases);
    }
    let crate_folder = in_project("crates/cgx_test_reader");
    let data = crate_folder.join("data");
    fs::create_dir_all(&data).expect("the folder can be made");
    let (mut names, mut printed) = (String::new(), String::new());
    for name in REACHED {
        let case = stored
            .iter()
            .find(|case| case.name == name)
            .expect("a stored case");
        fs::write(data.join(name), &case.bytes).expect("the file can be written");
        names += &format!("{name}\n");
        printed += &reached(case);
    }
    fs::write(crate_folder.join("args"), names).expect("the names can be written");
    fs::write(crate_folder.join("stdout"), printed).expect("the lines can be written");
    println!("{} cases", stored.len());
    ExitCode::SUCCESS
}
