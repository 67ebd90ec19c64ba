//! Runs the proved lister on every file of the vectors, and compares what it
//! prints with the reference's listing.
//!
//! The program is `crates/cgx_list/out/cgx_list` of the project, which `rt run`
//! in that crate's folder builds, and `rt ci` too; `listings PROGRAM` tries
//! another one. It names each file whose listing differs, and its last line is
//! `N passed, M failed`.

use std::ffi::OsString;
use std::io::{self, Write};
use std::process::{Command, ExitCode, Stdio};
use std::thread;

use cgx_harness::reference::lister;
use cgx_harness::vectors::{all, in_project};

fn main() -> ExitCode {
    let program = std::env::args_os()
        .nth(1)
        .unwrap_or_else(|| in_project("crates/cgx_list/out/cgx_list").into());
    let (mut passed, mut failed) = (0, 0);
    for case in all().into_iter().flat_map(|(_, cases)| cases) {
        if case.from.is_some() {
            continue;
        }
        match printed(&program, &case.bytes) {
            Ok(lines) if lines == lister(&case.bytes).as_bytes() => passed += 1,
            Ok(_) => {
                failed += 1;
                println!("listing of {}: FAILED", case.name);
            }
            Err(error) => {
                failed += 1;
                println!("listing of {}: FAILED: {error}", case.name);
            }
        }
    }
    println!("{passed} passed, {failed} failed");
    ExitCode::from(u8::from(failed > 0))
}

/// All that the program prints for this input.
fn printed(program: &OsString, input: &[u8]) -> io::Result<Vec<u8>> {
    let mut child = Command::new(program)
        .stdin(Stdio::piped())
        .stdout(Stdio::piped())
        .spawn()?;
    let mut stdin = child.stdin.take().expect("it is piped");
    // The program may end before it has read all: that is its right.
    let output = thread::scope(|scope| {
        scope.spawn(move || stdin.write_all(input).ok());
        child.wait_with_output()
    })?;
    if output.status.success() {
        Ok(output.stdout)
    } else {
        Err(io::Error::other(output.status.to_string()))
    }
}
