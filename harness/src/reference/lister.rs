//! The lister: one line for each good known record, then the verdict.

use std::fmt::Write;

use super::walk::visit;

/// The most bytes the lister takes.
pub const LARGEST_INPUT: usize = 65_536;

/// All that the lister prints for this input.
pub fn lister(input: &[u8]) -> String {
    if input.len() > LARGEST_INPUT {
        return "too large\n".to_string();
    }
    let mut lines = String::new();
    let result = visit(input, |record| {
        line(
            &mut lines,
            format_args!("{} {}", record.at, record.kind.name()),
        );
    });
    match result {
        Ok(()) => line(&mut lines, format_args!("ok")),
        Err(refusal) => line(&mut lines, format_args!("{refusal}")),
    }
    lines
}

fn line(lines: &mut String, words: std::fmt::Arguments) {
    writeln!(lines, "{words}").expect("a String takes everything");
}
