//! The text that vectors are stored in.

use std::fmt::Write;

use crate::reference::{Place, Run};

/// A file, or a file and a place in it.
#[derive(Clone, Debug, PartialEq, Eq)]
pub struct Case {
    pub name: String,
    /// Where one step is asked from; none where the whole file is asked.
    pub from: Option<Place>,
    pub bytes: Vec<u8>,
    /// The answers, a line each.
    pub says: Vec<String>,
    /// The lines of `from` and `bytes` as they are, so that they stay so.
    given: Vec<String>,
}

/// The cases of a text, or the line that is wrong.
pub fn read(text: &str) -> Result<Vec<Case>, String> {
    let mut cases: Vec<Case> = Vec::new();
    for (index, line) in text.lines().enumerate() {
        let wrong = || format!("line {}: {line}", index + 1);
        if line.is_empty() || line.starts_with('#') {
            continue;
        }
        if let Some(name) = line.strip_prefix("case ") {
            cases.push(Case {
                name: name.to_string(),
                from: None,
                bytes: Vec::new(),
                says: Vec::new(),
                given: Vec::new(),
            });
            continue;
        }
        let case = cases.last_mut().ok_or_else(wrong)?;
        if let Some(answer) = line.strip_prefix("  ") {
            case.says.push(answer.to_string());
            continue;
        }
        match line.split_once(' ') {
            Some(("from", words)) => case.from = Some(place(words).ok_or_else(wrong)?),
            Some(("hex", words)) => case.bytes.extend(unhexed(words).ok_or_else(wrong)?),
            _ => return Err(wrong()),
        }
        case.given.push(line.to_string());
    }
    Ok(cases)
}

/// The text of cases. Reading it gives them back.
pub fn write(cases: &[Case]) -> String {
    let mut text = String::new();
    for (index, case) in cases.iter().enumerate() {
        let gap = if index == 0 { "" } else { "\n" };
        writeln!(text, "{gap}case {}", case.name).expect("a String takes everything");
        for line in &case.given {
            text += line;
            text += "\n";
        }
        for line in &case.says {
            text += "  ";
            text += line;
            text += "\n";
        }
    }
    text
}

/// `6162` is two bytes, and `6162*3` these three times.
fn unhexed(words: &str) -> Option<Vec<u8>> {
    let (piece, times) = match words.split_once('*') {
        Some((piece, times)) => (piece, times.parse().ok()?),
        None => (words, 1),
    };
    let bytes: Option<Vec<u8>> = (0..piece.len())
        .step_by(2)
        .map(|at| u8::from_str_radix(piece.get(at..at + 2)?, 16).ok())
        .collect();
    Some(bytes?.repeat(times))
}

/// `4 cell - layer 64 run 72+2 library fresh ended`.
fn place(words: &str) -> Option<Place> {
    let words: Vec<&str> = words.split(' ').collect();
    let &[offset, "cell", cell, "layer", layer, "run", run, ref marks @ ..] = words.as_slice()
    else {
        return None;
    };
    let offset_or_none = |word: &str| match word {
        "-" => Some(None),
        number => number.parse().ok().map(Some),
    };
    let run = match run.split_once('+') {
        None => None,
        Some((first, count)) => Some(Run {
            first: first.parse().ok()?,
            count: count.parse().ok()?,
        }),
    };
    Some(Place {
        offset: offset.parse().ok()?,
        library_seen: marks.contains(&"library"),
        ended: marks.contains(&"ended"),
        cell: offset_or_none(cell)?,
        layer: offset_or_none(layer)?,
        run,
        after_struct: marks.contains(&"fresh"),
    })
}
