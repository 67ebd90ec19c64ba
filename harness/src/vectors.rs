//! The stored vectors of `tests/vectors`: files and made-up places, and all
//! that the reference answers of them.
//!
//! The C test asks the archive the same and compares. `tests/vectors/README.md`
//! tells the format; `vectors --write` stores the answers anew.

mod answers;
mod reached;
mod stored;

use std::path::{Path, PathBuf};

pub use answers::answers;
pub use reached::{reached, REACHED};
pub use stored::{read, write, Case};

/// The files that hold the vectors, below `tests/vectors`.
pub const STORED: [&str; 2] = ["small.txt", "large.txt"];

/// A path below the root of the project.
pub fn in_project(path: &str) -> PathBuf {
    Path::new(env!("CARGO_MANIFEST_DIR")).join("..").join(path)
}

/// All cases, with the path of each file that holds some.
pub fn all() -> Vec<(PathBuf, Vec<Case>)> {
    STORED
        .map(|name| {
            let path = in_project("tests/vectors").join(name);
            let text = std::fs::read_to_string(&path)
                .unwrap_or_else(|error| panic!("{}: {error}", path.display()));
            let cases = read(&text).unwrap_or_else(|error| panic!("{}: {error}", path.display()));
            (path, cases)
        })
        .into()
}
