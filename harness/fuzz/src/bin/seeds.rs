//! `seeds FOLDER` writes good files for the fuzzer to begin with.

use std::fs;
use std::path::PathBuf;

use cgx_harness::generate::{self, Rng};

/// The fuzzer changes a byte here and there; long files only slow it down.
const LONGEST: usize = 4_000;

fn main() -> std::io::Result<()> {
    let folder = PathBuf::from(std::env::args().nth(1).expect("usage: seeds FOLDER"));
    fs::create_dir_all(&folder)?;
    let mut rng = Rng::new(1);
    let random = (0..100).map(|_| generate::valid(&mut rng));
    let showcase = generate::showcase().into_iter().map(|(_, drawing)| drawing);
    let files = showcase.chain(random).map(|drawing| drawing.bytes());
    for (i, file) in files.filter(|file| file.len() <= LONGEST).enumerate() {
        fs::write(folder.join(format!("{i:03}.cgx")), file)?;
    }
    Ok(())
}
