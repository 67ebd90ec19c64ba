//! Links the archive of the proved crates, and compiles the plain C that it is
//! measured against.
//!
//! The archive is where `make` leaves it, in the project's build folder;
//! CGX_ARCHIVE names another one. CC names another C compiler.

use std::env;
use std::path::{Path, PathBuf};
use std::process::Command;

const USUAL_PLACE: &str = "../build/libcgx.a";

fn main() {
    link_archive(&archive());
    link_plain_c();
}

fn archive() -> PathBuf {
    println!("cargo:rerun-if-env-changed=CGX_ARCHIVE");
    let named = env::var_os("CGX_ARCHIVE").map(PathBuf::from);
    let path = named.unwrap_or_else(|| Path::new(env!("CARGO_MANIFEST_DIR")).join(USUAL_PLACE));
    path.canonicalize().unwrap_or_else(|error| {
        panic!(
            "no archive at {}: {error}; run make above this folder, or set CGX_ARCHIVE",
            path.display()
        )
    })
}

fn link_archive(archive: &Path) {
    let folder = archive.parent().expect("a file is in a folder");
    let name = archive.file_name().expect("a file has a name");
    println!("cargo:rerun-if-changed={}", archive.display());
    println!("cargo:rustc-link-search=native={}", folder.display());
    println!(
        "cargo:rustc-link-lib=static:+verbatim={}",
        name.to_string_lossy()
    );
}

fn link_plain_c() {
    println!("cargo:rerun-if-changed=c");
    println!("cargo:rerun-if-changed=../include");
    println!("cargo:rerun-if-env-changed=CC");
    let folder = PathBuf::from(env::var_os("OUT_DIR").expect("cargo sets it"));
    let object = folder.join("cgx_plain.o");
    let library = folder.join("libcgx_plain.a");
    let compiler = env::var("CC").unwrap_or_else(|_| "cc".to_string());
    run(Command::new(compiler)
        .args([
            "-O3",
            "-std=c11",
            "-Wall",
            "-Wextra",
            "-fPIC",
            "-I../include",
            "-c",
            "c/cgx_plain.c",
            "-o",
        ])
        .arg(&object));
    run(Command::new("ar").arg("crs").args([&library, &object]));
    println!("cargo:rustc-link-search=native={}", folder.display());
    println!("cargo:rustc-link-lib=static=cgx_plain");
}

fn run(command: &mut Command) {
    let status = command.status();
    assert!(
        status.as_ref().is_ok_and(|status| status.success()),
        "{command:?}: {status:?}"
    );
}
