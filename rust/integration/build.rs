//! Copies the given text, puts proved.rs beside it, applies i_overlay.patch, and names the copy's files to the compiler.

#[path = "../text/given.rs"]
mod given;

use std::fs;
use std::path::Path;
use std::process::Command;

const ADAPTER: &str = "proved.rs";
const PATCH: &str = "i_overlay.patch";

fn main() {
    println!("cargo:rustc-cfg=patched");
    println!("cargo:rerun-if-changed={ADAPTER}");
    println!("cargo:rerun-if-changed={PATCH}");
    if let Some(text) = given::find() {
        let vendored = given::out().join("i_overlay");
        copy(&text, &vendored.join("src"));
        apply(&vendored);
        given::declare(&vendored.join("src"));
    }
}

/// The text's files, and the adapter where the patch declares it.
fn copy(text: &Path, sources: &Path) {
    for (module, files) in given::MODULES {
        fs::create_dir_all(sources.join(module)).expect("the output folder can be written");
        for file in files {
            let path = Path::new(module).join(file).with_extension("rs");
            write(&text.join(&path), &sources.join(&path));
        }
    }
    write(Path::new(ADAPTER), &sources.join("core").join(ADAPTER));
}

/// A copy that can be written, whether or not the file can.
fn write(from: &Path, to: &Path) {
    let content = fs::read(from).unwrap_or_else(|error| panic!("{}: {error}", from.display()));
    fs::write(to, content).expect("the output folder can be written");
}

/// Applies the patch, as whoever vendors the crate does.
fn apply(vendored: &Path) {
    let patch = Path::new(PATCH).canonicalize().expect("the patch stands in this package");
    let mut git = Command::new("git");
    // The copy may stand within a repository, this one: it is none of its files.
    git.arg("apply").arg(patch).current_dir(vendored).env("GIT_DIR", vendored);
    let status = git.status().unwrap_or_else(|error| panic!("{git:?} cannot be run: {error}"));
    assert!(status.success(), "{git:?} failed ({status}): the patch does not fit the text");
}
