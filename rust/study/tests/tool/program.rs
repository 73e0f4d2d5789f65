//! The program `study` as it is called: its words, its status, and errors on standard error.

use crate::look::path;
use std::process::{Command, Output};

fn study(words: &[&str]) -> Output {
    Command::new(env!("CARGO_BIN_EXE_study")).args(words).output().expect("it is run")
}

/// Done: status 0, and nothing on standard error.
fn done(words: &[&str]) -> String {
    let output = study(words);
    assert!(output.status.success() && output.stderr.is_empty(), "{words:?}: {output:?}");
    String::from_utf8(output.stdout).expect("it says words")
}

/// Not done: status 1, nothing on standard output, and this in one line on standard error.
fn fails(words: &[&str], why: &str) {
    let output = study(words);
    let said = String::from_utf8(output.stderr).expect("it says words");
    assert_eq!((output.status.code(), output.stdout.len()), (Some(1), 0), "{words:?}");
    assert!(said.starts_with("study: ") && said.contains(why) && said.lines().count() == 1, "{words:?}: {said}");
}

#[test]
fn commands() {
    let folder = std::env::temp_dir().join(format!("study-{}", std::process::id()));
    std::fs::create_dir_all(&folder).expect("a folder");
    let ours = |name: &str| folder.join(name).to_string_lossy().into_owned();
    let e8 = path("cases/e8.graph").to_string_lossy().into_owned();
    assert!(done(&["--help"]).contains("study make TEXT OUT.graph"));
    assert!(done(&["show", &e8]).contains("rejected   2"));
    assert!(done(&["show", &e8, "--json"]).starts_with("{\"links\": 9, "));
    assert_eq!(done(&["draw", &e8, &ours("e8.svg")]), "");
    std::fs::write(ours("e8.text"), done(&["dump", &e8])).expect("it is written");
    assert_eq!(done(&["make", &ours("e8.text"), &ours("e8.graph")]), "");
    assert_eq!(std::fs::read(ours("e8.graph")).expect("it is there"), std::fs::read(&e8).expect("it is there"));
    assert_eq!(
        std::fs::read(ours("e8.svg")).expect("it is there"),
        std::fs::read(path("rust-data/e8.svg")).expect("it is there")
    );
    assert!(done(&["show", "--drop-straight", &e8, "--json"]).contains("\"straight_points\": \"dropped\", "));
    assert_eq!(done(&["draw", &e8, &ours("e8.svg"), "--drop-straight"]), "");
    let picture = std::fs::read_to_string(ours("e8.svg")).expect("it is there");
    assert!(picture.contains(">3 points left, straight ones dropped<"), "{picture}");
    std::fs::remove_dir_all(&folder).expect("it is ours");
}

#[test]
fn faults() {
    let malformed = path("cases/13-kind-4.graph").to_string_lossy().into_owned();
    assert!(done(&["show", &malformed]).starts_with("refused 13 at 71: "));
    fails(&[], "--help");
    fails(&["paint"], "--help");
    fails(&["show"], "--help");
    fails(&["dump", &malformed, "--drop-straight"], "--help");
    fails(&["show", "no-such.graph"], "no-such.graph: ");
    fails(&["draw", &malformed, "never.svg"], "refused 13 at 71: ");
    fails(&["dump", &malformed], "refused 13 at 71: ");
    fails(&["make", &malformed, "never.graph"], "line 1: this is no line of a study");
}
