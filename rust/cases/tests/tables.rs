//! Every case of tests/tables: the library answers as the reading does, byte for byte, and both as is stored.

use cases::tables::{TABLES, answers, file, read};
use lending::LIBRARY;
use reading::READING;

/// Holds a table; what is stored is made anew by `cargo run -p cases -- --write`.
fn hold(name: &str) {
    assert!(TABLES.contains(&name));
    let cases = read(name);
    let mut runs = 0;
    for case in &cases {
        let (ours, due) = (case.ask(LIBRARY), case.ask(READING));
        assert!(!due.is_empty(), "{name}, {}: nothing is asked", case.title);
        assert_eq!(ours, due, "{name}, {}", case.title);
        runs += due.len();
    }
    let stored = std::fs::read_to_string(file(name, "answers")).expect("its answers are stored");
    let shown = answers(&cases, LIBRARY);
    for (at, (ours, due)) in (1..).zip(shown.lines().zip(stored.lines())) {
        assert_eq!(ours, due, "{name}.answers, line {at}");
    }
    assert_eq!(shown, stored, "{name}.answers");
    println!("{name}: {} cases, {runs} runs", cases.len());
}

#[test]
fn table_of_checks() {
    hold("checks");
}

#[test]
fn table_of_walks() {
    hold("walks");
}

#[test]
fn table_of_turns() {
    hold("turns");
}

#[test]
fn table_of_straight_points() {
    hold("straight");
}

#[test]
fn table_of_contours() {
    hold("contours");
}

#[test]
fn table_of_anchors() {
    hold("anchors");
}

#[test]
fn table_of_lookups() {
    hold("lookups");
}

#[test]
fn table_of_reports() {
    hold("reports");
}

#[test]
fn table_of_binding() {
    hold("binding");
}

#[test]
fn every_table_is_held() {
    let folder = file("", "").with_file_name("tables");
    let there =
        std::fs::read_dir(folder).expect("tests/tables is there").map(|entry| entry.expect("it can be read").path());
    let mut there: Vec<String> = there
        .filter(|path| path.extension().is_some_and(|ending| ending == "table"))
        .map(|path| path.file_stem().expect("a table has a name").to_string_lossy().into_owned())
        .collect();
    there.sort();
    let mut held = TABLES.to_vec();
    held.sort();
    assert_eq!(there, held);
}
