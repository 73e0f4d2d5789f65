//! Study files: read and written as the reading does, on every case, every cut of E2's file, limits, generated graphs.

use generators::planar::{FAMILIES, sample};
use generators::rng::Rng;
use guovdamas::study::{MAX_ENTRIES, MAX_NODES, Study, StudyError};
use guovdamas::{Graph, MAX_LINKS, Options};
use lending::{lists, options};
use reading::file::{self, encode, parse};
use reading::{Refusal, Settings};
use std::path::PathBuf;

fn cases() -> PathBuf {
    PathBuf::from(env!("CARGO_MANIFEST_DIR")).join("../../tests/cases")
}

fn refusal(error: StudyError) -> Refusal {
    Refusal { number: error.number().expect("reading has a number"), place: error.place() }
}

/// Both read the file alike, and what was read is written alike.
fn compare(file: &[u8]) {
    match (Study::parse(file), parse(file)) {
        (Err(ours), Err(due)) => {
            assert_eq!(refusal(ours), due);
            let said = format!("refused {} at {}: ", due.number, due.place);
            assert!(ours.to_string().starts_with(&said), "{ours}");
        }
        (Ok(ours), Ok(due)) => {
            let theirs = guovdamas::Lists { top: &ours.tops(), ..ours.graph.lists() };
            assert_eq!(format!("{theirs:?}"), format!("{:?}", lists(&due.graph)));
            assert_eq!((ours.states(), ours.options), (due.state.clone(), options(due.settings)));
            assert_eq!(ours.encode().as_deref(), Ok(file));
            assert_eq!(encode(&due), file);
            let shapes = ours.extract_shapes();
            let refused = shapes.err().map(|refusal| format!("refused {} at {}\n", refusal.number(), refusal.place()));
            let answer = file::answer(file);
            assert_eq!(refused, answer.starts_with("refused").then_some(answer));
        }
        (ours, due) => panic!("{ours:?} and {due:?}"),
    }
}

#[test]
fn every_case_is_read_and_written_as_the_reading_does() {
    let paths =
        std::fs::read_dir(cases()).expect("tests/cases is there").map(|entry| entry.expect("it is read").path());
    let graphs: Vec<PathBuf> = paths.filter(|path| path.extension().is_some_and(|ending| ending == "graph")).collect();
    assert!(graphs.len() > 100);
    graphs.iter().for_each(|path| compare(&std::fs::read(path).expect("it is there")));
}

#[test]
fn every_cut_and_every_changed_byte() {
    let square = std::fs::read(cases().join("e2.graph")).expect("it is there");
    for end in 0..square.len() {
        compare(&square[..end]);
        for byte in [0, 1, 2, 3, 255, square[end] ^ 1] {
            let mut changed = square.clone();
            changed[end] = byte;
            compare(&changed);
        }
    }
}

#[test]
fn limits_of_the_file() {
    let settings = [9, 0, 0, 0, 3, 0, 0, 0, 0, 0, 0, 0, 0, 0, 0];
    let link = [&[22, 0, 0, 0, 1, 0][..], &[0; 22]].concat();
    let node = |entries: usize| {
        let length = 2 * entries as u32;
        [&length.to_le_bytes()[..], &[2, 0], &vec![0; length as usize]].concat()
    };
    for links in [MAX_LINKS, MAX_LINKS + 1] {
        let file = [&settings[..], &link.repeat(links)].concat();
        compare(&file);
        compare(&file[..file.len() - 1]);
    }
    for nodes in [MAX_NODES, MAX_NODES + 1] {
        compare(&[&settings[..], &node(0).repeat(nodes)].concat());
    }
    for entries in [MAX_ENTRIES, MAX_ENTRIES + 1, usize::from(u16::MAX) * 1000] {
        compare(&[&settings[..], &node(entries)].concat());
    }
}

#[test]
fn generated_graphs_are_written_as_the_reading_does() {
    for seed in 0..300 {
        let mut rng = Rng::new(seed ^ 8 << 40);
        let sample = sample(FAMILIES[seed as usize % FAMILIES.len()], 4, &mut rng);
        let settings = Settings { clockwise: rng.chance(50), minimum: rng.next(), drop_straight: false };
        compare(&encode(&file::Study { settings, graph: sample.graph, state: sample.state }));
    }
}

#[test]
fn what_cannot_be_written() {
    let pushed = |links: usize, nodes: usize, entry: u32| {
        let mut study = Study::new(Graph::new(), Options::default());
        (0..links).for_each(|_| study.push_link([[0, 0], [1, 0]], [0, 1], 0, 0));
        (0..nodes).for_each(|_| study.graph.push_node([entry; 2]));
        study.encode().map(|file| file.len())
    };
    assert_eq!(pushed(MAX_LINKS, MAX_NODES, 0), Ok(15 + 28 * MAX_LINKS + 10 * MAX_NODES));
    assert_eq!(pushed(MAX_LINKS + 1, 0, 0), Err(StudyError::TooManyLinks));
    assert_eq!(pushed(0, MAX_NODES + 1, 0), Err(StudyError::TooManyNodes));
    assert_eq!(pushed(0, 1, 65_536), Err(StudyError::TooWide(65_536)));
    let mut study = Study::new(Graph::new(), Options::default());
    study.graph.push_node(vec![0; MAX_ENTRIES + 1]);
    assert_eq!(study.encode(), Err(StudyError::TooManyEntries));
}
