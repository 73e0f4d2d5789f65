//! The given text against the reading (and, with the feature `library`, the library): its stored answers, and, where the text is
//! at hand, generated graphs. The program `differential` compares many more.

use differential::compare::{Expected, ask_text, expected};
use differential::sides::by;
use differential::{stored, tally};
use generators::Sample;
use generators::planar::FAMILIES;
use reading::READING;
use reading::file::{Study, parse};
use reading::walk::{Scan, walks};
use text::Run;

/// The sample of the text's answers, made by `differential --store 160`.
const STORED: &str = include_str!("../../../tests/rust-data/text-answers.txt");

#[test]
fn stored_answers() {
    let cases = stored::parse(STORED);
    assert_eq!(cases.len(), 160);
    for stored::Case { file, answer } in &cases {
        assert_eq!(&reading::file::answer(file), answer);
        #[cfg(feature = "library")]
        assert_eq!(&by_library(file), answer);
    }
    let revisited = cases.iter().filter(|case| is_revisited(&case.file)).count();
    println!("{} stored answers of the text replayed, {revisited} of anchors passed again", cases.len());
    assert!(revisited >= 20);
}

/// Whether a hole whose shape is searched passes its anchor point more than once.
fn is_revisited(file: &[u8]) -> bool {
    let Study { settings, graph, state } = parse(file).expect("a stored graph is well formed");
    let walks = walks(&graph, &state, settings, Scan::Stays).expect("a stored graph is walked");
    let outcome = by(READING, &Sample { graph, state }, settings).expect("a stored graph is walked");
    expected(&walks, &outcome, settings.clockwise) == Expected::Equality { revisited: true }
}

/// The library's answer in the program's words.
#[cfg(feature = "library")]
fn by_library(file: &[u8]) -> String {
    let Study { settings, graph, state } = parse(file).expect("a stored graph is well formed");
    let outcome = by(lending::LIBRARY, &Sample { graph, state }, settings).expect("a stored graph is walked");
    let shapes = outcome.shapes();
    stored::print(&differential::compare::TextAnswer { contours: outcome.contours, states: outcome.states, shapes })
}

#[test]
fn stored_answers_are_the_texts() {
    if text::AT_HAND {
        assert_eq!(stored::write(160), STORED);
    } else {
        println!("the text is not at hand: its stored answers were not asked for again");
    }
}

/// E8: the text calls the one contour that it keeps a hole, and drops it (D1). tests/rust-data/e8-crate.svg shows this.
#[test]
fn the_text_drops_the_hull_of_the_incident() {
    let file = include_bytes!("../../../tests/cases/e8.graph");
    let Study { settings, graph, state } = parse(file).expect("E8 is well formed");
    let walks = walks(&graph, &state, settings, Scan::MovesOn).expect("E8 is walked");
    let kept: Vec<_> = walks.into_iter().filter(|walk| walk.kept).collect();
    assert_eq!(kept.iter().map(|walk| walk.hole).collect::<Vec<_>>(), [true]);
    if !text::AT_HAND {
        println!("the text is not at hand: it was not asked about E8");
        return;
    }
    let answer = ask_text(&mut Run::new(&graph, &state, settings, 0));
    assert_eq!(answer.contours, [kept[0].points.clone()]);
    assert_eq!(kept[0].links.iter().map(|&link| answer.states[link]).collect::<Vec<_>>(), [2; 3]);
    // a debug assertion of the text sees that the hole's anchor is not its least point
    assert_eq!(answer.shapes, if cfg!(debug_assertions) { None } else { Some(Vec::new()) });
}

#[test]
fn generated_graphs() {
    if !text::AT_HAND {
        println!("the text is not at hand: no generated graph was compared with it");
        return;
    }
    println!("{}", tally::Tally::HEADINGS);
    let mut revisited = 0;
    for family in FAMILIES {
        let tally = tally::planar(family, 1000);
        println!("| {family:?} |{tally}");
        assert_eq!(tally.findings, 0, "{:?}", tally.smallest);
        revisited += tally.revisited;
    }
    assert!(revisited > 2000, "only {revisited} runs have anchors passed again");
    let tally = tally::outside(1000);
    println!("| outside the domain |{tally}");
    assert_eq!(tally.findings, 0, "{:?}", tally.smallest);
}
