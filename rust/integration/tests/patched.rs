//! The patched text against the text as it is: equal shapes in the stated domain, the reading's answers everywhere, and refusals
//! that come out.

use differential::compare::{Expected, TextAnswer, ask_text, compare, expected};
use differential::sides::by;
use differential::{stored, tally};
use generators::planar::{self, FAMILIES};
use generators::rng::Rng;
use generators::{Sample, joints, wild};
use patched::Run;
use reading::file::{Study, parse};
use reading::geometry::Point;
use reading::graph::{Buffers, Graph, check};
use reading::walk::{Scan, walks};
use reading::{MAX_COORDINATE, MAX_LINKS, READING, Refusal, Settings};
use std::fs;
use std::panic::{AssertUnwindSafe, catch_unwind};
use std::path::Path;

// The adapter is compiled within the text alone; named here, `cargo fmt` looks at it too.
#[cfg(any())]
#[path = "../proved.rs"]
mod proved;

/// Whether there is a text to be patched; says so if there is none.
fn at_hand() -> bool {
    if !patched::AT_HAND {
        println!("the text is not at hand: nothing was patched");
    }
    patched::AT_HAND
}

/// The patched text's shapes. Where `try_extract_shapes` returns a refusal, `extract_shapes` panics with its words.
fn shapes(run: &mut Run) -> Result<Vec<Vec<Vec<Point>>>, Refusal> {
    let tried = run.try_extract_shapes();
    let plain = catch_unwind(AssertUnwindSafe(|| run.extract_shapes()));
    let words = plain.as_ref().map_err(|panic| panic.downcast_ref::<String>().expect("words").clone());
    assert_eq!(words, tried.as_ref().map_err(|refusal| refusal.to_string()));
    tried.map_err(|refusal| Refusal { number: refusal.number(), place: refusal.place() })
}

/// The patched text's answer, as the text's is asked for; a refusal if there are no walks.
fn ask_patched(sample: &Sample, settings: Settings, rule: usize) -> Result<TextAnswer, Refusal> {
    let mut run = Run::new(&sample.graph, &sample.state, settings, rule);
    let walked = catch_unwind(AssertUnwindSafe(|| run.extract_contours()));
    let (contours, states) = (run.contours(), run.states());
    let shapes = shapes(&mut run);
    if shapes.is_ok() {
        assert_eq!(run.states(), states, "both extractions walk alike");
    }
    match shapes {
        Err(refusal) if walked.is_err() => Err(refusal),
        shapes => {
            walked.expect("the shapes are refused if the contours are");
            Ok(TextAnswer { contours, states, shapes: shapes.ok() })
        }
    }
}

/// Compares one run with the reading and, in the stated domain, with the text; what document 01 says of it, if it is walked.
fn compare_run(sample: &Sample, settings: Settings, rule: usize, in_domain: bool) -> Option<Expected> {
    let answer = ask_patched(sample, settings, rule);
    let outcome = match by(READING, sample, settings) {
        Ok(outcome) => outcome,
        Err(refusal) => {
            assert_eq!(answer, Err(refusal));
            return None;
        }
    };
    let answer = answer.expect("the reading refuses nothing here");
    let equal = compare(&outcome, &answer);
    assert!(equal.contours && equal.shapes, "{outcome:?}\n{answer:?}");
    let walks = walks(&sample.graph, &sample.state, settings, Scan::Stays).expect("as above");
    let expected = expected(&walks, &outcome, settings.clockwise);
    if in_domain && expected.is_equality() {
        let text = ask_text(&mut text::Run::new(&sample.graph, &sample.state, settings, rule));
        assert_eq!(answer, text, "the text as it is");
    }
    Some(expected)
}

#[test]
fn generated_graphs() {
    if !at_hand() {
        return;
    }
    let mut seen = Vec::new();
    for seed in 0..3000 {
        let mut rng = Rng::new(seed ^ 55 << 40);
        let size = rng.choose(&[2, 3, 4, 6, 10]);
        let sample = planar::sample(FAMILIES[seed as usize % FAMILIES.len()], size, &mut rng);
        for settings in tally::settings(&sample, &mut rng) {
            seen.push(compare_run(&sample, settings, rng.below(Run::RULES), true));
        }
    }
    let count = |wanted| seen.iter().filter(|&&expected| expected == Some(wanted)).count();
    let [plain, revisited] = [false, true].map(|revisited| count(Expected::Equality { revisited }));
    let first = count(Expected::Difference1);
    println!("{} runs: {plain} and, of anchors revisited, {revisited} as the text, {first} with D1", seen.len());
    assert!(plain > 20_000 && first > 500 && revisited > 1000);
}

#[test]
fn graphs_outside_the_domain() {
    if !at_hand() {
        return;
    }
    let mut refused = 0;
    for seed in 0..2000 {
        let mut rng = Rng::new(seed ^ 56 << 40);
        let mut upset = planar::sample(FAMILIES[seed as usize % FAMILIES.len()], 4, &mut rng);
        planar::upset_tops(&mut upset, &mut rng);
        for sample in [upset, wild::sample(8, &mut rng)] {
            let settings = Settings { clockwise: rng.chance(50), minimum: rng.choose(&[0, 1]), ..tally::ALL };
            refused += compare_run(&sample, settings, rng.below(Run::RULES), false).is_none() as usize;
        }
    }
    println!("4000 runs, {refused} refused");
    assert!(refused > 100);
}

/// Flat contours without the points on a straight line: by the library's rule. The shapes' points the crate removes itself.
#[test]
fn flat_contours_without_straight_points() {
    if !at_hand() {
        return;
    }
    let mut gone = 0;
    for seed in 0..1000 {
        let mut rng = Rng::new(seed ^ 57 << 40);
        let sample = planar::sample(FAMILIES[seed as usize % FAMILIES.len()], 4, &mut rng);
        let sample = joints::split(&sample, &mut rng);
        let settings = Settings { clockwise: rng.chance(50), minimum: rng.choose(&[0, 1, 100]), drop_straight: true };
        let mut run = Run::new(&sample.graph, &sample.state, settings, rng.below(Run::RULES));
        run.extract_contours();
        let due = by(READING, &sample, settings).expect("planar graphs are walked");
        assert_eq!((run.contours(), run.states()), (due.contours, due.states));
        let left = run.contours().concat().len();
        run.set(Settings { drop_straight: false, ..settings });
        run.extract_contours();
        gone += run.contours().concat().len() - left;
    }
    assert!(gone > 10_000, "only {gone} points went");
}

/// The patched text's answer in the program's words.
fn printed(sample: &Sample, settings: Settings) -> String {
    match shapes(&mut Run::new(&sample.graph, &sample.state, settings, 0)) {
        Err(Refusal { number, place }) => format!("refused {number} at {place}\n"),
        Ok(_) => stored::print(&ask_patched(sample, settings, 0).expect("as above")),
    }
}

/// A case of tests/cases, if its graph passes checks 1 to 7: others cannot be said in the text's types.
fn case(file: &Path) -> Option<(Sample, Settings)> {
    let Study { settings, graph, state } = parse(&fs::read(file).expect("a case is a file")).ok()?;
    check(&graph, &Buffers::for_states(state.clone())).ok()?;
    Some((Sample { graph, state }, settings))
}

const CASES: &str = concat!(env!("CARGO_MANIFEST_DIR"), "/../../tests/cases");

#[test]
fn program_cases() {
    if !at_hand() {
        return;
    }
    let mut cases = 0;
    for entry in fs::read_dir(CASES).expect("tests/cases is there") {
        let file = entry.expect("tests/cases can be read").path();
        if file.extension().is_some_and(|extension| extension == "graph")
            && let Some((sample, settings)) = case(&file)
        {
            let answer = fs::read_to_string(file.with_extension("out")).expect("a case has its answer");
            assert_eq!(printed(&sample, settings), answer, "{}", file.display());
            cases += 1;
        }
    }
    println!("{cases} cases");
    assert!(cases > 20);
}

/// D1: after two rejected walks the text takes the third contour, of links 0, 1 and 8, for a hole, and drops it or, with its debug
/// assertions on, panics; patched, it is a hull.
#[test]
fn the_incident() {
    if !at_hand() {
        return;
    }
    let (sample, settings) = case(&Path::new(CASES).join("e8.graph")).expect("E8 passes the checks");
    let hull: Vec<Point> = [(10, -10), (0, 0), (10, -20)].map(|(x, y)| Point::new(x, y)).to_vec();
    let text = ask_text(&mut text::Run::new(&sample.graph, &sample.state, settings, 0));
    let patched = ask_patched(&sample, settings, 0).unwrap();
    assert!(text.shapes.is_none_or(|shapes| shapes.is_empty()));
    assert_eq!(patched.shapes, Some(vec![vec![hull]]));
    assert_eq!([0, 1, 8].map(|link| (text.states[link], patched.states[link])), [(2, 3); 3]);
}

/// A row of triangles, the last with its right corner at x.
fn triangles(count: usize, x: i32) -> Sample {
    let triangle = |number: usize| {
        let (left, right) = (2 * number as i32, if number + 1 < count { 2 * number as i32 + 1 } else { x });
        [([left, 0], [left, 1], 0), ([left, 0], [right, 0], 1), ([left, 1], [right, 0], 0)]
    };
    let graph = Graph::of_links(&(0..count).flat_map(triangle).collect::<Vec<_>>());
    let state = vec![0; graph.links()];
    Sample { graph, state }
}

#[test]
fn the_limits() {
    if !at_hand() {
        return;
    }
    let most = MAX_LINKS / 3;
    let found = |count, x| ask_patched(&triangles(count, x), tally::ALL, 0).map(|answer| answer.shapes.unwrap().len());
    assert_eq!(found(most, MAX_COORDINATE), Ok(most));
    assert_eq!(found(most + 1, MAX_COORDINATE), Err(Refusal { number: 1, place: 0 }));
    assert_eq!(found(2, MAX_COORDINATE + 1), Err(Refusal { number: 3, place: 4 }));
}
