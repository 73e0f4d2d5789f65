//! Polygons to shapes: the patched text's front end against the text's own, and against the reading where document 01 names a
//! difference.

use differential::compare::{Expected, Shapes, expected};
use differential::sides::by;
use differential::tally::{self, ALL};
use generators::Sample;
use generators::polygons::{self, FAMILIES, Family, Polygons};
use generators::rng::Rng;
use patched::{Front, Run};
use reading::geometry::Point;
use reading::walk::{Scan, walks};
use reading::{MAX_COORDINATE, READING, Refusal, Settings};
use std::panic::{AssertUnwindSafe, catch_unwind};

/// Polygons, given to the patched text and to the text as it is, with a fill rule and an overlay rule by their numbers.
struct Pair {
    ours: Front,
    theirs: text::Front,
    fill: usize,
    rule: usize,
}

impl Pair {
    /// In 56 turns every fill rule meets every overlay rule, with points in the middle of the polygons' edges and without.
    fn new(Polygons { subject, clip }: &Polygons, turn: usize) -> Self {
        let (fill, rule) = (turn % Front::FILLS, turn / Front::FILLS % Run::RULES);
        let keep_collinear = (turn / Front::FILLS / Run::RULES).is_multiple_of(2);
        let (ours, theirs) =
            (Front::new(subject, clip, keep_collinear), text::Front::new(subject, clip, keep_collinear));
        Self { ours, theirs, fill, rule }
    }

    /// The graph that the text makes; none if the polygons leave no edge.
    fn sample(&mut self) -> Option<Sample> {
        let (graph, state) = self.theirs.kept(self.fill, self.rule)?.lent();
        Some(Sample { graph, state })
    }

    /// The patched text's shapes, or a refusal's words: `overlay` panics with them, `try_extract_shapes` returns the refusal.
    fn shapes(&mut self, settings: Settings) -> Result<Shapes, String> {
        let plain = catch_unwind(AssertUnwindSafe(|| self.ours.overlay(self.fill, self.rule, settings)));
        let plain = plain.map_err(|panic| panic.downcast_ref::<String>().expect("words").clone());
        let tried = self.ours.kept(self.fill, self.rule).map_or(Ok(Vec::new()), |mut run| {
            run.set(settings);
            run.try_extract_shapes()
        });
        assert_eq!(plain, tried.map_err(|refusal| refusal.to_string()));
        plain
    }

    /// Compares with the reading and, outside D1, with the text; what document 01 says of the run, if it is walked.
    fn compare(&mut self, sample: &Sample, settings: Settings) -> Option<Expected> {
        let shapes = self.shapes(settings);
        let read = by(READING, sample, settings);
        let refusal = read.as_ref().map_or_else(|refusal| Some(*refusal), |outcome| outcome.owners.clone().err());
        match (refusal, &shapes) {
            (Some(Refusal { number, place }), Err(words)) => {
                assert!(words.starts_with(&format!("refused {number} at {place}: ")), "{words}");
            }
            (refusal, shapes) => assert_eq!((refusal, shapes.clone().ok()), (None, read.as_ref().unwrap().shapes())),
        }
        let outcome = read.ok()?;
        let walks = walks(&sample.graph, &sample.state, settings, Scan::Stays).expect("as above");
        let expected = expected(&walks, &outcome, settings.clockwise);
        if expected.is_equality() {
            let theirs = catch_unwind(AssertUnwindSafe(|| self.theirs.overlay(self.fill, self.rule, settings)));
            assert_eq!(shapes.ok(), theirs.ok(), "the text as it is");
        }
        Some(expected)
    }
}

/// Whether there is a text to be patched; says so if there is none.
fn at_hand() -> bool {
    if !patched::AT_HAND {
        println!("the text is not at hand: nothing was patched");
    }
    patched::AT_HAND
}

/// How often the rules take all their turns.
const ROUNDS: usize = 6;

/// Compares one family's polygons under each fill rule and overlay rule, in both directions, with several minima.
fn compare_family(family: Family) -> Vec<Option<Expected>> {
    let mut seen = Vec::new();
    for turn in 0..ROUNDS * 2 * Front::FILLS * Run::RULES {
        let mut rng = Rng::new(turn as u64 ^ (300 + family as u64) << 32);
        let size = rng.choose(&[2, 3, 4, 6, 10]);
        let mut pair = Pair::new(&polygons::sample(family, size, &mut rng), turn);
        match pair.sample() {
            Some(sample) => {
                let settings = tally::settings(&sample, &mut rng);
                seen.extend(settings.into_iter().map(|settings| pair.compare(&sample, settings)));
            }
            None => assert_eq!(pair.shapes(ALL), Ok(Vec::new())),
        }
    }
    seen
}

#[test]
fn polygons_to_shapes() {
    if !at_hand() {
        return;
    }
    let seen: Vec<Option<Expected>> = FAMILIES.into_iter().flat_map(compare_family).collect();
    let count = |wanted| seen.iter().filter(|&&expected| expected == wanted).count();
    let [plain, revisited] = [false, true].map(|revisited| count(Some(Expected::Equality { revisited })));
    let (first, refused) = (count(Some(Expected::Difference1)), count(None));
    println!(
        "{} runs: {plain} and, of anchors revisited, {revisited} as the text, {first} with D1, {refused} refused",
        seen.len()
    );
    assert!(plain > 20_000 && first > 100 && revisited > 20);
}

/// The pair for these contours of the subject, under the first fill rule and the first overlay rule.
fn of_subject(contours: &[&[(i32, i32)]]) -> Pair {
    let contour = |points: &&[(i32, i32)]| points.iter().map(|&(x, y)| Point::new(x, y)).collect();
    Pair::new(&Polygons { subject: contours.iter().map(contour).collect(), clip: Vec::new() }, 0)
}

/// An island touches the leftmost point of the hole that it lies in, and there is another shape: the text and the library bind
/// alike.
#[test]
fn an_island_at_the_anchor() {
    if !at_hand() {
        return;
    }
    let (hull, hole) = ([(0, 0), (20, 0), (20, 20), (0, 20)], [(4, 10), (10, 4), (16, 10), (10, 16)]);
    let (island, other) = ([(4, 10), (8, 9), (8, 11)], [(30, 0), (40, 0), (30, 10)]);
    let mut pair = of_subject(&[&hull, &hole, &island, &other]);
    let sample = pair.sample().expect("there are edges");
    assert_eq!(pair.compare(&sample, ALL), Some(Expected::Equality { revisited: true }));
    let shapes = pair.shapes(ALL).expect("the library binds");
    assert_eq!(shapes.iter().map(|shape| shape.len()).collect::<Vec<_>>(), [2, 1], "the hole is the first hull's");
    assert_eq!(pair.theirs.overlay(pair.fill, pair.rule, ALL), shapes, "the text binds alike");
}

/// What docs/INTEGRATION.md has one try, to see that the library answers.
#[test]
fn a_corner_past_the_limit() {
    if !at_hand() {
        return;
    }
    let corner_at = |far: i32| of_subject(&[&[(0, 0), (far, 0), (far, far), (0, far)]]).shapes(ALL);
    assert_eq!(corner_at(MAX_COORDINATE).map(|shapes| shapes.len()), Ok(1));
    assert!(corner_at(MAX_COORDINATE + 1).is_err_and(|words| words.starts_with("refused 3 at ")));
}
