//! One graph under one setting: the text's answer, ours, and what their comparison says.

use crate::sides::Outcome;
use reading::bind::anchor_visits;
use reading::geometry::Point;
use reading::walk::Walk;
use std::panic::{AssertUnwindSafe, catch_unwind};
use text::Run;

/// Shapes: each a hull, then its holes.
pub type Shapes = Vec<Vec<Vec<Point>>>;

/// What the text answers: contours in the order of its scan, visit states, and its shapes, or none where it panics.
#[derive(Clone, Debug, PartialEq, Eq)]
pub struct TextAnswer {
    pub contours: Vec<Vec<Point>>,
    pub states: Vec<u8>,
    pub shapes: Option<Shapes>,
}

/// Runs the text. The graph must be one on which no walk is refused, in whatever order the walks are taken: elsewhere the text
/// may run for ever.
pub fn ask_text(run: &mut Run) -> TextAnswer {
    run.extract_contours();
    let (contours, states) = (run.contours(), run.states());
    let shapes = catch_unwind(AssertUnwindSafe(|| run.extract_shapes())).ok();
    if shapes.is_some() {
        assert_eq!(run.states(), states, "both of the text's extractions walk alike");
    }
    TextAnswer { contours, states, shapes }
}

/// What document 01 says of a run.
#[derive(Clone, Copy, Debug, PartialEq, Eq)]
pub enum Expected {
    /// Everything is equal. Revisited: there are two hulls or more, and a hole passes its anchor point more than once.
    Equality { revisited: bool },
    /// A rejected walk leaves the scan's link unvisited: the crate moves on.
    Difference1,
}

impl Expected {
    pub fn is_equality(self) -> bool {
        matches!(self, Self::Equality { .. })
    }
}

pub fn expected(walks: &[Walk], outcome: &Outcome, clockwise: bool) -> Expected {
    let mut holes = outcome.contours.iter().zip(&outcome.kinds).filter(|(_, kind)| **kind == 1);
    if walks.iter().any(|walk| walk.is_difference_1()) {
        return Expected::Difference1;
    }
    let revisited = outcome.hulls() > 1 && holes.any(|(hole, _)| anchor_visits(hole, clockwise).count() > 1);
    Expected::Equality { revisited }
}

/// What was found equal.
#[derive(Clone, Copy, Debug, PartialEq, Eq)]
pub struct Equal {
    /// Contours in order, and the visit states, which tell hull from hole.
    pub contours: bool,
    /// The shapes with their holes; an orphan's refusal here is the text's panic.
    pub shapes: bool,
}

pub fn compare(outcome: &Outcome, text: &TextAnswer) -> Equal {
    Equal {
        contours: outcome.contours == text.contours && outcome.states == text.states,
        shapes: outcome.shapes() == text.shapes,
    }
}
