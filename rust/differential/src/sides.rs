//! Our side of the comparison, as one value whoever answers.

use crate::compare::Shapes;
use generators::Sample;
use reading::bind::{NO_OWNER, Table, bind};
use reading::geometry::Point;
use reading::graph::Buffers;
use reading::walk::{Scan, walks};
use reading::{Refusal, Settings, Side};

/// What extraction and binding answer on a graph: kept contours in order, kinds, states, links walked with the signed doubled
/// area of all walks, and owners unless refused.
#[derive(Clone, Debug, PartialEq, Eq)]
pub struct Outcome {
    pub contours: Vec<Vec<Point>>,
    pub kinds: Vec<u8>,
    pub states: Vec<u8>,
    pub walked: usize,
    pub area: i64,
    pub owners: Result<Vec<u16>, Refusal>,
}

impl Outcome {
    fn new(table: &Table, states: Vec<u8>, (walked, area): (usize, i64), owners: Result<Vec<u16>, Refusal>) -> Self {
        Self {
            contours: (0..table.contours()).map(|contour| table.contour(contour)).collect(),
            kinds: table.kind.clone(),
            states,
            walked,
            area,
            owners,
        }
    }

    /// Each hull with the holes that it owns, as the text gives its shapes; none if binding was refused.
    pub fn shapes(&self) -> Option<Shapes> {
        let owners = self.owners.as_ref().ok()?;
        let hulls = self.kinds.iter().filter(|&&kind| kind == 0).count();
        let mut shapes: Shapes = vec![Vec::new(); hulls];
        for wanted in [0, 1] {
            for ((contour, &kind), &owner) in self.contours.iter().zip(&self.kinds).zip(owners) {
                if kind == wanted && hulls > 0 {
                    shapes[owner as usize].push(contour.clone());
                }
            }
        }
        Some(shapes)
    }

    /// Every hole's anchor is its least point, in whatever order the holes come.
    fn anchors_are_least(&self, clockwise: bool) -> bool {
        let is_least = |hole: &[Point]| hole.iter().min() == Some(&hole[clockwise as usize]);
        self.contours.iter().zip(&self.kinds).all(|(contour, &kind)| kind == 0 || is_least(contour))
    }

    pub fn hulls(&self) -> usize {
        self.kinds.iter().filter(|&&kind| kind == 0).count()
    }
}

/// One side's answer.
pub fn by(side: Side, sample: &Sample, settings: Settings) -> Result<Outcome, Refusal> {
    let mut lent = Buffers::for_states(sample.state.clone());
    let counts = (side.extract)(&sample.graph, settings, &mut lent)?;
    let table = counts.table(&lent);
    let mut owner = vec![0; table.contours()];
    let owners = (side.bind)(&table, settings.clockwise, &mut owner).map(|_| owner);
    let walked = (counts.walked as usize, counts.kept_area + counts.rejected_area);
    Ok(Outcome::new(&table, lent.state, walked, owners))
}

/// The reading's answer with the crate's own rule where document 01 names a difference: the scan moves on (D1). It may then find
/// holes out of the order that check 11 asks for; the crate asks for it with two hulls or more. None where that scan's walks are
/// refused. For a graph that passed checks 1 to 7.
pub fn by_crate_rules(sample: &Sample, settings: Settings) -> Option<Outcome> {
    let walks = walks(&sample.graph, &sample.state, settings, Scan::MovesOn).ok()?;
    let mut states = sample.state.clone();
    let mut table = Table::default();
    let mut walked = (0, 0);
    for walk in walks {
        walk.links.iter().for_each(|&link| states[link] = walk.state());
        walked.0 += walk.links.len();
        walked.1 += i64::try_from(walk.doubled_area()).expect("areas fit 64 bits");
        if walk.kept {
            table.push(&walk.points, walk.hole);
        }
    }
    let mut outcome = Outcome::new(&table, states, walked, Ok(Vec::new()));
    let mut owner = vec![0; table.contours()];
    outcome.owners = match bind(&table, settings.clockwise, &mut owner) {
        Err(Refusal { number: 11, .. }) if outcome.hulls() < 2 && outcome.anchors_are_least(settings.clockwise) => {
            Ok(vec![if outcome.hulls() == 0 { NO_OWNER } else { 0 }; table.contours()])
        }
        bound => bound.map(|_| owner),
    };
    Some(outcome)
}
