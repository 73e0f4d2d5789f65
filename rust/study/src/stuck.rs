//! The walk that was refused with 8 or 9, as far as it came.

use crate::answer::{Point, Refused};
use crate::view::links;
use guovdamas::study::Study;
use reading::walk::{Scan, Walk, walks_or_stuck};

#[derive(Clone, Debug, PartialEq, Eq)]
pub struct Stuck {
    pub is_hole: bool,
    pub links: Vec<usize>,
    /// From where it began to where it came: one more than its links.
    pub points: Vec<Point>,
}

impl Stuck {
    pub fn kind(&self) -> &'static str {
        if self.is_hole { "hole" } else { "hull" }
    }
}

/// By the reading in plain Rust, since the library hands out no walk that it refuses; none if it took no link, or if
/// this is another refusal. The error is that the reading and the library differ, and no study has it.
pub fn stuck_walk(study: &Study, refused: &Refused) -> Result<Option<Stuck>, String> {
    let refusal = refused.refusal;
    if !matches!(refusal.number(), 8 | 9) {
        return Ok(None);
    }
    let file = study.encode().map_err(|error| error.to_string())?;
    let read = reading::file::parse(&file).map_err(|refusal| format!("the reading answers {refusal:?}"))?;
    let stuck = walks_or_stuck(&read.graph, &read.state, read.settings, Scan::Stays).err();
    let is_same = |refused: reading::Refusal| (refused.number, refused.place) == (refusal.number(), refusal.place());
    match stuck.filter(|stuck| is_same(stuck.refusal)) {
        Some(stuck) => Ok((!stuck.walk.links.is_empty()).then(|| came_so_far(study, stuck.walk))),
        None => Err(format!("the reading does not say {refusal}")),
    }
}

fn came_so_far(study: &Study, walk: Walk) -> Stuck {
    let mut points: Vec<Point> = walk.points.iter().map(|point| [point.x, point.y]).collect();
    if let (Some(&link), Some(&left)) = (walk.links.last(), points.last()) {
        let [a, b] = links(study)[link].ends;
        points.push(if left == a { b } else { a });
    }
    Stuck { is_hole: walk.hole, links: walk.links, points }
}
