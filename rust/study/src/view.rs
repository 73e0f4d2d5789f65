//! A study's links and nodes, as the tool looks at them.

use crate::answer::Point;
use guovdamas::study::Study;
use guovdamas::{Lists, MAX_COORDINATE};

/// One link, with its top and state as the file has them.
#[derive(Clone, Copy, Debug, PartialEq, Eq)]
pub struct Link {
    pub ends: [Point; 2],
    pub ids: [u32; 2],
    pub top: u8,
    pub state: u8,
}

impl Link {
    pub fn is_skipped(&self) -> bool {
        self.state == 1
    }
}

pub fn links(study: &Study) -> Vec<Link> {
    let Lists { ax, ay, bx, by, a_id, b_id, .. } = study.graph.lists();
    let bytes = study.tops().into_iter().zip(study.states()).enumerate();
    let link = |(k, (top, state))| Link { ends: [[ax[k], ay[k]], [bx[k], by[k]]], ids: [a_id[k], b_id[k]], top, state };
    bytes.map(link).collect()
}

/// Each node's list.
pub fn nodes(study: &Study) -> Vec<&[u32]> {
    let Lists { start, list, .. } = study.graph.lists();
    start.windows(2).map(|ends| &list[ends[0] as usize..ends[1] as usize]).collect()
}

/// The links that name a node, as its list should: once for each such end.
fn due_at(links: &[Link], node: usize) -> impl Iterator<Item = (u32, Point)> {
    let ends = move |(k, link): (u32, &Link)| [0, 1].map(|end| (link.ids[end], k, link.ends[end]));
    (0..).zip(links).flat_map(ends).filter(move |(id, ..)| *id as usize == node).map(|(_, k, point)| (k, point))
}

/// The points of the ends that meet at a node, each once: one point in a graph that passes check 6.
pub fn points_at(links: &[Link], node: usize) -> Vec<Point> {
    let mut points: Vec<Point> = due_at(links, node).map(|(_, point)| point).collect();
    points.sort();
    points.dedup();
    points
}

/// The nodes that check 5 finds fault with: under two entries, or a list that is not of the links that end there.
pub fn misfits(study: &Study) -> Vec<usize> {
    let (links, nodes) = (links(study), nodes(study));
    let is_misfit = |&node: &usize| {
        let mut list = nodes[node].to_vec();
        list.sort();
        list.len() < 2 || !due_at(&links, node).map(|(link, _)| link).eq(list)
    };
    (0..nodes.len()).filter(is_misfit).collect()
}

/// The least box round points, sides upright.
#[derive(Clone, Copy, Debug, PartialEq, Eq)]
pub struct Frame {
    pub least: Point,
    pub greatest: Point,
}

impl Frame {
    pub fn of(points: impl Iterator<Item = Point>) -> Option<Self> {
        points.map(|point| Self { least: point, greatest: point }).reduce(|p, q| Self {
            least: [0, 1].map(|axis| p.least[axis].min(q.least[axis])),
            greatest: [0, 1].map(|axis| p.greatest[axis].max(q.greatest[axis])),
        })
    }

    /// Round all links.
    pub fn of_links(links: &[Link]) -> Option<Self> {
        Self::of(links.iter().flat_map(|link| link.ends))
    }

    /// Round the links' points that are in bounds, if any is: one that is far out would leave the others no room.
    pub fn in_bounds(links: &[Link]) -> Option<Self> {
        let is_near = |point: &Point| point.iter().all(|c| c.unsigned_abs() <= MAX_COORDINATE.unsigned_abs());
        Self::of(links.iter().flat_map(|link| link.ends).filter(is_near)).or(Self::of_links(links))
    }

    /// Width or height, in units.
    pub fn extent(&self, axis: usize) -> i64 {
        i64::from(self.greatest[axis]) - i64::from(self.least[axis])
    }
}
