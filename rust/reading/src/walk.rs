//! Walking rules 1 to 7: the walks of a graph, and what extraction makes of them.

use crate::bind::Table;
use crate::geometry::{Point, doubled_area, strictly_clockwise};
use crate::graph::{Buffers, Graph, check};
use crate::straight::written;
use crate::{Refusal, Settings};

const UNVISITED: u8 = 0;

/// What extraction returns; areas are signed doubled totals. Contours and points are those that are written.
#[derive(Clone, Copy, Debug, Default, PartialEq, Eq)]
pub struct Counts {
    pub contours: u32,
    pub points: u32,
    pub rejected: u32,
    pub walked: u32,
    /// Kept walks of which fewer than 3 points remain, "counted apart from rejected walks".
    pub left_out: u32,
    pub kept_area: i64,
    pub rejected_area: i64,
}

impl Counts {
    /// The contours in buffers that extraction has written, without the room past them.
    pub fn table(&self, lent: &Buffers) -> Table {
        let contours = self.contours as usize;
        Table {
            points: lent.points[..2 * self.points as usize].to_vec(),
            first: lent.first[..contours].to_vec(),
            len: lent.len[..contours].to_vec(),
            kind: lent.kind[..contours].to_vec(),
        }
    }
}

/// One walk, kept or not.
#[derive(Clone, Debug, PartialEq, Eq)]
pub struct Walk {
    /// The link that the scan stood at.
    pub scan: usize,
    pub hole: bool,
    /// The links in the order in which they were walked.
    pub links: Vec<usize>,
    pub points: Vec<Point>,
    pub kept: bool,
}

impl Walk {
    pub fn doubled_area(&self) -> i128 {
        doubled_area(&self.points)
    }

    /// The walk was rejected and left the scan's link unvisited: here the crate moves on (difference D1).
    pub fn is_difference_1(&self) -> bool {
        !self.kept && !self.links.contains(&self.scan)
    }

    /// The state that rule 2 gives to the walk's links.
    pub fn state(&self) -> u8 {
        if self.hole { 2 } else { 3 }
    }

    /// Goes along a link from a node, marks it, and says which node it comes to. Rule 5: "the beginning, then the point
    /// of each node left".
    fn take(&mut self, graph: &Graph, state: &mut [u8], link: usize, node: usize) -> usize {
        self.points.push(graph.end_at(link, node));
        self.links.push(link);
        state[link] = self.state();
        graph.other_node(link, node)
    }
}

/// Extraction: the checks, the walks, and every lent buffer written as document 01 says.
pub fn extract(graph: &Graph, settings: Settings, lent: &mut Buffers) -> Result<Counts, Refusal> {
    check(graph, lent)?;
    let walks = walks(graph, &lent.state, settings, Scan::Stays);

    // "After 8 and 9 ... the points and contour table are all zero. After success every entry past the last one written
    // is zero."
    lent.points.fill(0);
    lent.first.fill(0);
    lent.len.fill(0);
    lent.kind.fill(0);

    let mut counts = Counts::default();
    for walk in walks? {
        counts.walked += walk.links.len() as u32;
        walk.links.iter().for_each(|&link| lent.state[link] = walk.state());
        let area = i64::try_from(walk.doubled_area()).expect("areas fit 64 bits");
        if walk.kept {
            counts.kept_area += area;
            match written(&walk.points, settings.drop_straight) {
                Some(points) => write_contour(&points, walk.hole, &mut counts, lent),
                None => counts.left_out += 1,
            }
        } else {
            counts.rejected += 1;
            counts.rejected_area += area;
        }
    }
    Ok(counts)
}

/// Appends a contour to the points and the table.
fn write_contour(points: &[Point], hole: bool, counts: &mut Counts, lent: &mut Buffers) {
    let contour = counts.contours as usize;
    let first = counts.points as usize;
    for (position, point) in points.iter().enumerate() {
        lent.points[2 * (first + position)] = point.x;
        lent.points[2 * (first + position) + 1] = point.y;
    }
    lent.first[contour] = counts.points;
    lent.len[contour] = points.len() as u32;
    lent.kind[contour] = hole as u8;
    counts.contours += 1;
    counts.points += points.len() as u32;
}

/// What the scan does after a rejected walk that left its link unvisited.
#[derive(Clone, Copy, Debug, PartialEq, Eq)]
pub enum Scan {
    /// Rule 7: it "moves on only when link k is visited".
    Stays,
    /// "The crate moves on after each rejected walk, even if k is still unvisited (difference D1)."
    MovesOn,
}

/// A walk that was refused, as far as it came: with no link where not even the first could be taken.
#[derive(Clone, Debug, PartialEq, Eq)]
pub struct Stuck {
    pub refusal: Refusal,
    pub walk: Walk,
}

/// The scan over a graph that passed checks 1 to 7: all its walks, or 8 or 9 at the link the scan stands at.
pub fn walks(graph: &Graph, state: &[u8], settings: Settings, scan: Scan) -> Result<Vec<Walk>, Refusal> {
    walks_or_stuck(graph, state, settings, scan).map_err(|stuck| stuck.refusal)
}

/// The same, with the walk that stuck.
pub fn walks_or_stuck(graph: &Graph, state: &[u8], settings: Settings, scan: Scan) -> Result<Vec<Walk>, Stuck> {
    let mut state = state.to_vec();
    let mut walks = Vec::new();
    let mut k = 0;
    while k < state.len() {
        // Rule 1: "The scan takes the lowest unvisited link k."
        if state[k] != UNVISITED {
            k += 1;
            continue;
        }
        let mut walk = Walk { scan: k, hole: false, links: Vec::new(), points: Vec::new(), kept: false };
        if let Err(number) = one_walk(graph, &mut state, settings, &mut walk) {
            return Err(Stuck { refusal: Refusal { number, place: k as u32 }, walk });
        }
        if !walk.kept && scan == Scan::MovesOn {
            k += 1;
        }
        walks.push(walk);
    }
    Ok(walks)
}

/// One walk from the scan's link, marking its links; refused by its number.
fn one_walk(graph: &Graph, state: &mut [u8], settings: Settings, walk: &mut Walk) -> Result<(), u32> {
    let unvisited = |state: &[u8], named: Option<usize>| named.filter(|&link| state[link] == UNVISITED).ok_or(8u32);

    let first = unvisited(state, Some(first_link(graph, state, walk.scan)))?;
    // Rule 2: "The first link's top decides: 1 hole (state 2), 0 hull (state 3). Sense = (hole equals clockwise output)."
    walk.hole = graph.top[first] == 1;
    let sense = walk.hole == settings.clockwise;
    // "If the sense is true, the walk begins at b and goes to a; else at a and goes to b."
    let beginning = if sense { graph.b_id[first] } else { graph.a_id[first] } as usize;
    let mut node = walk.take(graph, state, first, beginning);

    // Rule 4: "The last link is the next link at the beginning's node under the opposite sense, fixed once the first link
    // is marked. The walk stops on marking it."
    let last = unvisited(state, next_link(graph, state, first, beginning, !sense))?;
    let mut link = first;
    while link != last {
        link = unvisited(state, next_link(graph, state, link, node, sense))?;
        node = walk.take(graph, state, link, node);
    }
    // 9: "the last link is reached but the walk is not back at its starting node".
    if node != beginning {
        return Err(9);
    }
    walk.kept = is_kept(walk, settings.minimum);
    Ok(())
}

/// Rule 1's first link at k's a node.
fn first_link(graph: &Graph, state: &[u8], k: usize) -> usize {
    let entries: Vec<usize> = graph.entries(graph.a_id[k] as usize).collect();
    if let [l0, l1] = entries[..] {
        // "A Bridge with entries l0, l1 gives l0 if l0.a, l0.b, l1.b turn strictly clockwise, else l1."
        return if strictly_clockwise(graph.a(l0), graph.b(l0), graph.b(l1)) { l0 } else { l1 };
    }
    // "A Cross starts from k and goes through its list; an entry other than k replaces the choice unless it is visited,
    // skipped, or its b is strictly clockwise of the choice."
    let mut choice = k;
    for entry in entries {
        let stays = entry == k
            || state[entry] != UNVISITED
            || strictly_clockwise(graph.a(choice), graph.b(choice), graph.b(entry));
        if !stays {
            choice = entry;
        }
    }
    choice
}

/// Rule 3: "Next link at a Bridge: the other entry. At a Cross: of the unvisited links, the first met when turning from the
/// link just walked, clockwise if the sense is true." None where a Cross has nothing unvisited.
fn next_link(graph: &Graph, state: &[u8], link: usize, node: usize, sense: bool) -> Option<usize> {
    let entries = graph.entries(node);
    if entries.clone().count() == 2 {
        return entries.into_iter().find(|&entry| entry != link);
    }
    let walked = graph.leaving(link, node);
    entries
        .filter(|&entry| state[entry] == UNVISITED)
        .min_by(|&u, &v| walked.met_first(graph.leaving(u, node), graph.leaving(v, node), sense))
}

/// Rule 6: "A walk is kept if it has at least 3 points and either the minimum is 0 or half the absolute doubled area,
/// rounded down, is at least the minimum." Request c compares doubled numbers, and "no answer .. changes".
fn is_kept(walk: &Walk, minimum: u64) -> bool {
    walk.points.len() >= 3 && (minimum == 0 || walk.doubled_area().unsigned_abs() / 2 >= minimum as u128)
}
