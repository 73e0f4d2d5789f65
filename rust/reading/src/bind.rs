//! Checks 10 to 12, binding and lookup.

use crate::geometry::{Point, Vector};
use crate::{MAX_LINKS, Refusal, refuse_at, refuse_if};
use std::cmp::Ordering;

/// A dropped hole's owner.
pub const NO_OWNER: u16 = 65_535;

/// A contour table with its points, x and y in turn. The lists may be of unlike length: check 10 is there to find out.
#[derive(Clone, Debug, Default, PartialEq, Eq)]
pub struct Table {
    pub points: Vec<i32>,
    pub first: Vec<u32>,
    pub len: Vec<u32>,
    pub kind: Vec<u8>,
}

/// What binding returns: hulls, and holes dropped.
#[derive(Clone, Copy, Debug, PartialEq, Eq)]
pub struct Bound {
    pub shapes: u32,
    pub dropped: u32,
}

/// What a contour is: a hull with its number, a hole with its parent's, or a dropped hole.
#[derive(Clone, Copy, Debug, PartialEq, Eq)]
pub enum Role {
    Hull(u16),
    Hole(u16),
    Dropped,
}

/// One contour's record.
#[derive(Clone, Copy, Debug, PartialEq, Eq)]
pub struct Record {
    pub first: u32,
    pub len: u32,
    pub role: Role,
}

impl Table {
    pub fn contours(&self) -> usize {
        self.first.len()
    }

    /// The points of one contour of a table that passed check 10.
    pub fn contour(&self, contour: usize) -> Vec<Point> {
        let first = self.first[contour] as usize;
        (first..first + self.len[contour] as usize).map(|position| Point::in_list(&self.points, position)).collect()
    }

    /// Adds a contour after the others.
    pub fn push(&mut self, points: &[Point], hole: bool) {
        self.first.push(self.points.len() as u32 / 2);
        self.len.push(points.len() as u32);
        self.kind.push(hole as u8);
        self.points.extend(points.iter().flat_map(|point| [point.x, point.y]));
    }

    pub fn is_hole(&self, contour: usize) -> bool {
        self.kind[contour] == 1
    }

    fn hulls(&self) -> usize {
        self.kind.iter().filter(|&&kind| kind == 0).count()
    }

    /// Hulls are numbered from 0 in contour order.
    fn shape_number(&self, hull: usize) -> u16 {
        self.kind[..hull].iter().filter(|&&kind| kind == 0).count() as u16
    }
}

/// "A hole's anchor is contour point 1 for clockwise output, else point 0."
fn anchor_position(clockwise: bool) -> usize {
    clockwise as usize
}

/// The positions at which a hole passes its anchor point.
pub fn anchor_visits(hole: &[Point], clockwise: bool) -> impl Iterator<Item = usize> {
    let anchor = hole[anchor_position(clockwise)];
    (0..hole.len()).filter(move |&position| hole[position] == anchor)
}

/// Check 10, first what is told of the table as a whole, then contour by contour.
pub(crate) fn check_table(table: &Table, owners: usize) -> Result<(), Refusal> {
    let count = table.points.len() / 2;
    let end = match table.contours() {
        0 => 0,
        contours if table.len.len() == contours => table.first[contours - 1] as u64 + table.len[contours - 1] as u64,
        _ => return Err(Refusal { number: 10, place: 0 }),
    };
    // "lists differ in length; room for owners below the contour count; more than 4,096 points; ranges not ending at the
    // point count"; and a point list of odd length.
    let fault = [table.len.len(), table.kind.len()] != [table.contours(); 2]
        || owners < table.contours()
        || !table.points.len().is_multiple_of(2)
        || count > MAX_LINKS
        || end != count as u64;
    refuse_if(10, fault)?;
    refuse_at(10, (0..table.contours()).find(|&contour| contour_is_wrong(table, contour)))
}

/// "a range not consecutive from 0, or past the points; a contour under 3 points or, round it, with equal neighbours;
/// coordinate out of range; kind not 0 or 1".
fn contour_is_wrong(table: &Table, contour: usize) -> bool {
    let due: u64 = table.len[..contour].iter().map(|&len| len as u64).sum();
    let (first, len) = (table.first[contour] as u64, table.len[contour] as u64);
    if first != due || first + len > table.points.len() as u64 / 2 || len < 3 || table.kind[contour] > 1 {
        return true;
    }
    let points = table.contour(contour);
    let neighbours = points.iter().zip(points.iter().cycle().skip(1));
    points.iter().any(|point| !point.in_range()) || neighbours.into_iter().any(|(p, q)| p == q)
}

/// Check 11: "a hole's anchor is not its least point, or is before the previous hole's".
fn check_anchors(table: &Table, clockwise: bool) -> Result<(), Refusal> {
    let mut previous = None;
    for contour in (0..table.contours()).filter(|&contour| table.is_hole(contour)) {
        let points = table.contour(contour);
        let anchor = points[anchor_position(clockwise)];
        let fault = points.iter().any(|&point| point < anchor) || previous.is_some_and(|before| anchor < before);
        refuse_at(11, fault.then_some(contour))?;
        previous = Some(anchor);
    }
    Ok(())
}

/// A hole's anchor with the direction of its anchor edge.
#[derive(Clone, Copy, Debug)]
struct Anchor {
    hole: usize,
    point: Point,
    edge: Vector,
}

impl Anchor {
    /// The anchor edge, as request b of document 02 has it: "takes all edges at the anchor point and keeps the lowest".
    fn of(table: &Table, hole: usize, clockwise: bool) -> Self {
        let points = table.contour(hole);
        let (n, point) = (points.len(), points[anchor_position(clockwise)]);
        let ends = anchor_visits(&points, clockwise).flat_map(|at| [points[(at + 1) % n], points[(at + n - 1) % n]]);
        let lower = |edge: Vector, other: Vector| if edge.cross(other) < 0 { other } else { edge };
        let edge = ends.map(|end| point.to(end)).reduce(lower).expect("a hole passes its anchor");
        Self { hole, point, edge }
    }

    /// "holes go by anchor, then by the anchor edge's angle, lowest first, then by number".
    fn binding_order(&self, other: &Self) -> Ordering {
        let angle = 0.cmp(&self.edge.cross(other.edge));
        self.point.cmp(&other.point).then(angle).then(self.hole.cmp(&other.hole))
    }
}

/// A candidate edge from its left end to its right end.
#[derive(Clone, Copy, Debug)]
struct Edge {
    left: Point,
    run: Vector,
    hole: bool,
    contour: usize,
}

/// "Candidate edges are those with fill above: walked rightward for counterclockwise output, leftward for clockwise."
fn candidate_edges(table: &Table, clockwise: bool) -> Vec<Edge> {
    let mut edges = Vec::new();
    for contour in 0..table.contours() {
        let points = table.contour(contour);
        for (&from, &to) in points.iter().zip(points.iter().cycle().skip(1)) {
            let (left, right) = if clockwise { (to, from) } else { (from, to) };
            if left.x < right.x {
                edges.push(Edge { left, run: left.to(right), hole: table.is_hole(contour), contour });
            }
        }
    }
    edges
}

impl Edge {
    /// "an edge spans the anchor if left x <= anchor x < right x".
    fn spans(&self, anchor: &Anchor) -> bool {
        let right = self.left.x as i128 + self.run.x;
        self.left.x <= anchor.point.x && (anchor.point.x as i128) < right
    }

    /// The vertical gap up to the anchor, times the edge's width.
    fn gap(&self, anchor: &Anchor) -> i128 {
        self.run.cross(self.left.to(anchor.point))
    }

    /// "It lies under if the anchor is strictly above it, or on it with the anchor edge strictly counterclockwise of it."
    fn lies_under(&self, anchor: &Anchor) -> bool {
        self.gap(anchor) > 0 || self.gap(anchor) == 0 && self.run.cross(anchor.edge) > 0
    }

    /// "The nearest has the least vertical gap, compared exactly as fractions, then the greatest slope, then hulls before
    /// holes, then the lower number."
    fn nearness(&self, other: &Self, anchor: &Anchor) -> Ordering {
        let gap = (self.gap(anchor) * other.run.x).cmp(&(other.gap(anchor) * self.run.x));
        let slope = (other.run.y * self.run.x).cmp(&(self.run.y * other.run.x));
        gap.then(slope).then(self.hole.cmp(&other.hole)).then(self.contour.cmp(&other.contour))
    }
}

/// The edges that span the anchor and lie under it.
fn edges_under<'a>(edges: &'a [Edge], anchor: &Anchor) -> impl Iterator<Item = &'a Edge> {
    edges.iter().filter(move |edge| edge.spans(anchor) && edge.lies_under(anchor))
}

/// The contours whose candidate edges span a hole's anchor and lie under it.
pub fn contours_under(table: &Table, hole: usize, clockwise: bool) -> Vec<usize> {
    let (edges, anchor) = (candidate_edges(table, clockwise), Anchor::of(table, hole, clockwise));
    edges_under(&edges, &anchor).map(|edge| edge.contour).collect()
}

/// Binding: the owner of every contour, written only on success.
pub fn bind(table: &Table, clockwise: bool, owner: &mut [u16]) -> Result<Bound, Refusal> {
    check_table(table, owner.len())?;
    check_anchors(table, clockwise)?;

    let hulls = table.hulls();
    let holes: Vec<usize> = (0..table.contours()).filter(|&contour| table.is_hole(contour)).collect();
    let mut parent: Vec<Option<u16>> = vec![None; table.contours()];
    match hulls {
        // "With no hulls, holes are dropped and counted."
        0 => {}
        // "With one hull, every hole gets it without a search."
        1 => holes.iter().for_each(|&hole| parent[hole] = Some(0)),
        _ => {
            let anchors = holes.iter().map(|&hole| Anchor::of(table, hole, clockwise)).collect();
            search_parents(table, anchors, clockwise, &mut parent)?;
        }
    }

    for contour in 0..table.contours() {
        owner[contour] =
            if table.is_hole(contour) { parent[contour].unwrap_or(NO_OWNER) } else { table.shape_number(contour) };
    }
    Ok(Bound { shapes: hulls as u32, dropped: if hulls == 0 { holes.len() as u32 } else { 0 } })
}

/// The search with two hulls or more; 12 at the first hole, in binding's order, that finds no parent.
fn search_parents(
    table: &Table,
    mut anchors: Vec<Anchor>,
    clockwise: bool,
    parent: &mut [Option<u16>],
) -> Result<(), Refusal> {
    let edges = candidate_edges(table, clockwise);
    anchors.sort_by(Anchor::binding_order);
    for anchor in &anchors {
        let nearest = edges_under(&edges, anchor).min_by(|e, f| e.nearness(f, anchor));
        // "A hull gives its own shape number (hulls counted from 0); a hole gives its parent's."
        let found = nearest.and_then(|edge| match edge.hole {
            true => parent[edge.contour],
            false => Some(table.shape_number(edge.contour)),
        });
        refuse_at(12, found.is_none().then_some(anchor.hole))?;
        parent[anchor.hole] = found;
    }
    Ok(())
}

/// "A lookup answers one contour's record ... It answers 'none' exactly when the contour's number is not below the count,
/// the table fails check 10, or the owner is not right".
pub fn lookup(table: &Table, owner: &[u16], contour: usize) -> Option<Record> {
    check_table(table, owner.len()).ok()?;
    if contour < table.contours() { record(table, owner, contour) } else { None }
}

/// The record of a contour of a table that passed check 10, if the owner is right: "for a hull its own number, for a
/// hole one below the hull count, or 65,535 with no hulls".
pub(crate) fn record(table: &Table, owner: &[u16], contour: usize) -> Option<Record> {
    let (number, hulls) = (owner[contour], table.hulls());
    let role = if !table.is_hole(contour) {
        (number == table.shape_number(contour)).then_some(Role::Hull(number))
    } else if hulls == 0 {
        (number == NO_OWNER).then_some(Role::Dropped)
    } else {
        ((number as usize) < hulls).then_some(Role::Hole(number))
    };
    Some(Record { first: table.first[contour], len: table.len[contour], role: role? })
}
