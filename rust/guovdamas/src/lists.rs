//! What is lent to the library: a graph's lists, the buffers that extraction writes, a contour table, and the lists
//! that its reports fill.

use crate::MAX_COORDINATE;

/// A graph's lists, borrowed. Link `i` runs from `(ax[i], ay[i])` at node `a_id[i]` to `(bx[i], by[i])` at node
/// `b_id[i]`. Node `j` holds the links `list[start[j]..start[j + 1]]`.
#[derive(Clone, Copy, Debug)]
pub struct Lists<'a> {
    /// The x of each link's first point, a.
    pub ax: &'a [i32],
    /// The y of each link's first point, a.
    pub ay: &'a [i32],
    /// The x of each link's second point, b.
    pub bx: &'a [i32],
    /// The y of each link's second point, b.
    pub by: &'a [i32],
    /// The node at each link's a. Its length is the number of links.
    pub a_id: &'a [u32],
    /// The node at each link's b.
    pub b_id: &'a [u32],
    /// 1 where the left of a to b is filled, else 0: i_overlay's `is_fill_top`.
    pub top: &'a [u8],
    /// Where each node's links begin in `list`, and where the last node's end: one more than there are nodes.
    pub start: &'a [u32],
    /// The nodes' links, by number.
    pub list: &'a [u32],
}

impl Lists<'_> {
    /// How many links there are.
    pub fn links(&self) -> usize {
        self.a_id.len()
    }

    /// How many nodes there are.
    pub fn nodes(&self) -> usize {
        self.start.len().saturating_sub(1)
    }

    /// The two points of a link; none if there is no such link.
    pub(crate) fn ends(&self, link: usize) -> Option<[[i32; 2]; 2]> {
        let a = [*self.ax.get(link)?, *self.ay.get(link)?];
        Some([a, [*self.bx.get(link)?, *self.by.get(link)?]])
    }

    /// The two nodes of a link; none if there is no such link.
    pub(crate) fn ids(&self, link: usize) -> Option<[u32; 2]> {
        Some([*self.a_id.get(link)?, *self.b_id.get(link)?])
    }

    /// The links that a node's list names; none if the starts do not say which.
    pub(crate) fn entries(&self, node: usize) -> Option<&[u32]> {
        self.list.get(*self.start.get(node)? as usize..*self.start.get(node + 1)? as usize)
    }

    /// A link's own point at a node, and its other point.
    pub(crate) fn run_from(&self, link: usize, node: usize) -> Option<[[i32; 2]; 2]> {
        let [a, b] = self.ends(link)?;
        Some(if self.ids(link)?[0] as usize == node { [a, b] } else { [b, a] })
    }
}

/// What extraction writes. For n links: n states, room for n points, and a contour table with room for n / 3 contours.
#[derive(Debug)]
pub struct Buffers<'a> {
    /// Each link's state: 0, or 1 for a skipped link; afterwards also 2 for a link of a hole and 3 for one of a hull.
    pub state: &'a mut [u8],
    /// The contours' points, x and y in turn.
    pub points: &'a mut [i32],
    /// Position of each contour's first point.
    pub first: &'a mut [u32],
    /// Number of each contour's points.
    pub len: &'a mut [u32],
    /// 0 for a hull, 1 for a hole.
    pub kind: &'a mut [u8],
}

/// A contour table with its points, as extraction leaves it, without the room past it.
#[derive(Clone, Copy, Debug)]
pub struct Table<'a> {
    /// The contours' points, x and y in turn.
    pub points: &'a [i32],
    /// Position of each contour's first point.
    pub first: &'a [u32],
    /// Number of each contour's points.
    pub len: &'a [u32],
    /// 0 for a hull, 1 for a hole.
    pub kind: &'a [u8],
}

impl Table<'_> {
    /// The points of a contour; none if its range is past them.
    pub(crate) fn contour(&self, number: usize) -> Option<Vec<[i32; 2]>> {
        let (first, len) = (*self.first.get(number)? as usize, *self.len.get(number)? as usize);
        let numbers = self.points.get(first.checked_mul(2)?..)?.get(..len.checked_mul(2)?)?;
        Some(numbers.chunks_exact(2).map(|point| [point[0], point[1]]).collect())
    }
}

/// What the reports of a whole table fill: an entry a contour, in each list.
#[derive(Debug)]
pub struct ReportLists<'a> {
    /// Signed areas in mm², positive when counterclockwise.
    pub area: &'a mut [f64],
    /// The least x of each contour, in mm.
    pub left: &'a mut [f64],
    /// The least y, in mm.
    pub bottom: &'a mut [f64],
    /// The greatest x, in mm.
    pub right: &'a mut [f64],
    /// The greatest y, in mm.
    pub top: &'a mut [f64],
}

impl ReportLists<'_> {
    /// Each list's name and length.
    pub(crate) fn lengths(&self) -> [(&'static str, usize); 5] {
        [
            ("area", self.area.len()),
            ("left", self.left.len()),
            ("bottom", self.bottom.len()),
            ("right", self.right.len()),
            ("top", self.top.len()),
        ]
    }
}

/// Whether both coordinates of a point are allowed.
pub(crate) fn in_range(point: [i32; 2]) -> bool {
    point.iter().all(|coordinate| (-MAX_COORDINATE..=MAX_COORDINATE).contains(coordinate))
}

/// The vector from one point to another, exact for all points.
pub(crate) fn vector(from: [i32; 2], to: [i32; 2]) -> [i128; 2] {
    [0, 1].map(|axis| to[axis] as i128 - from[axis] as i128)
}

/// The cross product of two vectors: above 0 if the second is turned counterclockwise from the first by less than half
/// a turn.
pub(crate) fn cross(v: [i128; 2], w: [i128; 2]) -> i128 {
    v[0] * w[1] - v[1] * w[0]
}

/// The turn of three points: above 0 if counterclockwise.
pub(crate) fn turn(o: [i32; 2], p: [i32; 2], q: [i32; 2]) -> i128 {
    cross(vector(o, p), vector(o, q))
}
