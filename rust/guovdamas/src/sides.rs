//! Whether filled sides are consistent: the condition under which no walk is refused and the areas add up.

use crate::Graph;
use crate::lists::{Lists, cross, vector};
use std::cmp::Ordering;
use std::error::Error;
use std::fmt;

/// A node round which filled and empty do not come by turns.
#[derive(Clone, Copy, Debug, PartialEq, Eq, Hash)]
pub struct UnevenNode {
    /// The node's number: the lowest such node.
    pub node: u32,
    /// Its point.
    pub point: [i32; 2],
}

impl fmt::Display for UnevenNode {
    fn fmt(&self, f: &mut fmt::Formatter<'_>) -> fmt::Result {
        let Self { node, point: [x, y] } = self;
        write!(f, "filled and empty do not come by turns round node {node} at ({x}, {y})")
    }
}

impl Error for UnevenNode {}

impl Graph {
    /// Whether filled and empty come by turns round every node, over the links that are not skipped.
    ///
    /// In other words: direct each link with its filled side on the left. Round every node, links that arrive and links
    /// that leave come by turns, as many of one as of the other. *If so*, and checks 1 to 7 find nothing, it is proved
    /// that no walk is refused (neither 8 nor 9 is answered), that each link is walked once, and that the areas, of
    /// rejected walks too, add up to the total over the links. *If not*, the tops contradict one another somewhere: the
    /// graph may be walked whole all the same, or be refused with 8 or 9.
    ///
    /// Of a graph that fails a check it says nothing: extraction refuses that one. Nor does it see links that cross
    /// away from nodes.
    ///
    /// # Errors
    /// The lowest node at which they do not come by turns.
    pub fn sides_alternate(&self) -> Result<(), UnevenNode> {
        self.lists().sides_alternate(self.skipped())
    }
}

impl Lists<'_> {
    /// As [`Graph::sides_alternate`]; `skipped` has a 1 for every link that is left out, else 0.
    ///
    /// # Errors
    /// The lowest node at which they do not come by turns.
    pub fn sides_alternate(self, skipped: &[u8]) -> Result<(), UnevenNode> {
        let mut ends = self.unskipped_ends(skipped);
        ends.sort_by(|one, other| one.node.cmp(&other.node).then_with(|| one.angle(other)));
        let uneven = ends.chunk_by(|one, other| one.node == other.node).find(|ends| !come_by_turns(ends));
        uneven.map_or(Ok(()), |ends| Err(UnevenNode { node: ends[0].node, point: ends[0].point }))
    }

    /// Both ends of every link that is not skipped, as each runs from its node.
    fn unskipped_ends(&self, skipped: &[u8]) -> Vec<LinkEnd> {
        let mut ends = Vec::with_capacity(2 * self.links());
        for link in (0..self.links()).filter(|&link| skipped.get(link) == Some(&0)) {
            let (Some([a, b]), Some([a_id, b_id])) = (self.ends(link), self.ids(link)) else { continue };
            let top = self.top.get(link) == Some(&1);
            ends.push(LinkEnd { node: a_id, point: a, run: vector(a, b), leaves: top });
            ends.push(LinkEnd { node: b_id, point: b, run: vector(b, a), leaves: !top });
        }
        ends
    }
}

/// A link as it runs from one of its nodes.
struct LinkEnd {
    node: u32,
    point: [i32; 2],
    run: [i128; 2],
    /// Directed with its filled side on the left, the link leaves this node.
    leaves: bool,
}

impl LinkEnd {
    /// Half a turn's directions come after the other half's; a link without length, which check 3 refuses, has none.
    fn half(&self) -> Ordering {
        [0, 0].cmp(&self.run)
    }

    /// The order of directions round a node; equal if they are one direction.
    fn angle(&self, other: &Self) -> Ordering {
        self.half().cmp(&other.half()).then_with(|| 0.cmp(&cross(self.run, other.run)))
    }
}

/// Whether the ends round one node, in their angular order, leave and arrive by turns, and no two have one direction.
fn come_by_turns(ends: &[LinkEnd]) -> bool {
    let neighbours = ends.iter().zip(ends.iter().cycle().skip(1));
    let mut differ = neighbours.map(|(one, next)| one.leaves != next.leaves && one.angle(next) != Ordering::Equal);
    differ.all(|differ| differ)
}
