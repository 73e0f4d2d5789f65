//! The lent graph, the buffers lent with it, and checks 1 to 7.

use crate::geometry::{Point, Vector};
use crate::{MAX_LINKS, Refusal, refuse_at, refuse_if};

/// The lent graph, list by list. The lists may be of unlike length: check 2 is there to find out.
#[derive(Clone, Debug, Default, PartialEq, Eq)]
pub struct Graph {
    pub ax: Vec<i32>,
    pub ay: Vec<i32>,
    pub bx: Vec<i32>,
    pub by: Vec<i32>,
    pub a_id: Vec<u32>,
    pub b_id: Vec<u32>,
    pub top: Vec<u8>,
    pub start: Vec<u32>,
    pub list: Vec<u32>,
}

/// What is lent to be written: visit states, points (x, y in turn) and the contour table.
#[derive(Clone, Debug, PartialEq, Eq)]
pub struct Buffers {
    pub state: Vec<u8>,
    pub points: Vec<i32>,
    pub first: Vec<u32>,
    pub len: Vec<u32>,
    pub kind: Vec<u8>,
}

impl Buffers {
    /// The least room that check 2 asks for, with the given states.
    pub fn for_states(state: Vec<u8>) -> Self {
        let (n, contours) = (state.len(), state.len() / 3);
        Self {
            state,
            points: vec![0; 2 * n],
            first: vec![0; contours],
            len: vec![0; contours],
            kind: vec![0; contours],
        }
    }
}

impl Graph {
    /// A graph of these links, each a, b and top. Nodes stand in point order, their lists rise.
    pub fn of_links(links: &[([i32; 2], [i32; 2], u8)]) -> Self {
        let mut nodes: Vec<[i32; 2]> = links.iter().flat_map(|&(a, b, _)| [a, b]).collect();
        nodes.sort();
        nodes.dedup();
        let id = |point: [i32; 2]| nodes.binary_search(&point).expect("every end is a node");
        let mut graph = Self { start: vec![0], ..Self::default() };
        let mut lists = vec![Vec::new(); nodes.len()];
        for (link, &(a, b, top)) in (0..).zip(links) {
            graph.push_link([a, b], [id(a) as u32, id(b) as u32], top);
            lists[id(a)].push(link);
            lists[id(b)].push(link);
        }
        lists.iter().for_each(|list| graph.push_node(list));
        graph
    }

    /// Adds a link between two points, at two nodes.
    pub fn push_link(&mut self, [a, b]: [[i32; 2]; 2], [a_id, b_id]: [u32; 2], top: u8) {
        self.ax.push(a[0]);
        self.ay.push(a[1]);
        self.bx.push(b[0]);
        self.by.push(b[1]);
        self.a_id.push(a_id);
        self.b_id.push(b_id);
        self.top.push(top);
    }

    /// Adds a node with these links.
    pub fn push_node(&mut self, links: &[u32]) {
        self.list.extend(links);
        self.start.push(self.list.len() as u32);
    }

    /// "n is the length of the list of a's node ids".
    pub fn links(&self) -> usize {
        self.a_id.len()
    }

    /// m nodes have m + 1 starts.
    pub fn nodes(&self) -> usize {
        self.start.len() - 1
    }

    pub fn a(&self, link: usize) -> Point {
        Point::new(self.ax[link], self.ay[link])
    }

    pub fn b(&self, link: usize) -> Point {
        Point::new(self.bx[link], self.by[link])
    }

    /// The link numbers in a node's list.
    pub fn entries(&self, node: usize) -> impl Iterator<Item = usize> + Clone {
        self.list[self.start[node] as usize..self.start[node + 1] as usize].iter().map(|&link| link as usize)
    }

    /// The point of the link's end at the node.
    pub fn end_at(&self, link: usize, node: usize) -> Point {
        if self.a_id[link] as usize == node { self.a(link) } else { self.b(link) }
    }

    /// The direction in which the link runs from the node.
    pub fn leaving(&self, link: usize, node: usize) -> Vector {
        let (a, b) = (self.a(link), self.b(link));
        if self.a_id[link] as usize == node { a.to(b) } else { b.to(a) }
    }

    /// The node at the link's other end.
    pub fn other_node(&self, link: usize, node: usize) -> usize {
        let id = if self.a_id[link] as usize == node { self.b_id[link] } else { self.a_id[link] };
        id as usize
    }
}

/// Checks 1 to 7, "each over all the input before the next".
pub fn check(graph: &Graph, lent: &Buffers) -> Result<(), Refusal> {
    refuse_if(1, graph.links() > MAX_LINKS)?;
    refuse_if(2, lengths_differ(graph, lent))?;
    refuse_at(3, (0..graph.links()).find(|&link| link_is_wrong(graph, &lent.state, link)))?;
    refuse_at(4, (1..graph.links()).find(|&link| graph.a(link) < graph.a(link - 1)))?;
    refuse_if(5, nodes_are_wrong(graph))?;
    refuse_at(6, (0..graph.nodes()).find(|&node| ends_differ(graph, node)))?;
    refuse_at(7, (0..graph.nodes()).find(|&node| shares_a_direction(graph, &lent.state, node)))
}

/// Check 2: "parallel lists differ in length; no start at all; states not n long; room below n points or below n/3
/// rounded down contours". The table's three lists are parallel too.
fn lengths_differ(graph: &Graph, lent: &Buffers) -> bool {
    let n = graph.links();
    [graph.ax.len(), graph.ay.len(), graph.bx.len(), graph.by.len(), graph.b_id.len(), graph.top.len()] != [n; 6]
        || graph.start.is_empty()
        || lent.state.len() != n
        || lent.points.len() / 2 < n
        || [lent.len.len(), lent.kind.len()] != [lent.first.len(); 2]
        || lent.first.len() < n / 3
}

/// Check 3: "coordinate outside -524,288 to 524,288; a not strictly before b; node id not below m; both ids equal; top or
/// state not 0 or 1".
fn link_is_wrong(graph: &Graph, state: &[u8], link: usize) -> bool {
    let (a, b) = (graph.a(link), graph.b(link));
    let (a_id, b_id) = (graph.a_id[link], graph.b_id[link]);
    !a.in_range()
        || !b.in_range()
        || a >= b
        || a_id as usize >= graph.nodes()
        || b_id as usize >= graph.nodes()
        || a_id == b_id
        || graph.top[link] > 1
        || state[link] > 1
}

/// Check 5: "starts not from 0, falling, or not ending at the list's length; a node with under 2 entries; or the lists do
/// not hold each link exactly once at its a node and once at its b node, and nothing else".
fn nodes_are_wrong(graph: &Graph) -> bool {
    let start = &graph.start;
    if start[0] != 0 || !start.is_sorted() || start[graph.nodes()] as usize != graph.list.len() {
        return true;
    }
    let mut held: Vec<(usize, usize)> =
        (0..graph.nodes()).flat_map(|node| graph.entries(node).map(move |link| (node, link))).collect();
    let mut due: Vec<(usize, usize)> = (0..graph.links())
        .flat_map(|link| [(graph.a_id[link] as usize, link), (graph.b_id[link] as usize, link)])
        .collect();
    held.sort_unstable();
    due.sort_unstable();
    start.windows(2).any(|pair| pair[1] - pair[0] < 2) || held != due
}

/// Check 6: "two ends at one node have different points".
fn ends_differ(graph: &Graph, node: usize) -> bool {
    let mut ends = graph.entries(node).map(|link| graph.end_at(link, node));
    let first = ends.next();
    ends.any(|end| Some(end) != first)
}

/// Check 7: "two unskipped links with an end at one node run from it in the same direction".
fn shares_a_direction(graph: &Graph, state: &[u8], node: usize) -> bool {
    let unskipped: Vec<Vector> =
        graph.entries(node).filter(|&link| state[link] == 0).map(|link| graph.leaving(link, node)).collect();
    unskipped.iter().enumerate().any(|(i, v)| unskipped[..i].iter().any(|w| w.same_direction(*v)))
}
