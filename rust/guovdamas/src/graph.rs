//! Graphs that own their lists.

use crate::lists::Lists;
use crate::outline::{Contours, Shapes};
use crate::workspace::Lending;
use crate::{Options, Refusal};
use std::collections::BTreeMap;

/// A link between two numbered nodes; point `a` comes before point `b`, by x and then by y.
#[derive(Clone, Copy, Debug, PartialEq, Eq)]
pub struct Link {
    /// Its first point.
    pub a: [i32; 2],
    /// Its second point.
    pub b: [i32; 2],
    /// The node at `a`.
    pub a_id: u32,
    /// The node at `b`.
    pub b_id: u32,
    /// Filled on the left of a to b: i_overlay's `is_fill_top`.
    pub fill_top: bool,
    /// Left out by the link filter.
    pub skipped: bool,
}

/// A link whose nodes are yet to be numbered. Its ends may come either way round.
#[derive(Clone, Copy, Debug, PartialEq, Eq)]
pub struct Segment {
    /// One end.
    pub a: [i32; 2],
    /// The other end.
    pub b: [i32; 2],
    /// Filled on the left of a to b.
    pub fill_top: bool,
    /// Left out of all walks.
    pub skipped: bool,
}

impl Segment {
    /// The same segment from its lesser point to its greater; the filled side turns with it.
    fn forward(self) -> Self {
        if self.a <= self.b { self } else { Self { a: self.b, b: self.a, fill_top: !self.fill_top, ..self } }
    }
}

/// A graph that owns its lists.
///
/// Two graphs are equal if their lists are, and, where they come from segments, their segments' order.
#[derive(Clone, Debug, PartialEq, Eq)]
pub struct Graph {
    ax: Vec<i32>,
    ay: Vec<i32>,
    bx: Vec<i32>,
    by: Vec<i32>,
    a_id: Vec<u32>,
    b_id: Vec<u32>,
    top: Vec<u8>,
    state: Vec<u8>,
    start: Vec<u32>,
    list: Vec<u32>,
    /// By which number the caller knows each link.
    caller: Vec<u32>,
}

impl Default for Graph {
    fn default() -> Self {
        Self::new()
    }
}

impl Graph {
    /// A graph with no links and no nodes.
    pub fn new() -> Self {
        Self {
            ax: Vec::new(),
            ay: Vec::new(),
            bx: Vec::new(),
            by: Vec::new(),
            a_id: Vec::new(),
            b_id: Vec::new(),
            top: Vec::new(),
            state: Vec::new(),
            start: vec![0],
            list: Vec::new(),
            caller: Vec::new(),
        }
    }

    /// The graph of these links and nodes, as [`push_link`](Self::push_link) and [`push_node`](Self::push_node) add them. It
    /// goes over the links once for each list: much faster, where each of a link's fields is had without the others.
    pub fn from_links<N>(links: impl Iterator<Item = Link> + Clone, nodes: impl IntoIterator<Item = N>) -> Self
    where
        N: IntoIterator<Item = u32>,
    {
        let a_id: Vec<u32> = links.clone().map(|link| link.a_id).collect();
        let mut graph = Self {
            ax: links.clone().map(|link| link.a[0]).collect(),
            ay: links.clone().map(|link| link.a[1]).collect(),
            bx: links.clone().map(|link| link.b[0]).collect(),
            by: links.clone().map(|link| link.b[1]).collect(),
            b_id: links.clone().map(|link| link.b_id).collect(),
            top: links.clone().map(|link| link.fill_top as u8).collect(),
            state: links.map(|link| link.skipped as u8).collect(),
            caller: (0..a_id.len()).map(numbered).collect(),
            list: Vec::with_capacity(2 * a_id.len()),
            a_id,
            ..Self::new()
        };
        let nodes = nodes.into_iter();
        graph.start.reserve(nodes.size_hint().0);
        nodes.for_each(|links| graph.push_node(links));
        graph
    }

    /// Adds a link. The links come in the order of their first points.
    pub fn push_link(&mut self, link: Link) {
        let number = numbered(self.a_id.len());
        self.push_link_of(link, number);
    }

    fn push_link_of(&mut self, link: Link, caller: u32) {
        self.ax.push(link.a[0]);
        self.ay.push(link.a[1]);
        self.bx.push(link.b[0]);
        self.by.push(link.b[1]);
        self.a_id.push(link.a_id);
        self.b_id.push(link.b_id);
        self.top.push(link.fill_top as u8);
        self.state.push(link.skipped as u8);
        self.caller.push(caller);
    }

    /// Adds a node that holds the given links: two make i_overlay's `Bridge`, more a `Cross`.
    pub fn push_node(&mut self, links: impl IntoIterator<Item = u32>) {
        self.list.extend(links);
        // A list too long to be numbered is refused (5), as it is one that does not end where the starts say.
        self.start.push(numbered(self.list.len()));
    }

    /// Sorts the segments into links, by a and then by b, and joins ends with equal points into nodes. A segment may
    /// have its ends either way round.
    ///
    /// The segments must not cross or overlap: they may meet at their ends alone. That is not checked, but for two that
    /// run from one point in one direction (7). What is found where segments cross is what the rules of walking say,
    /// and no outline that one would draw.
    ///
    /// A link that a [refusal](Refusal) names has the number of its segment, in the order in which they were given, and
    /// not the sorted one; [`segment_of`](Self::segment_of) gives it for any link.
    pub fn from_segments(segments: impl IntoIterator<Item = Segment>) -> Self {
        let mut segments: Vec<(Segment, u32)> = segments.into_iter().map(Segment::forward).zip(0..).collect();
        segments.sort_by_key(|(segment, _)| (segment.a, segment.b));
        let mut nodes: BTreeMap<[i32; 2], (u32, Vec<u32>)> = BTreeMap::new();
        for (number, (segment, _)) in (0..).zip(&segments) {
            for point in [segment.a, segment.b] {
                nodes.entry(point).or_default().1.push(number);
            }
        }
        (0..).zip(nodes.values_mut()).for_each(|(id, node)| node.0 = id);

        let mut graph = Self::new();
        for (Segment { a, b, fill_top, skipped }, caller) in segments {
            graph.push_link_of(Link { a, b, a_id: nodes[&a].0, b_id: nodes[&b].0, fill_top, skipped }, caller);
        }
        nodes.into_values().for_each(|(_, links)| graph.push_node(links));
        graph
    }

    /// The link with this number; none if there is none.
    pub fn link(&self, number: usize) -> Option<Link> {
        let lists = self.lists();
        let ([a, b], [a_id, b_id]) = (lists.ends(number)?, lists.ids(number)?);
        Some(Link { a, b, a_id, b_id, fill_top: self.top[number] == 1, skipped: self.state[number] == 1 })
    }

    /// The number of the segment that this link was made of, in the order in which the segments were given to
    /// [`from_segments`](Self::from_segments). A link that was pushed has its own number.
    pub fn segment_of(&self, link: usize) -> Option<u32> {
        self.caller.get(link).copied()
    }

    /// The lists, to be lent. In them a link has its own number, not its segment's.
    pub fn lists(&self) -> Lists<'_> {
        Lists {
            ax: &self.ax,
            ay: &self.ay,
            bx: &self.bx,
            by: &self.by,
            a_id: &self.a_id,
            b_id: &self.b_id,
            top: &self.top,
            start: &self.start,
            list: &self.list,
        }
    }

    /// A 1 for every skipped link, else 0.
    pub fn skipped(&self) -> &[u8] {
        &self.state
    }

    /// Walks the graph: i_overlay's `extract_contours_into`.
    ///
    /// # Errors
    /// 1 to 9: a check finds the graph at fault, or a walk cannot be gone on with or ends elsewhere.
    pub fn extract_contours(&self, options: Options) -> Result<Contours, Refusal> {
        Lending::from(self).contours(options)
    }

    /// Walks the graph and binds its holes: i_overlay's `extract_shapes`.
    ///
    /// # Errors
    /// 1 to 9 as [`extract_contours`](Self::extract_contours), and 12: a hole finds no shape.
    pub fn extract_shapes(&self, options: Options) -> Result<Shapes, Refusal> {
        Lending::from(self).shapes(options)
    }
}

impl<'a> From<&'a Graph> for Lending<'a> {
    fn from(graph: &'a Graph) -> Self {
        Self { lists: graph.lists(), skipped: &graph.state, caller: Some(&graph.caller) }
    }
}

impl Lists<'_> {
    /// Walks the graph; `skipped` has a 1 for every link to be left out, else 0.
    ///
    /// # Errors
    /// 1 to 9: a check finds the graph at fault, or a walk cannot be gone on with or ends elsewhere.
    pub fn extract_contours(self, skipped: &[u8], options: Options) -> Result<Contours, Refusal> {
        Lending::from((self, skipped)).contours(options)
    }

    /// Walks the graph and binds its holes.
    ///
    /// # Errors
    /// 1 to 9 as [`extract_contours`](Self::extract_contours), and 12: a hole finds no shape.
    pub fn extract_shapes(self, skipped: &[u8], options: Options) -> Result<Shapes, Refusal> {
        Lending::from((self, skipped)).shapes(options)
    }
}

/// A position or a number as the lists hold it: past what 32 bits hold, one that no list has.
fn numbered(count: usize) -> u32 {
    u32::try_from(count).unwrap_or(u32::MAX)
}
