//! Generated graphs and contour tables, good and damaged, from fixed seeds.
//!
//! [`planar`] makes graphs of document 01's domain, [`wild`] graphs that pass checks 1 to 7 and are no planar map,
//! [`joints`] splits the links of either, [`damage`] breaks what it is given, [`tables`] makes contour tables for
//! binding and reports, [`polygons`] makes the polygons of which the crate makes its graphs.

pub mod damage;
pub mod joints;
pub mod mesh;
mod outlines;
pub mod patch;
pub mod planar;
pub mod polygons;
pub mod rng;
mod shrink;
pub mod tables;
pub mod wild;

use reading::geometry::Point;
use reading::graph::{Buffers, Graph};
use rng::Rng;

/// A graph with the visit states at entry.
#[derive(Clone, Debug, PartialEq, Eq)]
pub struct Sample {
    pub graph: Graph,
    pub state: Vec<u8>,
}

/// One link before it is numbered. Ends with the same key meet at one node.
#[derive(Clone, Copy, Debug, PartialEq, Eq)]
pub struct Link {
    pub a: Point,
    pub b: Point,
    pub a_key: usize,
    pub b_key: usize,
    pub top: bool,
    pub skipped: bool,
}

/// How links, nodes and lists are numbered.
#[derive(Clone, Copy, Debug, PartialEq, Eq)]
pub enum Numbering {
    /// As the crate does: links by a and then by b, nodes by point. In each list the links that leave stand before those that
    /// arrive, as rust/text has it.
    Sorted,
    /// As document 01 allows: links by a alone, nodes and lists in any order.
    Shuffled,
}

impl Sample {
    /// Numbers the links and makes the nodes.
    pub fn from_links(mut links: Vec<Link>, numbering: Numbering, rng: &mut Rng) -> Self {
        rng.shuffle(&mut links);
        let mut nodes: Vec<(Point, usize)> =
            links.iter().flat_map(|link| [(link.a, link.a_key), (link.b, link.b_key)]).collect();
        nodes.sort();
        nodes.dedup_by_key(|node| node.1);
        match numbering {
            Numbering::Sorted => links.sort_by_key(|link| (link.a, link.b)),
            Numbering::Shuffled => {
                links.sort_by_key(|link| link.a);
                rng.shuffle(&mut nodes);
            }
        }

        let mut id = vec![0; nodes.iter().map(|node| node.1 + 1).max().unwrap_or(0)];
        nodes.iter().enumerate().for_each(|(number, node)| id[node.1] = number);
        let mut graph = Graph { start: vec![0], ..Graph::default() };
        let mut lists = vec![Vec::new(); nodes.len()];
        for (number, link) in links.iter().enumerate() {
            let ids = [id[link.a_key] as u32, id[link.b_key] as u32];
            graph.push_link([link.a, link.b].map(|point| [point.x, point.y]), ids, link.top as u8);
            lists[id[link.a_key]].push(number as u32);
        }
        links.iter().enumerate().for_each(|(number, link)| lists[id[link.b_key]].push(number as u32));
        for mut list in lists {
            if numbering == Numbering::Shuffled {
                rng.shuffle(&mut list);
            }
            graph.push_node(&list);
        }
        Self { graph, state: links.iter().map(|link| link.skipped as u8).collect() }
    }

    /// Buffers full of rubbish, some with more room than check 2 asks for.
    pub fn soiled_buffers(&self, rng: &mut Rng) -> Buffers {
        let mut lent = Buffers::for_states(self.state.clone());
        let (points, contours) = (rng.below(3), rng.below(3));
        lent.points.resize(lent.points.len() + points, 0);
        lent.first.resize(lent.first.len() + contours, 0);
        lent.len.resize(lent.len.len() + contours, 0);
        lent.kind.resize(lent.kind.len() + contours, 0);
        lent.points.iter_mut().for_each(|value| *value = rng.next() as i32);
        lent.first.iter_mut().for_each(|value| *value = rng.next() as u32);
        lent.len.iter_mut().for_each(|value| *value = rng.next() as u32);
        lent.kind.iter_mut().for_each(|value| *value = rng.next() as u8);
        lent
    }
}
