//! i_overlay's nodes: one at every point that links end in, numbered by point, with the links that leave it and then those that
//! arrive.

use super::builder::{GraphBuilder, GraphNode};
use crate::Expiration;
use crate::core::link::OverlayLink;
use crate::geom::end::End;
use crate::int::number::int::IntNumber;
use crate::int::point::IntPoint;

impl<C, N: GraphNode, I: IntNumber + Expiration, D> GraphBuilder<C, N, I, D> {
    /// Makes the nodes of the links, which stand in the order of their a, and tells the links their nodes' numbers.
    pub(super) fn build_nodes_and_connect_links(&mut self) {
        let arriving = self.links.iter().enumerate();
        self.ends = arriving.map(|(index, link)| End { index, point: link.b.point }).collect();
        self.ends.sort_by_key(|end| end.point);
        self.nodes.clear();
        let mut indices = Vec::with_capacity(4);
        let (mut leaving, mut arriving) = (0, 0);
        while let Some(point) = first_point(&self.links[leaving..], &self.ends[arriving..]) {
            let node = self.nodes.len();
            while leaving < self.links.len() && self.links[leaving].a.point == point {
                self.links[leaving].a.id = node;
                indices.push(leaving);
                leaving += 1;
            }
            while arriving < self.ends.len() && self.ends[arriving].point == point {
                let link = self.ends[arriving].index;
                self.links[link].b.id = node;
                indices.push(link);
                arriving += 1;
            }
            self.nodes.push(N::with_indices(&indices));
            indices.clear();
        }
    }
}

/// The least point that is left.
fn first_point<I: IntNumber, D>(leaving: &[OverlayLink<I, D>], arriving: &[End<I>]) -> Option<IntPoint<I>> {
    let leaving = leaving.first().map(|link| link.a.point);
    leaving.into_iter().chain(arriving.first().map(|end| end.point)).min()
}
