//! How a graph of i_overlay's own types is lent: `cargo run --example adapter`.
//!
//! The types below are i_overlay 9.0.1's, cut down to the fields that count. `lend` is what the dashboard needs: a
//! link's top flag is its rule's `is_fill_top`, and a link whose two sides are both filled, or both empty, is skipped,
//! as the link filter does.

use guovdamas::{Graph, Link, Options, Refusal, Shapes};

type SegmentFill = u8;
const SUBJ_TOP: SegmentFill = 0b0001;
const SUBJ_BOTTOM: SegmentFill = 0b0010;
const CLIP_TOP: SegmentFill = 0b0100;
const CLIP_BOTTOM: SegmentFill = 0b1000;
const BOTH_TOP: SegmentFill = SUBJ_TOP | CLIP_TOP;
const BOTH_BOTTOM: SegmentFill = SUBJ_BOTTOM | CLIP_BOTTOM;

#[derive(Clone, Copy)]
struct IntPoint {
    x: i32,
    y: i32,
}

#[derive(Clone, Copy)]
struct IdPoint {
    id: usize,
    point: IntPoint,
}

struct OverlayLink {
    a: IdPoint,
    b: IdPoint,
    fill: SegmentFill,
}

enum OverlayNode {
    Bridge([usize; 2]),
    Cross(Vec<usize>),
}

#[derive(Clone, Copy, Debug)]
enum OverlayRule {
    Subject,
    Clip,
    Intersect,
    Union,
    Difference,
    InverseDifference,
    Xor,
}

impl OverlayRule {
    /// As in i_overlay: of a link that the filter keeps, whether the side above it (left of a to b) is filled.
    fn is_fill_top(&self, fill: SegmentFill) -> bool {
        match self {
            OverlayRule::Subject => fill & SUBJ_TOP == SUBJ_TOP,
            OverlayRule::Clip => fill & CLIP_TOP == CLIP_TOP,
            OverlayRule::Intersect => fill & BOTH_TOP == BOTH_TOP,
            OverlayRule::Union => fill & BOTH_BOTTOM == 0,
            OverlayRule::Difference => fill & BOTH_TOP == SUBJ_TOP,
            OverlayRule::InverseDifference => fill & BOTH_TOP == CLIP_TOP,
            OverlayRule::Xor => matches!(fill & BOTH_TOP, SUBJ_TOP | CLIP_TOP),
        }
    }

    /// Whether the rule fills what the subject, the clip, both or neither cover.
    fn is_filled(&self, subject: bool, clip: bool) -> bool {
        match self {
            OverlayRule::Subject => subject,
            OverlayRule::Clip => clip,
            OverlayRule::Intersect => subject && clip,
            OverlayRule::Union => subject || clip,
            OverlayRule::Difference => subject && !clip,
            OverlayRule::InverseDifference => clip && !subject,
            OverlayRule::Xor => subject != clip,
        }
    }

    /// The link filter's rule: a link with the same on both sides bounds nothing.
    fn is_skipped(&self, fill: SegmentFill) -> bool {
        let above = self.is_filled(fill & SUBJ_TOP != 0, fill & CLIP_TOP != 0);
        let below = self.is_filled(fill & SUBJ_BOTTOM != 0, fill & CLIP_BOTTOM != 0);
        above == below
    }
}

/// The graph of i_overlay's links and nodes under a rule.
fn lend(links: &[OverlayLink], nodes: &[OverlayNode], rule: OverlayRule) -> Graph {
    let links = links.iter().map(|OverlayLink { a, b, fill }| Link {
        a: [a.point.x, a.point.y],
        b: [b.point.x, b.point.y],
        a_id: a.id as u32,
        b_id: b.id as u32,
        fill_top: rule.is_fill_top(*fill),
        skipped: rule.is_skipped(*fill),
    });
    let nodes = nodes.iter().map(|node| {
        let links: &[usize] = match node {
            OverlayNode::Bridge(links) => links,
            OverlayNode::Cross(links) => links,
        };
        links.iter().map(|&link| link as u32)
    });
    Graph::from_links(links, nodes)
}

/// A square subject whose right half is covered by the clip.
fn half_covered_square() -> (Vec<OverlayLink>, Vec<OverlayNode>) {
    let points = [(0, 0), (0, 4), (2, 0), (2, 4), (4, 0), (4, 4)].map(|(x, y)| IntPoint { x, y });
    let link = |a: usize, b: usize, fill| {
        let end = |id: usize| IdPoint { id, point: points[id] };
        OverlayLink { a: end(a), b: end(b), fill }
    };
    let links = vec![
        link(0, 1, SUBJ_BOTTOM),
        link(0, 2, SUBJ_TOP),
        link(1, 3, SUBJ_BOTTOM),
        link(2, 3, SUBJ_TOP | SUBJ_BOTTOM | CLIP_BOTTOM),
        link(2, 4, BOTH_TOP),
        link(3, 5, BOTH_BOTTOM),
        link(4, 5, BOTH_TOP),
    ];
    let nodes = vec![
        OverlayNode::Bridge([0, 1]),
        OverlayNode::Bridge([0, 2]),
        OverlayNode::Cross(vec![1, 3, 4]),
        OverlayNode::Cross(vec![2, 3, 5]),
        OverlayNode::Bridge([4, 6]),
        OverlayNode::Bridge([5, 6]),
    ];
    (links, nodes)
}

fn main() -> Result<(), Refusal> {
    let (links, nodes) = half_covered_square();
    let rules = [
        (OverlayRule::Subject, 16),
        (OverlayRule::Clip, 8),
        (OverlayRule::Intersect, 8),
        (OverlayRule::Union, 16),
        (OverlayRule::Difference, 8),
        (OverlayRule::InverseDifference, 0),
        (OverlayRule::Xor, 8),
    ];
    for (rule, area) in rules {
        // The links left out by a rule keep their nodes: a node with one of two links skipped is refused, and none is
        // here.
        let shapes: Shapes = lend(&links, &nodes, rule).extract_shapes(Options::default())?;
        let found: i64 = shapes.iter().map(|shape| shape.doubled_area() / 2).sum();
        println!("{rule:?}: {} shapes, area {found}", shapes.len());
        assert_eq!(found, area);
    }
    Ok(())
}
