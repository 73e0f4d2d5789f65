//! Runs of the text on graphs of document 01.

use crate::bind::segment::{ContourIndex, IdSegment};
use crate::bind::solver::{JoinHoles, LeftBottomSegment};
use crate::build::builder::GraphNode;
use crate::core::extract::BooleanExtractionBuffer;
use crate::core::filter;
use crate::core::graph::{OverlayGraph, OverlayNode};
use crate::core::link::{OverlayLink, OverlayLinkFilter};
use crate::core::overlay::{ContourDirection, IntOverlayOptions};
use crate::core::overlay_rule::OverlayRule;
use crate::flat::buffer::FlatContoursBuffer;
use crate::geom::id_point::IdPoint;
use crate::int::point::IntPoint;
use crate::int::shape::{IntContour, IntShapes};
use reading::Settings;
use reading::geometry::Point;
use reading::graph::Graph;

/// The text was found when this crate was built.
pub const AT_HAND: bool = true;

pub(crate) const RULES: [OverlayRule; 7] = [
    OverlayRule::Subject,
    OverlayRule::Clip,
    OverlayRule::Intersect,
    OverlayRule::Union,
    OverlayRule::Difference,
    OverlayRule::InverseDifference,
    OverlayRule::Xor,
];

/// A graph in the text's own types, with the buffers that the text reuses.
pub struct Run {
    rule: OverlayRule,
    options: IntOverlayOptions<u64>,
    nodes: Vec<OverlayNode>,
    links: Vec<OverlayLink<i32>>,
    buffer: BooleanExtractionBuffer<i32>,
    flat: FlatContoursBuffer<i32>,
}

impl Run {
    /// Number of overlay rules.
    pub const RULES: usize = RULES.len();

    /// Takes a graph that passed checks 1 to 7. Each link gets a fill for which the rule (by its number) says of the link
    /// what its top and state say.
    pub fn new(graph: &Graph, state: &[u8], settings: Settings, rule: usize) -> Self {
        let end = |id: u32, point: Point| IdPoint::new(id as usize, IntPoint::new(point.x, point.y));
        let links = (0..graph.links()).map(|link| {
            let above = graph.top[link] == 1;
            let below = above == (state[link] == 1);
            let fill = filter::fill_for(RULES[rule], above, below, link);
            let (a, b) = (end(graph.a_id[link], graph.a(link)), end(graph.b_id[link], graph.b(link)));
            OverlayLink::new_with_data(a, b, fill, ())
        });
        let nodes = (0..graph.nodes()).map(|node| OverlayNode::with_indices(&graph.entries(node).collect::<Vec<_>>()));
        let mut run = Self::of(RULES[rule], nodes.collect(), links.collect());
        run.set(settings);
        run
    }

    /// A graph in the text's types: counterclockwise, whatever the size.
    pub(crate) fn of(rule: OverlayRule, nodes: Vec<OverlayNode>, links: Vec<OverlayLink<i32>>) -> Self {
        Self {
            rule,
            options: IntOverlayOptions::keep_all_points(),
            nodes,
            links,
            buffer: BooleanExtractionBuffer::default(),
            flat: FlatContoursBuffer::default(),
        }
    }

    /// Sets the direction, the minimum, and whether points on a straight line are kept.
    pub fn set(&mut self, settings: Settings) {
        set(&mut self.options, settings);
    }

    /// The graph as document 01's lists, with its states at entry: a link's top is the rule's, its state the filter's.
    pub fn lent(&self) -> (Graph, Vec<u8>) {
        let mut graph = Graph { start: vec![0], ..Graph::default() };
        for link in &self.links {
            let ends = [link.a, link.b].map(|end| [end.point.x, end.point.y]);
            let nodes = [link.a.id as u32, link.b.id as u32];
            graph.push_link(ends, nodes, self.rule.is_fill_top(link.fill) as u8);
        }
        for node in &self.nodes {
            graph.push_node(&entries(node).iter().map(|&link| link as u32).collect::<Vec<_>>());
        }
        let mut states = Vec::new();
        self.links.filter_by_overlay_into(self.rule, &mut states);
        (graph, states.iter().map(|&state| state as u8).collect())
    }

    fn graph(&self) -> OverlayGraph<'_, i32> {
        OverlayGraph { options: self.options, nodes: &self.nodes, links: &self.links }
    }

    /// The text's `extract_contours_into`: the kept contours in the order of the scan, without binding.
    pub fn extract_contours(&mut self) {
        let graph = OverlayGraph { options: self.options, nodes: &self.nodes, links: &self.links };
        graph.extract_contours_into(self.rule, &mut self.buffer, &mut self.flat);
    }

    /// The contours that `extract_contours` found.
    pub fn contours(&self) -> Vec<Vec<Point>> {
        self.flat.ranges.iter().map(|range| points(&self.flat.points[range.clone()])).collect()
    }

    /// The visit states that the last extraction left.
    pub fn states(&self) -> Vec<u8> {
        self.buffer.visited.iter().map(|&state| state as u8).collect()
    }

    /// The text's `extract_shapes`: each shape's hull, then its holes. Panics where the text does.
    pub fn extract_shapes(&mut self) -> Vec<Vec<Vec<Point>>> {
        nested(&self.bound().0)
    }

    /// The same, with the shapes left in the text's own types.
    pub fn bound(&mut self) -> Bound {
        let mut buffer = std::mem::take(&mut self.buffer);
        let shapes = self.graph().extract_shapes(self.rule, &mut buffer);
        self.buffer = buffer;
        Bound(shapes)
    }

    /// The patched text's `try_extract_shapes`: the same shapes, or the refusal.
    #[cfg(patched)]
    pub fn try_extract_shapes(&mut self) -> Result<Vec<Vec<Vec<Point>>>, guovdamas::Refusal> {
        let mut buffer = std::mem::take(&mut self.buffer);
        let shapes = self.graph().try_extract_shapes(self.rule, &mut buffer);
        self.buffer = buffer;
        shapes.map(|shapes| nested(&shapes))
    }

    /// What the text binds, from the contours that `extract_contours` found; the kinds say which are holes.
    pub fn unbound(&self, kinds: &[u8]) -> Unbound {
        let contours = self.flat.ranges.iter().map(|range| self.flat.points[range.clone()].to_vec());
        let (holes, hulls): (Vec<_>, Vec<_>) = contours.zip(kinds).partition(|(_, kind)| **kind == 1);
        Unbound {
            shapes: hulls.into_iter().map(|(contour, _)| vec![contour]).collect(),
            holes: holes.into_iter().map(|(contour, _)| contour).collect(),
            clockwise: self.options.output_direction == ContourDirection::Clockwise,
        }
    }
}

/// Sets the text's options. Points on a straight line may be dropped by the patched text's flat contours alone: elsewhere the
/// crate removes them by code that is not in the text.
pub(crate) fn set(options: &mut IntOverlayOptions<u64>, settings: Settings) {
    options.output_direction =
        if settings.clockwise { ContourDirection::Clockwise } else { ContourDirection::CounterClockwise };
    options.min_output_area = settings.minimum;
    options.preserve_output_collinear = !settings.drop_straight;
}

/// The links of a node.
pub(crate) fn entries(node: &OverlayNode) -> &[usize] {
    match node {
        OverlayNode::Bridge(links) => links,
        OverlayNode::Cross(links) => links,
    }
}

pub(crate) fn nested(shapes: &IntShapes<i32>) -> Vec<Vec<Vec<Point>>> {
    shapes.iter().map(|shape| shape.iter().map(|contour| points(contour)).collect()).collect()
}

fn points(contour: &[IntPoint<i32>]) -> Vec<Point> {
    contour.iter().map(|point| Point::new(point.x, point.y)).collect()
}

/// Shapes and the holes to be bound to them.
#[derive(Clone)]
pub struct Unbound {
    shapes: IntShapes<i32>,
    holes: Vec<IntContour<i32>>,
    clockwise: bool,
}

impl Unbound {
    /// The holes' anchors, as the text's `extract` finds them, and the text's `join_sorted_holes`.
    pub fn bind(mut self) -> Bound {
        let anchors = self.holes.iter().enumerate().map(|(number, hole)| {
            let segment = hole.left_bottom_segment_from(hole[self.clockwise as usize]);
            IdSegment::with_segment(ContourIndex::new_hole(number), segment)
        });
        let anchors = anchors.collect();
        self.shapes.join_sorted_holes(self.holes, anchors, self.clockwise);
        Bound(self.shapes)
    }
}

/// Shapes with their holes.
pub struct Bound(pub(crate) IntShapes<i32>);

impl Bound {
    /// How many holes each shape has.
    pub fn holes(&self) -> Vec<usize> {
        self.0.iter().map(|shape| shape.len() - 1).collect()
    }
}
