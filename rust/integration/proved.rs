//! Extraction and binding by guovdamas, for the i32 engine. Stands in i_overlay 9.0.1 as src/core/proved.rs, beside extract.rs,
//! which declares it; docs/INTEGRATION.md of guovdamas tells the steps.

use crate::core::extract::{BooleanExtractionBuffer, VisitState};
use crate::core::graph::{OverlayGraph, OverlayNode};
use crate::core::link::OverlayLinkFilter;
use crate::core::overlay::ContourDirection;
use crate::core::overlay_rule::OverlayRule;
use alloc::vec;
use alloc::vec::Vec;
use guovdamas::{Contour, ContourKind, Contours, Graph, Link, Options, Refusal, Shapes};
use i_float::int::number::int::IntNumber;
use i_float::int::point::IntPoint;
use i_shape::int::shape::{IntContour, IntShapes};
use i_shape::int::simple::Simplify;

/// An engine whose graphs guovdamas may walk. One that answers none has them walked by the crate's own code.
pub trait Proved: IntNumber {
    /// What `extract` answers. Panics where guovdamas refuses the graph.
    fn proved_shapes(
        _graph: &OverlayGraph<'_, Self>,
        _overlay_rule: OverlayRule,
        _buffer: &mut BooleanExtractionBuffer<Self>,
    ) -> Option<IntShapes<Self>> {
        None
    }

    /// What `extract_contours` writes: collinear points are kept, or left out by guovdamas' rule, as the options ask. Panics where
    /// guovdamas refuses the graph.
    fn proved_contours(
        _graph: &OverlayGraph<'_, Self>,
        _overlay_rule: OverlayRule,
        _buffer: &mut BooleanExtractionBuffer<Self>,
    ) -> Option<Vec<IntContour<Self>>> {
        None
    }
}

impl Proved for i16 {}
impl Proved for i64 {}

impl Proved for i32 {
    fn proved_shapes(
        graph: &OverlayGraph<'_, i32>,
        overlay_rule: OverlayRule,
        buffer: &mut BooleanExtractionBuffer<i32>,
    ) -> Option<IntShapes<i32>> {
        Some(or_panic(graph.walk_and_bind(overlay_rule, buffer)))
    }

    fn proved_contours(
        graph: &OverlayGraph<'_, i32>,
        overlay_rule: OverlayRule,
        buffer: &mut BooleanExtractionBuffer<i32>,
    ) -> Option<Vec<IntContour<i32>>> {
        let keep_collinear = graph.options.preserve_output_collinear;
        Some(or_panic(graph.walk(overlay_rule, buffer, keep_collinear)).iter().map(points).collect())
    }
}

/// The crate's functions return no error, and an empty answer would be taken for a result.
fn or_panic<T>(answer: Result<T, Refusal>) -> T {
    answer.unwrap_or_else(|refusal| panic!("{refusal}"))
}

impl OverlayGraph<'_, i32> {
    /// As `extract_shapes`, but where that panics since guovdamas refuses the graph, this returns the refusal.
    pub fn try_extract_shapes(
        &self,
        overlay_rule: OverlayRule,
        buffer: &mut BooleanExtractionBuffer<i32>,
    ) -> Result<IntShapes<i32>, Refusal> {
        if self.options.ogc {
            return Ok(self.extract_shapes(overlay_rule, buffer));
        }
        self.links.filter_by_overlay_into(overlay_rule, &mut buffer.visited);
        let mut shapes = self.walk_and_bind(overlay_rule, buffer)?;
        if !self.options.preserve_output_collinear {
            shapes.simplify_contour();
        }
        Ok(shapes)
    }

    /// With collinear points: where they are not asked for, the crate removes them once it has bound and nested what it likes.
    fn walk_and_bind(
        &self,
        overlay_rule: OverlayRule,
        buffer: &mut BooleanExtractionBuffer<i32>,
    ) -> Result<IntShapes<i32>, Refusal> {
        Ok(nested(&self.walk(overlay_rule, buffer, true)?.bind_holes()?))
    }

    /// Walks the links that the filter left, and tells the buffer what became of each.
    fn walk(
        &self,
        overlay_rule: OverlayRule,
        buffer: &mut BooleanExtractionBuffer<i32>,
        keep_collinear: bool,
    ) -> Result<Contours, Refusal> {
        let clockwise = self.options.output_direction == ContourDirection::Clockwise;
        let options = Options {
            output_direction: guovdamas::ContourDirection::from_clockwise(clockwise),
            min_output_area: self.options.min_output_area,
            preserve_output_collinear: keep_collinear,
        };
        let contours = self.lend(overlay_rule, &buffer.visited).extract_contours(options)?;
        for (visited, state) in buffer.visited.iter_mut().zip(contours.states()) {
            *visited = match state {
                1 => VisitState::Skipped,
                2 => VisitState::HoleVisited,
                _ => VisitState::HullVisited,
            };
        }
        Ok(contours)
    }

    /// The graph's links and nodes as guovdamas takes them.
    fn lend(&self, overlay_rule: OverlayRule, visited: &[VisitState]) -> Graph {
        let links = self.links.iter().zip(visited).map(|(link, &state)| Link {
            a: [link.a.point.x, link.a.point.y],
            b: [link.b.point.x, link.b.point.y],
            a_id: number(link.a.id),
            b_id: number(link.b.id),
            fill_top: overlay_rule.is_fill_top(link.fill),
            skipped: state == VisitState::Skipped,
        });
        let nodes = self.nodes.iter().map(|node| {
            let links = match node {
                OverlayNode::Bridge(links) => links.as_slice(),
                OverlayNode::Cross(links) => links.as_slice(),
            };
            links.iter().copied().map(number)
        });
        Graph::from_links(links, nodes)
    }
}

/// A link's or a node's number. One that is too large is refused: there is no such link or node.
fn number(index: usize) -> u32 {
    u32::try_from(index).unwrap_or(u32::MAX)
}

/// Each hull with its holes. Holes are dropped where there is no hull, as the crate drops them.
fn nested(found: &Shapes) -> IntShapes<i32> {
    let mut shapes: IntShapes<i32> = found.iter().map(|shape| vec![points(shape.hull())]).collect();
    for contour in found.contours().iter().filter(|contour| contour.kind() == ContourKind::Hole) {
        let owner = found.owners()[contour.number()];
        if let Some(shape) = shapes.get_mut(owner as usize) {
            shape.push(points(contour));
        }
    }
    shapes
}

fn points(contour: Contour<'_>) -> IntContour<i32> {
    contour.points().iter().map(|&[x, y]| IntPoint::new(x, y)).collect()
}
