//! The text's front end: polygons go in, the text's own graph or its shapes come out.

use crate::build::builder::GraphNode;
use crate::core::fill_rule::FillRule;
use crate::core::graph::{OverlayGraph, OverlayNode};
use crate::core::overlay::{IntOverlayOptions, Overlay};
use crate::core::overlay_rule::OverlayRule;
use crate::core::solver::Solver;
use crate::int::point::IntPoint;
use crate::int::shape::IntShape;
use crate::run::{Bound, RULES, Run, entries, nested, set};
use reading::Settings;
use reading::geometry::Point;

const FILLS: [FillRule; 4] = [FillRule::EvenOdd, FillRule::NonZero, FillRule::Positive, FillRule::Negative];

/// Two sets of polygons in the text's own types, with the buffers that the text reuses.
pub struct Front {
    overlay: Overlay<i32>,
    subject: IntShape<i32>,
    clip: IntShape<i32>,
}

impl Front {
    /// Number of fill rules.
    pub const FILLS: usize = FILLS.len();

    /// Takes closed contours, the subject's and the clip's. Points in the middle of a straight edge are kept in what comes out,
    /// and in what goes in if so said.
    pub fn new(subject: &[Vec<Point>], clip: &[Vec<Point>], keep_collinear: bool) -> Self {
        let options =
            IntOverlayOptions { preserve_input_collinear: keep_collinear, ..IntOverlayOptions::keep_output_points() };
        Self {
            overlay: Overlay::new_custom(0, options, Solver::default()),
            subject: contours(subject),
            clip: contours(clip),
        }
    }

    /// The text's `build_graph_view`, of which the overlay rule (by its number) skips some links; none if no edge is left.
    pub fn view(&mut self, fill: usize, rule: usize) -> Option<Run> {
        self.add_polygons();
        self.overlay.build_graph_view(FILLS[fill]).map(|graph| run(RULES[rule], &graph))
    }

    /// The graph that the text's `overlay` extracts its shapes from, of the links that the rule keeps; none if no edge is left.
    pub fn kept(&mut self, fill: usize, rule: usize) -> Option<Run> {
        self.build(fill, rule).map(|graph| run(RULES[rule], &graph))
    }

    /// How many links that graph has: the work of `overlay` up to extraction, and none besides.
    pub fn links(&mut self, fill: usize, rule: usize) -> usize {
        self.build(fill, rule).map_or(0, |graph| graph.links.len())
    }

    fn build(&mut self, fill: usize, rule: usize) -> Option<OverlayGraph<'_, i32>> {
        self.add_polygons();
        let Overlay { solver, options, segments, split_solver, graph_builder, .. } = &mut self.overlay;
        split_solver.split_segments(segments, solver);
        if segments.is_empty() {
            return None;
        }
        Some(graph_builder.build_boolean_overlay(FILLS[fill], RULES[rule], *options, solver, segments))
    }

    /// The text's `overlay`: polygons to shapes. Panics where the text does.
    pub fn overlay(&mut self, fill: usize, rule: usize, settings: Settings) -> Vec<Vec<Vec<Point>>> {
        nested(&self.bound(fill, rule, settings).0)
    }

    /// The same, with the shapes left in the text's own types.
    pub fn bound(&mut self, fill: usize, rule: usize, settings: Settings) -> Bound {
        self.add_polygons();
        set(&mut self.overlay.options, settings);
        Bound(self.overlay.overlay(RULES[rule], FILLS[fill]))
    }

    /// Splitting wears the edges out: each use takes the polygons anew.
    fn add_polygons(&mut self) {
        self.overlay.reinit_with_subj_and_clip(&self.subject, &self.clip);
    }
}

fn contours(contours: &[Vec<Point>]) -> IntShape<i32> {
    contours.iter().map(|contour| contour.iter().map(|point| IntPoint::new(point.x, point.y)).collect()).collect()
}

/// A copy of the graph, to be run.
fn run(rule: OverlayRule, graph: &OverlayGraph<'_, i32>) -> Run {
    let nodes = graph.nodes.iter().map(|node| OverlayNode::with_indices(entries(node)));
    Run::of(rule, nodes.collect(), graph.links.to_vec())
}
