//! i_overlay `build::boolean`: the fill rules over winding counts, and the graph of all links or of those that a rule keeps.

use super::builder::{GraphBuilder, InclusionFilterStrategy};
use super::sweep::{EvenOddStrategy, FillStrategy, NegativeStrategy, NonZeroStrategy, PositiveStrategy};
use crate::core::fill_rule::FillRule;
use crate::core::filter::is_skipped;
use crate::core::graph::{OverlayGraph, OverlayNode};
use crate::core::integer::OverlayInt;
use crate::core::overlay::IntOverlayOptions;
use crate::core::overlay_rule::OverlayRule;
use crate::core::solver::Solver;
use crate::segm::boolean::ShapeCountBoolean;
use crate::segm::segment::{CLIP_BOTTOM, CLIP_TOP, SUBJ_BOTTOM, SUBJ_TOP, Segment, SegmentFill};
use crate::segm::winding::WindingCount;

type BooleanSegment<I> = Segment<ShapeCountBoolean, I>;

impl<I: OverlayInt> GraphBuilder<ShapeCountBoolean, OverlayNode, I> {
    /// The graph of all segments.
    pub(crate) fn build_boolean_all(
        &mut self,
        fill_rule: FillRule,
        options: IntOverlayOptions<I::WideUInt>,
        solver: &Solver,
        segments: &[BooleanSegment<I>],
    ) -> OverlayGraph<'_, I> {
        self.build_boolean_fills(fill_rule, solver, segments);
        self.build_links_all(segments);
        self.boolean_graph(options)
    }

    /// The graph of the segments that the rule keeps.
    pub(crate) fn build_boolean_overlay(
        &mut self,
        fill_rule: FillRule,
        overlay_rule: OverlayRule,
        options: IntOverlayOptions<I::WideUInt>,
        solver: &Solver,
        segments: &[BooleanSegment<I>],
    ) -> OverlayGraph<'_, I> {
        self.build_boolean_fills(fill_rule, solver, segments);
        match overlay_rule {
            OverlayRule::Subject => self.build_links_by_filter::<Subject>(segments),
            OverlayRule::Clip => self.build_links_by_filter::<Clip>(segments),
            OverlayRule::Intersect => self.build_links_by_filter::<Intersect>(segments),
            OverlayRule::Union => self.build_links_by_filter::<Union>(segments),
            OverlayRule::Difference => self.build_links_by_filter::<Difference>(segments),
            OverlayRule::InverseDifference => self.build_links_by_filter::<InverseDifference>(segments),
            OverlayRule::Xor => self.build_links_by_filter::<Xor>(segments),
        }
        self.boolean_graph(options)
    }

    fn build_boolean_fills(&mut self, fill_rule: FillRule, solver: &Solver, segments: &[BooleanSegment<I>]) {
        match fill_rule {
            FillRule::EvenOdd => self.build_fills_with_strategy::<EvenOddStrategy>(solver, segments),
            FillRule::NonZero => self.build_fills_with_strategy::<NonZeroStrategy>(solver, segments),
            FillRule::Positive => self.build_fills_with_strategy::<PositiveStrategy>(solver, segments),
            FillRule::Negative => self.build_fills_with_strategy::<NegativeStrategy>(solver, segments),
        }
    }

    fn boolean_graph(&mut self, options: IntOverlayOptions<I::WideUInt>) -> OverlayGraph<'_, I> {
        self.build_nodes_and_connect_links();
        OverlayGraph { options, nodes: &self.nodes, links: &self.links }
    }
}

/// A rule as the builder's filter asks for it.
macro_rules! filters {
    ($($rule:ident)*) => {$(
        struct $rule;

        impl InclusionFilterStrategy for $rule {
            fn is_included(fill: SegmentFill) -> bool {
                !is_skipped(OverlayRule::$rule, fill)
            }
        }
    )*};
}
filters! { Subject Clip Intersect Union Difference InverseDifference Xor }

/// A fill rule: what is filled, by the winding number there.
macro_rules! fill_rules {
    ($($strategy:ident: $filled:expr;)*) => {$(
        impl FillStrategy<ShapeCountBoolean> for $strategy {
            fn add_and_fill(this: ShapeCountBoolean, below: ShapeCountBoolean) -> (ShapeCountBoolean, SegmentFill) {
                let above = below.add(this);
                (above, sides(above, below, $filled))
            }
        }
    )*};
}
fill_rules! {
    EvenOddStrategy: |count| count % 2 != 0;
    NonZeroStrategy: |count| count != 0;
    PositiveStrategy: |count| count > 0;
    NegativeStrategy: |count| count < 0;
}

fn sides(above: ShapeCountBoolean, below: ShapeCountBoolean, is_filled: fn(i32) -> bool) -> SegmentFill {
    let side = |count: i32, bit: SegmentFill| if is_filled(count) { bit } else { 0 };
    side(above.subj, SUBJ_TOP)
        | side(below.subj, SUBJ_BOTTOM)
        | side(above.clip, CLIP_TOP)
        | side(below.clip, CLIP_BOTTOM)
}
