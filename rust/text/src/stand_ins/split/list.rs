//! i_overlay's three layouts of the split (list, tree, fragments): which pairs of segments are asked for their crossing. One
//! stands for all three: the pairs whose ranges of x and of y meet, in the order of the segments. The crossing itself, the
//! marks and what is made of them are the text's.

use super::snap_radius::SnapRadius;
use super::solver::SplitSolver;
use crate::core::edge_data::OverlayEdgeData;
use crate::core::integer::OverlayInt;
use crate::core::solver::Solver;
use crate::int::number::int::IntNumber;
use crate::segm::segment::Segment;
use crate::segm::winding::WindingCount;

/// Each layout by its name: what stands for it is the same.
macro_rules! layouts {
    ($($layout:ident)*) => {$(
        pub(super) fn $layout<C: WindingCount, D: OverlayEdgeData<C>>(
            &mut self,
            snap_radius: SnapRadius,
            segments: &mut Vec<Segment<C, I, D>>,
            solver: &Solver,
            store: &mut D::Store,
        ) -> bool {
            self.split_at_crossings(snap_radius, segments, solver, store)
        }
    )*};
}

impl<I: OverlayInt> SplitSolver<I> {
    layouts! { list_split tree_split fragment_split }

    /// Splits at the crossings, and again as long as one of them was rounded.
    fn split_at_crossings<C: WindingCount, D: OverlayEdgeData<C>>(
        &mut self,
        mut snap_radius: SnapRadius,
        segments: &mut Vec<Segment<C, I, D>>,
        solver: &Solver,
        store: &mut D::Store,
    ) -> bool {
        let mut any_intersection = false;
        let mut buffer = Vec::new();
        let mut is_rounded = true;
        while is_rounded && segments.len() > 2 {
            is_rounded = self.mark_crossings(segments, snap_radius.squared::<I>());
            if self.marks.is_empty() {
                break;
            }
            any_intersection = true;
            self.apply(segments, &mut buffer, solver, store);
            snap_radius.increment();
        }
        any_intersection
    }

    /// Whether a crossing was rounded.
    fn mark_crossings<C, D>(
        &mut self,
        segments: &[Segment<C, I, D>],
        radius_squared: <I as IntNumber>::WideUInt,
    ) -> bool {
        let mut is_rounded = false;
        self.marks.clear();
        for (i, target) in segments.iter().enumerate() {
            let target = &target.x_segment;
            let range = target.y_range();
            let beside = segments.iter().enumerate().skip(i + 1).take_while(|(_, s)| s.x_segment.a.x <= target.b.x);
            for (j, other) in beside.filter(|(_, s)| !s.x_segment.is_not_intersect_y_range(&range)) {
                is_rounded |= Self::cross(i, j, target, &other.x_segment, &mut self.marks, radius_squared);
            }
        }
        is_rounded
    }
}
