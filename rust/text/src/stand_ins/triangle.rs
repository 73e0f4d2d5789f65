//! i_float `triangle`. Which order stands for clockwise is read off the text: `is_under_segment` says by `is_clockwise` what
//! `is_under_segment_order` says by `Ordering::Less`.

use super::int::number::{int::IntNumber, wide_int::WideIntNumber};
use super::int::point::IntPoint;
use std::cmp::Ordering;

pub struct Triangle;

impl Triangle {
    /// The points turn strictly clockwise, y upward.
    #[inline(always)]
    pub fn is_clockwise<I: IntNumber>(p0: IntPoint<I>, p1: IntPoint<I>, p2: IntPoint<I>) -> bool {
        Self::clock_order(p0, p1, p2) == Ordering::Less
    }

    /// The points lie on one line.
    pub fn is_line<I: IntNumber>(p0: IntPoint<I>, p1: IntPoint<I>, p2: IntPoint<I>) -> bool {
        Self::clock_order(p0, p1, p2) == Ordering::Equal
    }

    pub fn is_not_line<I: IntNumber>(p0: IntPoint<I>, p1: IntPoint<I>, p2: IntPoint<I>) -> bool {
        !Self::is_line(p0, p1, p2)
    }

    /// The sign of the turn. The text asks whether two are equal, and whether one is zero.
    pub fn clock_direction<I: IntNumber>(p0: IntPoint<I>, p1: IntPoint<I>, p2: IntPoint<I>) -> I::Wide {
        (p1 - p0).cross_product(p2 - p0).signum()
    }

    /// `Less` for clockwise, `Equal` for points on a line, `Greater` for counterclockwise.
    #[inline(always)]
    pub fn clock_order<I: IntNumber>(p0: IntPoint<I>, p1: IntPoint<I>, p2: IntPoint<I>) -> Ordering {
        (p1 - p0).cross_product(p2 - p0).cmp(&I::Wide::ZERO)
    }
}
