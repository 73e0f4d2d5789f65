//! i_shape `flat`: contours and shapes as ranges of one list of points.

pub(crate) mod buffer {
    use crate::int::point::IntPoint;
    use std::ops::Range;

    #[derive(Debug)]
    pub struct FlatContoursBuffer<I> {
        pub points: Vec<IntPoint<I>>,
        pub ranges: Vec<Range<usize>>,
    }

    impl<I> Default for FlatContoursBuffer<I> {
        fn default() -> Self {
            Self { points: Vec::new(), ranges: Vec::new() }
        }
    }

    impl<I: Copy> FlatContoursBuffer<I> {
        pub fn clear_and_reserve(&mut self, points: usize, contours: usize) {
            self.points.clear();
            self.points.reserve(points);
            self.ranges.clear();
            self.ranges.reserve(contours);
        }

        pub fn add_contour(&mut self, contour: &[IntPoint<I>]) {
            let start = self.points.len();
            self.points.extend_from_slice(contour);
            self.ranges.push(start..self.points.len());
        }
    }

    #[derive(Debug, Clone, PartialEq, Eq)]
    pub struct FlatShapesBuffer<I> {
        pub points: Vec<IntPoint<I>>,
        pub contour_ranges: Vec<Range<usize>>,
        pub shape_ranges: Vec<Range<usize>>,
    }

    impl<I> Default for FlatShapesBuffer<I> {
        fn default() -> Self {
            Self::with_capacity(0, 0, 0)
        }
    }

    impl<I> FlatShapesBuffer<I> {
        pub fn with_capacity(points: usize, contours: usize, shapes: usize) -> Self {
            Self {
                points: Vec::with_capacity(points),
                contour_ranges: Vec::with_capacity(contours),
                shape_ranges: Vec::with_capacity(shapes),
            }
        }
    }
}
