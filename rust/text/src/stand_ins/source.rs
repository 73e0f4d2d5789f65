//! i_shape `source`: what contours can be taken from.

pub(crate) mod int {
    pub(crate) mod resource {
        use crate::int::point::IntPoint;
        use crate::int::shape::{IntContour, IntShape};

        pub trait IntShapeResource<I> {
            fn iter_paths<'a>(&'a self) -> impl Iterator<Item = &'a [IntPoint<I>]>
            where
                I: 'a;
        }

        /// A contour, several, a shape, or several shapes: each as an iterator over its contours.
        macro_rules! resources {
            ($($source:ty: $paths:expr;)*) => {$(
                impl<I> IntShapeResource<I> for $source {
                    fn iter_paths<'a>(&'a self) -> impl Iterator<Item = &'a [IntPoint<I>]>
                    where
                        I: 'a,
                    {
                        $paths(self)
                    }
                }
            )*};
        }
        resources! {
            [IntPoint<I>]: std::iter::once;
            [IntContour<I>]: |contours: &'a [IntContour<I>]| contours.iter().map(Vec::as_slice);
            IntShape<I>: |contours: &'a IntShape<I>| contours.iter().map(Vec::as_slice);
            [IntShape<I>]: |shapes: &'a [IntShape<I>]| shapes.iter().flatten().map(Vec::as_slice);
        }
    }
}
