//! i_overlay `geom::line_range`: from the least to the greatest of a segment's y.

pub(crate) struct LineRange<I> {
    pub(crate) min: I,
    pub(crate) max: I,
}
