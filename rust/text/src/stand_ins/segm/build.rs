//! i_overlay `segm::build`: a closed contour's edges as segments.

use crate::core::overlay::ShapeType;
use crate::int::number::int::IntNumber;
use crate::int::point::IntPoint;
use crate::segm::boolean::ShapeCountBoolean;
use crate::segm::segment::Segment;
use crate::triangle::Triangle;

pub(crate) trait BuildSegments<I: IntNumber> {
    /// Adds the edges of a closed contour that have a length. Unless they are to be kept, joints on a straight line go; that
    /// leaves every winding number as it is, for what a joint parts has the same count on both sides.
    fn append_path_iter(&mut self, path: impl Iterator<Item = IntPoint<I>>, shape: ShapeType, keep_joints: bool);
}

impl<I: IntNumber> BuildSegments<I> for Vec<Segment<ShapeCountBoolean, I>> {
    fn append_path_iter(&mut self, path: impl Iterator<Item = IntPoint<I>>, shape: ShapeType, keep_joints: bool) {
        let mut contour: Vec<_> = path.collect();
        if !keep_joints {
            contour = without_joints(&contour);
        }
        let next = contour.iter().skip(1).chain(contour.first());
        let edges = contour.iter().zip(next);
        self.extend(edges.filter_map(|(&a, &b)| Segment::try_ab_and_data(a, b, shape, (), &mut ())));
    }
}

/// The contour without the points that lie on one line with the last one kept and the next; what is left at its seam is dropped
/// too.
fn without_joints<I: IntNumber>(contour: &[IntPoint<I>]) -> Vec<IntPoint<I>> {
    let mut kept: Vec<IntPoint<I>> = Vec::with_capacity(contour.len());
    for &point in contour {
        while let [.., before, last] = kept[..]
            && Triangle::is_line(before, last, point)
        {
            kept.pop();
        }
        kept.push(point);
    }
    while let [first, .., before, last] = kept[..]
        && Triangle::is_line(before, last, first)
    {
        kept.pop();
    }
    let seam = kept.windows(2).take_while(|pair| Triangle::is_line(*kept.last().expect("a window"), pair[0], pair[1]));
    let drop = seam.count();
    kept.drain(..drop);
    kept
}
