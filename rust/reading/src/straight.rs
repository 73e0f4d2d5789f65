//! Request a of document 02: points on a straight line are left out of what is written.

use crate::geometry::Point;

/// "a point when it and its two neighbours, round the contour, lie on one line"
pub fn is_straight(contour: &[Point], position: usize) -> bool {
    let n = contour.len();
    let (before, point, after) = (contour[(position + n - 1) % n], contour[position], contour[(position + 1) % n]);
    before.to(point).cross(point.to(after)) == 0
}

/// "Remove the lowest position first and repeat until none is left or fewer than 3 points remain".
pub fn drop_straight(contour: &[Point]) -> Vec<Point> {
    let mut left = contour.to_vec();
    while left.len() >= 3 {
        let Some(lowest) = (0..left.len()).find(|&position| is_straight(&left, position)) else { break };
        left.remove(lowest);
    }
    left
}

/// What is written of a kept walk: "the old contours, then this rule"; none "if fewer", for then "the contour is left out".
pub fn written(walked: &[Point], drops: bool) -> Option<Vec<Point>> {
    if !drops {
        return Some(walked.to_vec());
    }
    let left = drop_straight(walked);
    (left.len() >= 3).then_some(left)
}

#[cfg(test)]
mod tests {
    use super::*;
    use crate::Settings;
    use crate::graph::{Buffers, Graph};
    use crate::walk::{Counts, extract};

    /// Sees what is left of a list.
    fn leaves(contour: &[(i32, i32)], due: &[(i32, i32)]) {
        let contour: Vec<Point> = contour.iter().map(|&(x, y)| Point::new(x, y)).collect();
        let left: Vec<(i32, i32)> = drop_straight(&contour).iter().map(|point| (point.x, point.y)).collect();
        assert_eq!(left, due);
        assert_eq!(written(&contour, true).is_some(), due.len() >= 3);
        assert_eq!(written(&contour, false), Some(contour));
    }

    #[test]
    fn a_list_without_such_points_stays() {
        leaves(&[(0, 4), (0, 0), (4, 0), (4, 4)], &[(0, 4), (0, 0), (4, 0), (4, 4)]);
    }

    #[test]
    fn joints_go() {
        let square = [(0, 4), (0, 2), (0, 0), (1, 0), (3, 0), (4, 0), (4, 1), (4, 4), (2, 4)];
        leaves(&square, &[(0, 4), (0, 0), (4, 0), (4, 4)]);
    }

    /// Of two equal neighbours either could go, and not the other then: the list begins elsewhere if the first does.
    #[test]
    fn the_lowest_goes_first() {
        leaves(&[(0, 0), (4, 0), (4, 4), (0, 4), (0, 0)], &[(4, 0), (4, 4), (0, 4), (0, 0)]);
        leaves(&[(0, 0), (4, 0), (0, 0), (0, 4)], &[(0, 0), (0, 4)]);
    }

    /// Its tip and the points on its sides; at last its foot stands there twice, and goes once.
    #[test]
    fn a_spike_vanishes() {
        leaves(&[(0, 4), (0, 0), (4, 0), (6, 0), (8, 0), (6, 0), (4, 0), (4, 4)], &[(0, 4), (0, 0), (4, 0), (4, 4)]);
    }

    #[test]
    fn a_point_beside_an_equal_one_goes() {
        leaves(&[(0, 4), (0, 0), (0, 0), (4, 0), (4, 4)], &[(0, 4), (0, 0), (4, 0), (4, 4)]);
    }

    /// Positions 0 and 5 are each other's neighbours: both lie on the side that wraps.
    #[test]
    fn neighbours_are_sought_round_the_list() {
        leaves(&[(2, 0), (4, 0), (4, 4), (0, 4), (0, 0), (1, 0)], &[(4, 0), (4, 4), (0, 4), (0, 0)]);
    }

    #[test]
    fn what_lies_on_one_line_falls_under_3() {
        leaves(&[(0, 0), (1, 1), (3, 3), (2, 2)], &[(3, 3), (2, 2)]);
        leaves(&[(0, 0), (4, 0), (2, 0)], &[(4, 0), (2, 0)]);
    }

    /// The bounds' greatest cross products, of either sign and 0.
    #[test]
    fn the_bounds() {
        const M: i32 = crate::MAX_COORDINATE;
        let (low, high) = ((-M, -M), (M, M));
        leaves(&[low, (M, -M), high, (0, 0)], &[low, (M, -M), high]);
        leaves(&[low, (-M, M), high, (M - 1, M - 1), (1 - M, -M)], &[low, (-M, M), high, (M - 1, M - 1), (1 - M, -M)]);
    }

    /// E2's square with a joint on each side. What is counted but for the points is of the walk of eight links; one that is too
    /// small is rejected, and not left out.
    #[test]
    fn a_square_with_joints() {
        let square = Graph::of_links(&[
            ([0, 0], [0, 2], 0),
            ([0, 0], [2, 0], 1),
            ([0, 2], [0, 4], 0),
            ([0, 4], [2, 4], 0),
            ([2, 0], [4, 0], 1),
            ([2, 4], [4, 4], 0),
            ([4, 0], [4, 2], 1),
            ([4, 2], [4, 4], 1),
        ]);
        let found = |clockwise, minimum| {
            let mut lent = Buffers::for_states(vec![0; 8]);
            let counts = extract(&square, Settings { clockwise, minimum, drop_straight: true }, &mut lent).unwrap();
            assert_eq!(lent.state, [3; 8]);
            (counts, lent.points, lent.len)
        };
        let kept = Counts { contours: 1, points: 4, walked: 8, kept_area: 32, ..Counts::default() };
        let points = vec![0, 0, 4, 0, 4, 4, 0, 4, 0, 0, 0, 0, 0, 0, 0, 0];
        assert_eq!(found(false, 16), (kept, points, vec![4, 0]));
        let points = vec![0, 0, 0, 4, 4, 4, 4, 0, 0, 0, 0, 0, 0, 0, 0, 0];
        assert_eq!(found(true, 0), (Counts { kept_area: -32, ..kept }, points, vec![4, 0]));
        let rejected = Counts { rejected: 1, walked: 8, rejected_area: 32, ..Counts::default() };
        assert_eq!(found(false, 17), (rejected, vec![0; 16], vec![0, 0]));
    }
}
