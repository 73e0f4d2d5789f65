//! What a caller chooses.

/// Direction of the output's hulls; holes run the other way.
#[derive(Clone, Copy, Debug, Default, PartialEq, Eq, Hash)]
pub enum ContourDirection {
    /// Hulls run counterclockwise, with y pointing upward.
    #[default]
    CounterClockwise,
    /// Hulls run clockwise.
    Clockwise,
}

impl ContourDirection {
    /// The direction for a flag.
    pub fn from_clockwise(clockwise: bool) -> Self {
        if clockwise { Self::Clockwise } else { Self::CounterClockwise }
    }

    /// Whether hulls run clockwise.
    pub fn is_clockwise(self) -> bool {
        self == Self::Clockwise
    }
}

/// Options of extraction, named as i_overlay names them.
///
/// ```
/// use guovdamas::{Graph, Options, Segment};
///
/// // a square of eight segments, with a joint in the middle of each side
/// let side = |a, b| Segment { a, b, fill_top: true, skipped: false };
/// let points = [[0, 0], [2, 0], [4, 0], [4, 2], [4, 4], [2, 4], [0, 4], [0, 2]];
/// let graph = Graph::from_segments((0..8).map(|at| side(points[at], points[(at + 1) % 8])));
///
/// let all = graph.extract_shapes(Options::default())?;
/// assert_eq!(all.shape(0).unwrap().hull().points().len(), 8);
///
/// let without = graph.extract_shapes(Options { preserve_output_collinear: false, ..Options::default() })?;
/// assert_eq!(without.shape(0).unwrap().hull().points(), [[0, 0], [4, 0], [4, 4], [0, 4]]);
/// assert_eq!(without.shape(0).unwrap().doubled_area(), 32);
/// # Ok::<(), guovdamas::Refusal>(())
/// ```
#[derive(Clone, Copy, Debug, PartialEq, Eq, Hash)]
pub struct Options {
    /// Direction of the hulls (holes run the other way).
    pub output_direction: ContourDirection,
    /// Contours of a smaller area are rejected; 0 keeps all. In square units: a contour is kept if its absolute doubled
    /// area is at least twice this.
    pub min_output_area: u64,
    /// Whether contours keep the points that lie on one line with their two neighbours; they do by default.
    ///
    /// Without them contours have the same numbers, kinds, areas and owners: what is kept or rejected is decided before,
    /// and holes are bound on all points. So [`Contours`](crate::Contours) and [`Shapes`](crate::Shapes) without them
    /// take two extractions; [`lent::extract`](crate::lent::extract) takes one.
    pub preserve_output_collinear: bool,
}

impl Default for Options {
    fn default() -> Self {
        Self { output_direction: ContourDirection::default(), min_output_area: 0, preserve_output_collinear: true }
    }
}
