//! Areas and frames in millimetres, of what was found.

use crate::lent::{self, Report, ReportLists, Reported, Table};
use crate::outline::{Contour, Shape, Shapes};

/// The least box round a contour, its sides upright, in millimetres: each edge is a whole coordinate divided once by
/// 100.
///
/// ```
/// use guovdamas::{Frame, Graph, Options, Segment};
///
/// let side = |a, b| Segment { a, b, fill_top: true, skipped: false };
/// let triangle = [side([-250, 0], [101, 3]), side([101, 3], [0, 99]), side([0, 99], [-250, 0])];
/// let shapes = Graph::from_segments(triangle).extract_shapes(Options::default())?;
/// let frame = shapes.shape(0).unwrap().hull().frame_mm();
/// assert_eq!(frame, Frame { left: -2.5, bottom: 0.0, right: 1.01, top: 0.99 });
/// # Ok::<(), guovdamas::Refusal>(())
/// ```
#[derive(Clone, Copy, Debug, PartialEq)]
pub struct Frame {
    /// The least x.
    pub left: f64,
    /// The least y.
    pub bottom: f64,
    /// The greatest x.
    pub right: f64,
    /// The greatest y.
    pub top: f64,
}

/// Areas and frames of all contours, a list each, in millimetres: what [`Shapes::reports`] gives. Entry c is of contour
/// c.
///
/// ```
/// use guovdamas::{Graph, Options, Segment};
///
/// let side = |a, b| Segment { a, b, fill_top: true, skipped: false };
/// let triangle = |x, size| [side([x, 0], [x + size, 0]), side([x + size, 0], [x, size]), side([x, size], [x, 0])];
/// let two = Graph::from_segments([triangle(0, 100), triangle(500, 300)].concat());
/// let reports = two.extract_shapes(Options::default())?.reports();
/// let widths: Vec<f64> = reports.left.iter().zip(&reports.right).map(|(left, right)| right - left).collect();
/// assert_eq!((reports.area, widths), (vec![0.5, 4.5], vec![1.0, 3.0]));
/// # Ok::<(), guovdamas::Refusal>(())
/// ```
#[derive(Clone, Debug, Default, PartialEq)]
pub struct Reports {
    /// Signed areas in mm², positive when counterclockwise.
    pub area: Vec<f64>,
    /// The least x of each contour.
    pub left: Vec<f64>,
    /// The least y.
    pub bottom: Vec<f64>,
    /// The greatest x.
    pub right: Vec<f64>,
    /// The greatest y.
    pub top: Vec<f64>,
}

impl Contour<'_> {
    /// The signed area in mm², positive when counterclockwise: the doubled area made a float, with nothing lost, and
    /// divided once by 20000. It is the library's own answer, by [`lent::report`].
    ///
    /// ```
    /// use guovdamas::{ContourDirection, Graph, Options, Segment};
    ///
    /// let side = |a, b| Segment { a, b, fill_top: true, skipped: false };
    /// let triangle = Graph::from_segments([side([0, 0], [1, 0]), side([1, 0], [0, 1]), side([0, 1], [0, 0])]);
    /// let contours = triangle.extract_contours(Options::default())?;
    /// assert_eq!(contours.get(0).unwrap().area_mm2(), 0.00005);
    /// let clockwise = Options { output_direction: ContourDirection::Clockwise, ..Options::default() };
    /// assert_eq!(triangle.extract_contours(clockwise)?.get(0).unwrap().area_mm2(), -0.00005);
    /// # Ok::<(), guovdamas::Refusal>(())
    /// ```
    pub fn area_mm2(&self) -> f64 {
        self.report().area
    }

    /// The least box round the contour, in millimetres. It is the library's own answer, by [`lent::report`].
    ///
    /// ```
    /// use guovdamas::{Frame, Graph, Options, Segment};
    ///
    /// let side = |a, b| Segment { a, b, fill_top: true, skipped: false };
    /// let triangle = Graph::from_segments([side([0, 0], [1, 0]), side([1, 0], [0, 1]), side([0, 1], [0, 0])]);
    /// let contours = triangle.extract_contours(Options::default())?;
    /// let frame = Frame { left: 0.0, bottom: 0.0, right: 0.01, top: 0.01 };
    /// assert_eq!(contours.get(0).unwrap().frame_mm(), frame);
    /// # Ok::<(), guovdamas::Refusal>(())
    /// ```
    pub fn frame_mm(&self) -> Frame {
        self.report().frame
    }

    /// Asks the library of this contour alone, as a table of one hull: what it is and which others there are does not
    /// matter to its area and frame. It is proved that it is not missing, with its straight points and without.
    fn report(&self) -> Report {
        let len = [self.points().len() as u32];
        let alone = Table { points: self.points().as_flattened(), first: &[0], len: &len, kind: &[0] };
        lent::report(alone, &[0], 0).expect("a contour that was found has a report")
    }
}

/// A doubled area in mm². It is below 2^53 in size, so that as a float nothing of it is lost: each of at most 4,096
/// points adds at most 2^39.
fn square_mm(doubled_area: i64) -> f64 {
    doubled_area as f64 / 20000.0
}

impl Shape<'_> {
    /// The signed area in mm², the hull's and the holes', which run the other way.
    ///
    /// It is the [doubled area](Shape::doubled_area), a sum of whole numbers, made a float and divided once by 20000:
    /// so no roundings add up, however many holes there are. The contours' own areas summed as floats may differ from
    /// it in the last digits.
    ///
    /// ```
    /// use guovdamas::{Graph, Options, Segment};
    ///
    /// let side = |a, b| Segment { a, b, fill_top: true, skipped: false };
    /// let hull = [side([0, 0], [9, 0]), side([9, 0], [0, 9]), side([0, 9], [0, 0])];
    /// let hole = [side([1, 1], [1, 2]), side([1, 2], [2, 1]), side([2, 1], [1, 1])];
    /// let shapes = Graph::from_segments([hull, hole].concat()).extract_shapes(Options::default())?;
    /// assert_eq!(shapes.shape(0).unwrap().area_mm2(), 0.004);
    /// # Ok::<(), guovdamas::Refusal>(())
    /// ```
    pub fn area_mm2(&self) -> f64 {
        square_mm(self.doubled_area())
    }
}

impl Shapes {
    /// The signed area of all shapes in mm². Dropped holes belong to no shape, and do not count.
    ///
    /// It is the sum of their [doubled areas](Shape::doubled_area), which are whole, made a float and divided once by
    /// 20000: so no roundings add up, however many contours there are.
    ///
    /// ```
    /// use guovdamas::{Graph, Options, Segment};
    ///
    /// let side = |a, b| Segment { a, b, fill_top: true, skipped: false };
    /// let triangle = |x| [side([x, 0], [x + 1, 0]), side([x + 1, 0], [x, 1]), side([x, 1], [x, 0])];
    /// let three = Graph::from_segments([triangle(0), triangle(5), triangle(10)].concat());
    /// assert_eq!(three.extract_shapes(Options::default())?.area_mm2(), 0.00015);
    /// # Ok::<(), guovdamas::Refusal>(())
    /// ```
    pub fn area_mm2(&self) -> f64 {
        // with a hull every contour belongs to a shape, and without one none does
        let ours = self.contours().iter().filter(|_| !self.is_empty());
        square_mm(ours.map(|contour| contour.doubled_area()).sum())
    }

    /// Areas and frames of all contours, hulls and holes, by one call of the library: what [`Contour::area_mm2`] and
    /// [`Contour::frame_mm`] say of each.
    ///
    /// ```
    /// use guovdamas::{Graph, Options, Segment};
    ///
    /// let side = |a, b| Segment { a, b, fill_top: true, skipped: false };
    /// let triangle = |x| [side([x, 0], [x + 1, 0]), side([x + 1, 0], [x, 1]), side([x, 1], [x, 0])];
    /// let two = Graph::from_segments([triangle(0), triangle(5)].concat());
    /// let reports = two.extract_shapes(Options::default())?.reports();
    /// assert_eq!((reports.area, reports.left), (vec![0.00005, 0.00005], vec![0.0, 0.05]));
    /// # Ok::<(), guovdamas::Refusal>(())
    /// ```
    pub fn reports(&self) -> Reports {
        let contours = self.contours().len();
        let [area, left, bottom, right, top] = [(); 5].map(|()| vec![f64::NAN; contours]);
        let mut reports = Reports { area, left, bottom, right, top };
        let Reports { area, left, bottom, right, top } = &mut reports;
        let lists = ReportLists { area, left, bottom, right, top };
        // the table that binding has bound: of it every contour is reported
        let reported = lent::report_all(self.contours().full_table(), self.owners(), lists);
        let Reported { contours: written, missing } = reported.expect("what was bound passes check 10");
        debug_assert_eq!((written as usize, missing), (contours, 0), "binding has made the owners");
        reports
    }
}
