//! The library's functions over lent slices, for callers that keep their own buffers.
//!
//! Nothing is required of what is lent: lists of unlike length, wrong numbers and short buffers are refused.
//!
//! ```
//! use guovdamas::{ContourDirection, lent};
//!
//! let table = lent::Table {
//!     points: &[0, 10, 0, 0, 10, 0, 10, 10, 2, 2, 2, 8, 8, 8, 8, 2],
//!     first: &[0, 4],
//!     len: &[4, 4],
//!     kind: &[0, 1],
//! };
//! let mut owner = [7; 3];
//! let bound = lent::bind(table, ContourDirection::CounterClockwise, &mut owner)?;
//! assert_eq!((bound.shapes, bound.dropped), (1, 0));
//! assert_eq!(owner, [0, 0, 7]);
//! let record = lent::lookup(table, &owner, 1).unwrap();
//! assert_eq!((record.first, record.len, record.role), (4, 4, lent::Role::Hole(0)));
//! assert_eq!(lent::lookup(table, &owner, 2), None);
//! let report = lent::report(table, &owner, 1).unwrap();
//! assert_eq!((report.area, report.frame.left, report.frame.top), (-0.0036, 0.02, 0.08));
//! # Ok::<(), guovdamas::Refusal>(())
//! ```

use crate::{ContourDirection, Lists, Options, Refusal, diagnosis, ffi};

pub use crate::lists::{Buffers, ReportLists, Table};
pub use crate::report::Frame;

/// What extraction counts; areas are signed, doubled, positive when counterclockwise, and summed.
///
/// Contours and points are those that are written. All else is of the walks, before points on a straight line are left
/// out.
#[derive(Clone, Copy, Debug, Default, PartialEq, Eq)]
pub struct Counts {
    /// Kept contours.
    pub contours: u32,
    /// Their points.
    pub points: u32,
    /// Walks rejected for their size.
    pub rejected: u32,
    /// Links walked, by kept and rejected walks.
    pub walked: u32,
    /// Walks kept, of which fewer than 3 points would remain without those on a straight line. It is proved that a graph
    /// that passes the checks has none.
    pub left_out: u32,
    /// The kept walks' areas, summed.
    pub kept_area: i64,
    /// The rejected walks' areas, summed.
    pub rejected_area: i64,
}

/// What binding counts.
#[derive(Clone, Copy, Debug, Default, PartialEq, Eq)]
pub struct Bound {
    /// Hulls.
    pub shapes: u32,
    /// Holes dropped, since there is no hull.
    pub dropped: u32,
}

/// What a contour is.
#[derive(Clone, Copy, Debug, PartialEq, Eq)]
pub enum Role {
    /// A hull with its shape's number.
    Hull(u16),
    /// A hole with the number of the shape that it belongs to.
    Hole(u16),
    /// A hole without a shape.
    Dropped,
}

/// One contour's record.
#[derive(Clone, Copy, Debug, PartialEq, Eq)]
pub struct ContourRecord {
    /// Position of its first point.
    pub first: u32,
    /// How many points it has.
    pub len: u32,
    /// What it is, and to which shape it belongs.
    pub role: Role,
}

/// One contour's area and frame.
#[derive(Clone, Copy, Debug, PartialEq)]
pub struct Report {
    /// The signed area in mm², positive when counterclockwise.
    pub area: f64,
    /// The least box round its points.
    pub frame: Frame,
}

/// What the reports of a whole table count.
#[derive(Clone, Copy, Debug, Default, PartialEq, Eq)]
pub struct Reported {
    /// Contours: so many entries are written in front of each list.
    pub contours: u32,
    /// Of these, contours of which there is no report, since their owner is wrong.
    pub missing: u32,
}

/// Walks the graph and writes the kept contours, hulls and holes, in the order in which they were found. On success
/// everything past the last contour is zero. It takes some 102 KiB of stack.
///
/// With [`preserve_output_collinear`](Options::preserve_output_collinear) off, points on a straight line are not
/// written. Holes are bound on all points: who wants both extracts twice, binds the table with all points, and takes
/// the owners for the other, whose contours have the same numbers.
///
/// # Errors
/// 1 to 7 if a check finds the graph at fault: then all that was lent is as before. 8 and 9 if a walk cannot be gone on
/// with or ends elsewhere: then the states are as before, and the points and the contour table are zero.
pub fn extract(lists: Lists<'_>, options: Options, mut lent: Buffers<'_>) -> Result<Counts, Refusal> {
    let settings = ffi::Settings {
        minimum: options.min_output_area,
        clockwise: options.output_direction.is_clockwise(),
        drop_straight: !options.preserve_output_collinear,
    };
    let answer = ffi::extract(lists, settings, &mut lent);
    let counts = Counts {
        contours: small(answer.contours),
        points: small(answer.points),
        rejected: small(answer.rejected),
        walked: small(answer.walked),
        left_out: small(answer.left_out),
        kept_area: answer.kept_area,
        rejected_area: answer.rejected_area,
    };
    if answer.number == 0 {
        return Ok(counts);
    }
    debug_assert_eq!(counts, Counts::default(), "a refusal counts nothing");
    let (number, place) = (answer.number, small(answer.place));
    Err(Refusal::new(number, place, diagnosis::of_graph(number, place, &lists, &lent)))
}

/// A count or a place: past the checks of limits none is above the 4,096 links or points, and before them each is 0.
fn small(number: usize) -> u32 {
    u32::try_from(number).expect("at most 4,096")
}

/// Writes the owner of every contour: a hull's own shape number, the number of the shape that a hole belongs to, or
/// 65,535 for a dropped hole. What `owner` has beyond the contours is left as it is. It takes some 79 KiB of stack.
///
/// # Errors
/// 10 to 12 if the table is malformed, its holes are not as extraction leaves them, or a hole finds no shape: then all
/// of `owner` is as before.
pub fn bind(table: Table<'_>, output_direction: ContourDirection, owner: &mut [u16]) -> Result<Bound, Refusal> {
    let answer = ffi::bind(table, output_direction.is_clockwise(), owner);
    let bound = Bound { shapes: answer.shapes, dropped: answer.dropped };
    if answer.number == 0 {
        return Ok(bound);
    }
    debug_assert_eq!(bound, Bound::default(), "a refusal counts nothing");
    let (number, place) = (answer.number, answer.place);
    Err(Refusal::new(number, place, diagnosis::of_table(number, place, &table, output_direction, owner.len())))
}

/// One contour's record; none if there is no such contour, the table is malformed or the contour's owner is wrong.
pub fn lookup(table: Table<'_>, owner: &[u16], contour: usize) -> Option<ContourRecord> {
    let answer = ffi::lookup(table, owner, contour);
    if answer.found == 0 {
        return None;
    }
    let number = u16::try_from(answer.owner).ok()?;
    let role = match answer.role {
        0 => Role::Hull(number),
        1 => Role::Hole(number),
        _ => Role::Dropped,
    };
    Some(ContourRecord { first: answer.first, len: answer.len, role })
}

/// One contour's area and frame in millimetres; none exactly where [`lookup`] gives none.
///
/// The area is the whole doubled area made a float, with nothing lost, and divided once by 20000; each edge of the
/// frame is the whole coordinate divided once by 100. Nothing but check 10 and the contour's owner is asked: a table
/// that [`bind`] refuses with 11 or 12 is reported too, and one without the points on a straight line.
///
/// ```
/// use guovdamas::lent::{Table, report};
///
/// let triangle = Table { points: &[0, 1, 0, 0, 1, 0], first: &[0], len: &[3], kind: &[0] };
/// let found = report(triangle, &[0], 0).unwrap();
/// assert_eq!((found.area, found.frame.right), (0.00005, 0.01));
/// assert_eq!(report(triangle, &[0], 1), None);
/// assert_eq!(report(triangle, &[1], 0), None);
/// ```
pub fn report(table: Table<'_>, owner: &[u16], contour: usize) -> Option<Report> {
    let ffi::Report { found, area, left, bottom, right, top } = ffi::report(table, owner, contour);
    let is_none = [area, left, bottom, right, top].map(f64::is_nan);
    debug_assert_eq!(is_none, [found == 0; 5], "where nothing is found there is no number");
    (found != 0).then_some(Report { area, frame: Frame { left, bottom, right, top } })
}

/// The areas and frames of a whole table: entry c of each list is what [`report`] answers for contour c. The table is
/// checked once. What the lists have beyond the contours is left as it is.
///
/// A contour whose owner is wrong, for which [`report`] answers none, gets NaN in all five lists and is counted as
/// missing: a 0 would go unseen in a sum.
///
/// # Errors
/// 10 if the table is malformed, or there are fewer owners or entries of a list than contours: then all is as before.
///
/// ```
/// use guovdamas::lent::{ReportLists, Reported, Table, report_all};
///
/// let points = [0, 4, 0, 0, 4, 0, 4, 4, 9, 9, 7, 9, 9, 6];
/// let table = Table { points: &points, first: &[0, 4], len: &[4, 3], kind: &[0, 0] };
/// let [mut area, mut left, mut bottom, mut right, mut top] = [[7.0; 3]; 5];
/// let lists =
///     ReportLists { area: &mut area, left: &mut left, bottom: &mut bottom, right: &mut right, top: &mut top };
/// assert_eq!(report_all(table, &[0, 1], lists)?, Reported { contours: 2, missing: 0 });
/// assert_eq!((area, left), ([0.0016, 0.0003, 7.0], [0.0, 0.07, 7.0]));
/// # Ok::<(), guovdamas::Refusal>(())
/// ```
pub fn report_all(table: Table<'_>, owner: &[u16], mut lists: ReportLists<'_>) -> Result<Reported, Refusal> {
    let answer = ffi::report_all(table, owner, &mut lists);
    let reported = Reported { contours: small(answer.contours), missing: small(answer.missing) };
    if answer.number == 0 {
        return Ok(reported);
    }
    debug_assert_eq!(reported, Reported::default(), "a refusal counts nothing");
    let (number, place) = (answer.number, small(answer.place));
    Err(Refusal::new(number, place, diagnosis::of_reports(number, place, &table, owner.len(), &lists)))
}
