//! Request d of document 02: a contour's area and frame in millimetres, and those of a whole table.

use crate::Refusal;
use crate::bind::{Table, check_table, lookup, record};
use crate::geometry::{Point, doubled_area};

/// "its frame as four f64 edges".
#[derive(Clone, Copy, Debug, PartialEq)]
pub struct Frame {
    pub left: f64,
    pub bottom: f64,
    pub right: f64,
    pub top: f64,
}

/// What the case "that carries the area and the frame" carries.
#[derive(Clone, Copy, Debug, PartialEq)]
pub struct Report {
    pub area: f64,
    pub frame: Frame,
}

/// The lists that the reports of a whole table fill.
#[derive(Clone, Debug, Default)]
pub struct ReportLists {
    pub area: Vec<f64>,
    pub left: Vec<f64>,
    pub bottom: Vec<f64>,
    pub right: Vec<f64>,
    pub top: Vec<f64>,
}

/// What the reports of a whole table return: contours, and of these the ones of which there is no report.
#[derive(Clone, Copy, Debug, Default, PartialEq, Eq)]
pub struct Reported {
    pub contours: u32,
    pub missing: u32,
}

impl Report {
    /// Area, left, bottom, right and top.
    pub fn numbers(&self) -> [f64; 5] {
        let Frame { left, bottom, right, top } = self.frame;
        [self.area, left, bottom, right, top]
    }
}

impl ReportLists {
    /// Area, left, bottom, right and top.
    pub fn lists(&self) -> [&Vec<f64>; 5] {
        [&self.area, &self.left, &self.bottom, &self.right, &self.top]
    }

    pub fn lists_mut(&mut self) -> [&mut Vec<f64>; 5] {
        [&mut self.area, &mut self.left, &mut self.bottom, &mut self.right, &mut self.top]
    }

    /// How many contours all five have room for.
    fn room(&self) -> usize {
        self.lists().map(Vec::len).into_iter().min().expect("there are five")
    }
}

/// "made a float with nothing lost".
fn made_a_float(whole: i128) -> f64 {
    let float = whole as f64;
    assert_eq!(float as i128, whole, "nothing is lost");
    float
}

/// "its signed area in square millimetres as f64, which is the whole doubled area made a float with nothing lost and
/// divided once by 20000".
pub fn square_mm(doubled_area: i128) -> f64 {
    made_a_float(doubled_area) / 20000.0
}

/// "each the whole coordinate divided once by 100".
pub fn mm(coordinate: i32) -> f64 {
    made_a_float(coordinate.into()) / 100.0
}

fn report_of(contour: &[Point]) -> Report {
    let (x, y) = (|| contour.iter().map(|point| point.x), || contour.iter().map(|point| point.y));
    let edge = |coordinate: Option<i32>| mm(coordinate.expect("a contour has points"));
    let frame = Frame { left: edge(x().min()), bottom: edge(y().min()), right: edge(x().max()), top: edge(y().max()) };
    Report { area: square_mm(doubled_area(contour)), frame }
}

/// "The answer is a case that carries the area and the frame, or a case that says there is no such contour, given
/// exactly when 01's lookup gives none."
pub fn report(table: &Table, owner: &[u16], contour: usize) -> Option<Report> {
    lookup(table, owner, contour).map(|_| report_of(&table.contour(contour)))
}

/// The reports of a whole table. Check 10 is asked once, with room for the contours in each list too; if it refuses,
/// all is as before. Otherwise entry c of each list is what `report` answers for contour c: NaN in all five where it
/// answers none, which is counted. What is past the contours stays.
pub fn report_all(table: &Table, owner: &[u16], lists: &mut ReportLists) -> Result<Reported, Refusal> {
    check_table(table, owner.len().min(lists.room()))?;
    let mut reported = Reported { contours: table.contours() as u32, missing: 0 };
    for contour in 0..table.contours() {
        let found = record(table, owner, contour).map(|_| report_of(&table.contour(contour)).numbers());
        reported.missing += found.is_none() as u32;
        let numbers = found.unwrap_or([f64::NAN; 5]);
        lists.lists_mut().into_iter().zip(numbers).for_each(|(list, number)| list[contour] = number);
    }
    Ok(reported)
}

#[cfg(test)]
mod tests {
    use super::*;
    use crate::MAX_COORDINATE;
    use crate::examples::{FIRST_HOLE, FIRST_HULL, SECOND_HOLE, SECOND_HULL, table};
    use crate::nearest::is_quotient;

    /// Sees that these are the contours' areas, lefts, bottoms, rights and tops, to the last bit, and that is all.
    fn reports(contours: &[(&[i32], u8)], owner: &[u16], due: &[[f64; 5]]) {
        let table = table(contours);
        for (contour, due) in due.iter().enumerate() {
            let found = report(&table, owner, contour).expect("there is such a contour").numbers();
            assert_eq!(found.map(f64::to_bits), due.map(f64::to_bits), "{contour}: {found:?}");
        }
        assert_eq!(report(&table, owner, due.len()), None);
    }

    #[test]
    fn e2_e3_and_e6() {
        reports(&[(&[0, 4, 0, 0, 4, 0, 4, 4], 0)], &[0], &[[0.0016, 0.0, 0.0, 0.04, 0.04]]);
        reports(&[(&[0, 0, 0, 4, 4, 4, 4, 0], 0)], &[0], &[[-0.0016, 0.0, 0.0, 0.04, 0.04]]);
        reports(&[(&[0, 1, 0, 0, 1, 0], 0)], &[0], &[[0.00005, 0.0, 0.0, 0.01, 0.01]]);
    }

    const E9: [(&[i32], u8); 4] = [FIRST_HULL, SECOND_HULL, FIRST_HOLE, SECOND_HOLE];
    const E9_REPORTS: [[f64; 5]; 4] = [
        [0.01, 0.0, 0.0, 0.1, 0.1],
        [0.02, 0.2, 0.0, 0.3, 0.2],
        [-0.0036, 0.22, 0.02, 0.28, 0.08],
        [-0.0016, 0.23, 0.1, 0.27, 0.14],
    ];

    #[test]
    fn e9() {
        reports(&E9, &[0, 1, 1, 1, 7], &E9_REPORTS);
    }

    /// The square round all that is in range has 2^41 doubled; a contour that goes there and back has 0, and no -0.0.
    #[test]
    fn bounds_and_zero() {
        const M: i32 = MAX_COORDINATE;
        let whole = [109_951_162.777_6, -5242.88, -5242.88, 5242.88, 5242.88];
        reports(&[(&[-M, -M, M, -M, M, M, -M, M], 0)], &[0], &[whole]);
        reports(&[(&[3, -1, 1, -1, 2, -1], 0)], &[0], &[[0.0, 0.01, -0.01, 0.03, -0.01]]);
        reports(&[(&[0, 5, 0, -M, 0, 2], 1)], &[65_535], &[[0.0, 0.0, -5242.88, 0.0, 0.05]]);
    }

    /// Divided in two steps, or multiplied by a part of 1, 17 doubled and edges of 47 and 57 would be other floats.
    #[test]
    fn rounded_once() {
        reports(&[(&[47, 57, 64, 57, 47, 58], 0)], &[0], &[[0.00085, 0.47, 0.57, 0.64, 0.58]]);
        let others = [
            (17.0 / 200.0 / 100.0, 17, 20_000),
            (17.0 * (1.0 / 20_000.0), 17, 20_000),
            (47.0 / 10.0 / 10.0, 47, 100),
            (47.0 * 0.01, 47, 100),
            (57.0 / 10.0 / 10.0, 57, 100),
            (57.0 * 0.01, 57, 100),
        ];
        assert!(!others.into_iter().any(|(float, whole, divisor)| is_quotient(float, whole, divisor)));
    }

    #[test]
    fn none_exactly_where_lookup_gives_none() {
        let e9 = table(&E9);
        assert_eq!(report(&e9, &[1, 1, 1, 1], 0), None, "another hull's number");
        assert_eq!(report(&e9, &[0, 1, 2, 1], 2), None, "no hull's number");
        assert!(report(&e9, &[0, 1, 0, 1], 2).is_some(), "any hull's number");
        assert_eq!(report(&e9, &[0, 1, 1], 0), None, "too few owners");
        assert_eq!(report(&e9, &[0, 1, 1, 1], usize::MAX), None);
        let two_points = table(&[(&[0, 0, 4, 0], 0)]);
        assert_eq!(report(&two_points, &[0], 0), None, "check 10");
    }

    fn lists(lengths: [usize; 5]) -> ReportLists {
        let [area, left, bottom, right, top] = lengths.map(|length| vec![7.0; length]);
        ReportLists { area, left, bottom, right, top }
    }

    #[test]
    fn a_whole_table() {
        let mut filled = lists([4, 5, 4, 6, 4]);
        assert_eq!(report_all(&table(&E9), &[0, 1, 1, 1], &mut filled), Ok(Reported { contours: 4, missing: 0 }));
        for (number, list) in filled.lists().into_iter().enumerate() {
            assert_eq!(list[..4], E9_REPORTS.map(|due| due[number]));
            assert!(list[4..].iter().all(|&tail| tail == 7.0), "tails are kept");
        }

        assert_eq!(report_all(&table(&E9), &[0, 0, 1, 1], &mut filled), Ok(Reported { contours: 4, missing: 1 }));
        for (number, list) in filled.lists().into_iter().enumerate() {
            assert!(list[1].is_nan());
            assert_eq!([list[0], list[2], list[3]], [0, 2, 3].map(|contour: usize| E9_REPORTS[contour][number]));
        }
        assert_eq!(report_all(&Table::default(), &[], &mut lists([0; 5])), Ok(Reported::default()));
    }

    #[test]
    fn a_refused_table() {
        let refused = |table: &Table, owner: &[u16], lengths, place| {
            let mut kept = lists(lengths);
            assert_eq!(report_all(table, owner, &mut kept), Err(Refusal { number: 10, place }));
            assert!(kept.lists().into_iter().flatten().all(|&number| number == 7.0), "all is as before");
        };
        for short in 0..5 {
            let mut lengths = [4; 5];
            lengths[short] = 3;
            refused(&table(&E9), &[0, 1, 1, 1], lengths, 0);
        }
        refused(&table(&E9), &[0, 1, 1], [4; 5], 0);
        refused(&table(&[FIRST_HULL, (&[0, 0, 4, 0], 0), FIRST_HOLE]), &[0, 1, 0], [3; 5], 1);
    }

    /// The quotients' bits by whole numbers alone: of all that are small, beside powers of two, and of any; and of
    /// every coordinate.
    #[test]
    fn quotients_are_the_nearest() {
        let mut wholes: Vec<i128> = (0..=100_000).collect();
        wholes.extend((17..=53).flat_map(|power| (-40..=40).map(move |off| (1 << power) + off)));
        let mut state: u64 = 1;
        let mut any = || {
            state = state.wrapping_mul(6_364_136_223_846_793_005).wrapping_add(1_442_695_040_888_963_407);
            i128::from(state >> 11) >> (state % 40)
        };
        wholes.extend((0..200_000).map(|_| any()));
        wholes.retain(|whole| *whole <= 1 << 53);
        assert!(wholes.iter().filter(|whole| *whole % 2 == 1 && **whole > 1 << 40).count() > 20_000, "large odd ones");
        for whole in wholes.into_iter().flat_map(|whole| [whole, -whole]) {
            assert!(is_quotient(square_mm(whole), whole, 20_000), "{whole}: {}", square_mm(whole));
        }
        for coordinate in -MAX_COORDINATE..=MAX_COORDINATE {
            assert!(is_quotient(mm(coordinate), coordinate.into(), 100), "{coordinate}: {}", mm(coordinate));
        }
    }
}
