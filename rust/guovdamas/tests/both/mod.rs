//! Lookups and reports by the library and by the reading, on one table with its owners.

use lending::LIBRARY;
use reading::bind::Table;
use reading::geometry::{Point, doubled_area};
use reading::nearest::is_quotient;
use reading::report::{Frame, Report, ReportLists};
use reading::{MAX_COORDINATE, READING};
use std::collections::BTreeMap;

/// How often what was met.
#[derive(Default)]
pub struct Met(BTreeMap<&'static str, usize>);

impl Met {
    pub fn count(&mut self, what: &'static str, is_met: bool) {
        *self.0.entry(what).or_default() += is_met as usize;
    }

    /// Prints the counts and sees that each of these was met so often.
    pub fn report(&self, of: &str, least: &[(&str, usize)]) {
        println!("{of}: {:?}", self.0);
        for (what, least) in least {
            assert!(self.0.get(what).is_some_and(|met| met >= least), "{of}: {what} is hardly met");
        }
    }
}

/// Looks up every contour, one more, and the greatest number.
pub fn compare_lookups(lent: &Table, owner: &[u16]) {
    for contour in (0..=lent.contours()).chain([usize::MAX]) {
        let due = (READING.lookup)(lent, owner, contour);
        assert_eq!((LIBRARY.lookup)(lent, owner, contour), due, "{lent:?} {owner:?} {contour}");
    }
}

/// Asks for the reports of every contour, one more, and the greatest number; then for those of the whole table, with
/// longer lists and with one that is short.
pub fn compare_reports(lent: &Table, owner: &[u16], met: &mut Met) {
    let contours = lent.contours();
    for contour in (0..=contours).chain([usize::MAX]) {
        compare_report(lent, owner, contour, met);
    }
    let turn = lent.points.len();
    compare_report_all(lent, owner, [0, 1, 2, 3, 4].map(|list| contours + (turn + list) % 3), met);
    if contours > 0 {
        let mut lengths = [contours; 5];
        lengths[turn % 5] -= 1;
        compare_report_all(lent, owner, lengths, met);
        met.count("short lists", true);
    }
}

/// Both answer the same, to the last bit, what whole numbers alone say, and none exactly where the library's lookup
/// does.
pub fn compare_report(lent: &Table, owner: &[u16], contour: usize, met: &mut Met) {
    let bits = |report: Report| report.numbers().map(f64::to_bits);
    let due = (READING.report)(lent, owner, contour);
    let ours = (LIBRARY.report)(lent, owner, contour);
    assert_eq!(ours.map(bits), due.map(bits), "{ours:?} {due:?} {lent:?} {owner:?} {contour}");
    assert_eq!(ours.is_some(), (LIBRARY.lookup)(lent, owner, contour).is_some(), "{lent:?} {owner:?} {contour}");
    met.count("none", ours.is_none());
    if let Some(report) = ours {
        hold_to_whole_numbers(&lent.contour(contour), report, met);
    }
}

fn hold_to_whole_numbers(contour: &[Point], report: Report, met: &mut Met) {
    let doubled = doubled_area(contour);
    assert!(is_quotient(report.area, doubled, 20_000), "{report:?} {contour:?}");
    let (x, y) = (|| contour.iter().map(|point| point.x), || contour.iter().map(|point| point.y));
    let Frame { left, bottom, right, top } = report.frame;
    let edges = [(left, x().min()), (bottom, y().min()), (right, x().max()), (top, y().max())];
    for (edge, whole) in edges {
        assert!(is_quotient(edge, whole.expect("there are points").into(), 100), "{report:?} {contour:?}");
    }
    met.count("found", true);
    met.count("odd areas", doubled % 2 != 0);
    met.count("large odd areas", doubled % 2 != 0 && doubled.abs() > 1 << 45);
    met.count("areas of 2^51", doubled.abs() == 1 << 51);
    met.count("no area", doubled == 0);
    met.count("clockwise", doubled < 0);
    met.count("at a bound", x().chain(y()).any(|coordinate| coordinate.abs() == MAX_COORDINATE));
}

/// Both answer the same and leave every entry of every list the same, to the last bit: but that a NaN that was written
/// may be any.
pub fn compare_report_all(lent: &Table, owner: &[u16], lengths: [usize; 5], met: &mut Met) {
    let (mut read, mut ours) = (soiled(lengths), soiled(lengths));
    let due = (READING.report_all)(lent, owner, &mut read);
    assert_eq!((LIBRARY.report_all)(lent, owner, &mut ours), due, "{lent:?} {owner:?} {lengths:?}");
    let written = due.map_or(0, |reported| reported.contours as usize);
    for (ours, read) in ours.lists().into_iter().zip(read.lists()) {
        let is_same = |(at, (ours, read)): (usize, (&f64, &f64))| {
            if at < written && read.is_nan() { ours.is_nan() } else { ours.to_bits() == read.to_bits() }
        };
        assert!(ours.iter().zip(read).enumerate().all(is_same), "{ours:?} {read:?} {lent:?} {owner:?}");
    }
    for contour in (0..written).filter(|&contour| !ours.area[contour].is_nan()) {
        let [area, left, bottom, right, top] = ours.lists().map(|list| list[contour]);
        let report = Report { area, frame: Frame { left, bottom, right, top } };
        hold_to_whole_numbers(&lent.contour(contour), report, met);
    }
    met.count("tables refused", due.is_err());
    if let Ok(reported) = due {
        met.count("tables", true);
        met.count("tables all found", reported.contours > 0 && reported.missing == 0);
        met.count("tables with some missing", (1..reported.contours).contains(&reported.missing));
        met.count("tables all missing", reported.contours > 0 && reported.missing == reported.contours);
        met.count("tails", lengths.iter().any(|&length| length > written));
    }
}

/// Lists so long, of rubbish of every sort: no two entries of one list are alike.
fn soiled(lengths: [usize; 5]) -> ReportLists {
    let rubbish = |at: usize| match at % 7 {
        5 => f64::from_bits(f64::INFINITY.to_bits() + 1 + at as u64),
        6 => -f64::from_bits(1 + at as u64),
        _ => 7.0 - at as f64 / 3.0,
    };
    let [area, left, bottom, right, top] = lengths.map(|length| (0..length).map(rubbish).collect());
    ReportLists { area, left, bottom, right, top }
}
