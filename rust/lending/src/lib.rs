//! The reading's graphs, buffers, tables and settings, as the library takes them, and the library's answers, as the reading has
//! them: for tests, benchmarks and examples.

use guovdamas::{ContourDirection, Lists, Options, lent};
use reading::bind::{Bound, Record, Role, Table};
use reading::graph::{Buffers, Graph};
use reading::report::{Frame, Report, ReportLists, Reported};
use reading::walk::Counts;
use reading::{Refusal, Settings, Side};

/// A graph's lists.
pub fn lists(graph: &Graph) -> Lists<'_> {
    Lists {
        ax: &graph.ax,
        ay: &graph.ay,
        bx: &graph.bx,
        by: &graph.by,
        a_id: &graph.a_id,
        b_id: &graph.b_id,
        top: &graph.top,
        start: &graph.start,
        list: &graph.list,
    }
}

/// The buffers that are written.
pub fn buffers(buffers: &mut Buffers) -> lent::Buffers<'_> {
    lent::Buffers {
        state: &mut buffers.state,
        points: &mut buffers.points,
        first: &mut buffers.first,
        len: &mut buffers.len,
        kind: &mut buffers.kind,
    }
}

/// A contour table.
pub fn table(table: &Table) -> lent::Table<'_> {
    lent::Table { points: &table.points, first: &table.first, len: &table.len, kind: &table.kind }
}

/// The lists that reports fill.
pub fn report_lists(lists: &mut ReportLists) -> lent::ReportLists<'_> {
    let ReportLists { area, left, bottom, right, top } = lists;
    lent::ReportLists { area, left, bottom, right, top }
}

/// Output direction, minimum area, and whether points on a straight line are kept.
pub fn options(settings: Settings) -> Options {
    Options {
        output_direction: ContourDirection::from_clockwise(settings.clockwise),
        min_output_area: settings.minimum,
        preserve_output_collinear: !settings.drop_straight,
    }
}

fn refusal(refusal: guovdamas::Refusal) -> Refusal {
    Refusal { number: refusal.number(), place: refusal.place() }
}

/// The library's functions.
pub const LIBRARY: Side = Side { extract, bind, lookup, report, report_all };

fn extract(graph: &Graph, settings: Settings, lent: &mut Buffers) -> Result<Counts, Refusal> {
    let lent::Counts { contours, points, rejected, walked, left_out, kept_area, rejected_area } =
        lent::extract(lists(graph), options(settings), buffers(lent)).map_err(refusal)?;
    Ok(Counts { contours, points, rejected, walked, left_out, kept_area, rejected_area })
}

fn bind(lent: &Table, clockwise: bool, owner: &mut [u16]) -> Result<Bound, Refusal> {
    let lent::Bound { shapes, dropped } =
        lent::bind(table(lent), ContourDirection::from_clockwise(clockwise), owner).map_err(refusal)?;
    Ok(Bound { shapes, dropped })
}

fn lookup(lent: &Table, owner: &[u16], contour: usize) -> Option<Record> {
    let lent::ContourRecord { first, len, role } = lent::lookup(table(lent), owner, contour)?;
    let role = match role {
        lent::Role::Hull(number) => Role::Hull(number),
        lent::Role::Hole(number) => Role::Hole(number),
        lent::Role::Dropped => Role::Dropped,
    };
    Some(Record { first, len, role })
}

fn report(lent: &Table, owner: &[u16], contour: usize) -> Option<Report> {
    let lent::Report { area, frame } = lent::report(table(lent), owner, contour)?;
    let guovdamas::Frame { left, bottom, right, top } = frame;
    Some(Report { area, frame: Frame { left, bottom, right, top } })
}

fn report_all(lent: &Table, owner: &[u16], lists: &mut ReportLists) -> Result<Reported, Refusal> {
    let lent::Reported { contours, missing } =
        lent::report_all(table(lent), owner, report_lists(lists)).map_err(refusal)?;
    Ok(Reported { contours, missing })
}
