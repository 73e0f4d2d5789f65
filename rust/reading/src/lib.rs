//! An independent reading of document 01 in plain Rust.
//!
//! It is written from the document's words and from nothing else, to be read beside it and to be compared with the
//! proved library: no cleverness, exact numbers in `i128`, one function for each rule. [`graph`] holds the lent graph
//! and checks 1 to 7, [`walk`] the walking rules 1 to 7, [`straight`] the points on a line that document 02's request a
//! drops, [`bind`] checks 10 to 12 with binding, its anchor edge by request b, and lookup, [`report`](mod@report)
//! request d's areas and frames in millimetres, [`fill`] the third demand's condition and total, [`file`](mod@file) the
//! program's file and its printed answer. [`nearest`] is for tests: it holds a quotient's bits to whole numbers alone.

pub mod bind;
pub mod file;
pub mod fill;
pub mod geometry;
pub mod graph;
pub mod nearest;
pub mod report;
pub mod straight;
pub mod walk;

#[cfg(test)]
mod examples;

use bind::{Bound, Record, Table};
use graph::{Buffers, Graph};
use report::{Report, ReportLists, Reported};
use walk::Counts;

/// Most links, and most points of a table.
pub const MAX_LINKS: usize = 4096;
/// Coordinates lie from `-MAX_COORDINATE` to `MAX_COORDINATE`.
pub const MAX_COORDINATE: i32 = 524_288;

/// A refusal: document 01's number, and the place returned with it.
#[derive(Clone, Copy, Debug, PartialEq, Eq, Hash)]
pub struct Refusal {
    pub number: u32,
    pub place: u32,
}

/// Output direction, minimum area, and whether points on a straight line are left out of what is written.
#[derive(Clone, Copy, Debug, PartialEq, Eq)]
pub struct Settings {
    pub clockwise: bool,
    pub minimum: u64,
    pub drop_straight: bool,
}

/// Who answers: this reading, or what is compared with it.
#[derive(Clone, Copy)]
pub struct Side {
    pub extract: fn(&Graph, Settings, &mut Buffers) -> Result<Counts, Refusal>,
    pub bind: fn(&Table, bool, &mut [u16]) -> Result<Bound, Refusal>,
    pub lookup: fn(&Table, &[u16], usize) -> Option<Record>,
    pub report: fn(&Table, &[u16], usize) -> Option<Report>,
    pub report_all: fn(&Table, &[u16], &mut ReportLists) -> Result<Reported, Refusal>,
}

pub const READING: Side = Side {
    extract: walk::extract,
    bind: bind::bind,
    lookup: bind::lookup,
    report: report::report,
    report_all: report::report_all,
};

/// Refuses with `number` at the place found, if one was found.
fn refuse_at(number: u32, place: Option<usize>) -> Result<(), Refusal> {
    match place {
        Some(place) => Err(Refusal { number, place: place as u32 }),
        None => Ok(()),
    }
}

/// Refuses with `number` at 0 if the fault is there.
fn refuse_if(number: u32, fault: bool) -> Result<(), Refusal> {
    refuse_at(number, fault.then_some(0))
}
