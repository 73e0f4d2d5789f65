//! What a case lends: a graph or a contour table, the room to be written, and the settings.

use crate::outcome::{Lists, Number, Outcome, said};
use reading::bind::{Bound, Record, Role, Table};
use reading::graph::{Buffers, Graph};
use reading::report::{ReportLists, Reported};
use reading::walk::Counts;
use reading::{Settings, Side};

/// A link's a, b and top.
pub type Link = ([i32; 2], [i32; 2], u8);

/// How long the written lists are; where nothing is said, one point or contour longer than is asked for.
#[derive(Clone, Debug, Default)]
pub struct Room {
    pub points: Option<usize>,
    pub first: Option<usize>,
    pub len: Option<usize>,
    pub kind: Option<usize>,
    pub owners: Option<usize>,
    /// The lists of areas, lefts, bottoms, rights and tops.
    pub reports: [Option<usize>; 5],
}

#[derive(Clone, Debug)]
pub struct Input {
    pub graph: Graph,
    pub state: Vec<u8>,
    pub table: Table,
    pub owner: Vec<u16>,
    pub room: Room,
    pub clockwise: Vec<bool>,
    pub minimum: Vec<u64>,
    pub drop_straight: Vec<bool>,
    pub look: Vec<usize>,
}

impl Default for Input {
    fn default() -> Self {
        Self {
            graph: Graph::of_links(&[]),
            state: Vec::new(),
            table: Table::default(),
            owner: Vec::new(),
            room: Room::default(),
            clockwise: vec![false],
            minimum: vec![0],
            drop_straight: vec![false],
            look: Vec::new(),
        }
    }
}

/// What lent memory holds before.
const SEVEN: u8 = 7;

fn direction(clockwise: bool) -> &'static str {
    if clockwise { "clockwise" } else { "counterclockwise" }
}

fn numbers<T: Copy + Into<i64>>(list: &[T]) -> Vec<Number> {
    list.iter().map(|&number| Number::Whole(number.into())).collect()
}

/// What a report tells, in its order.
pub const REPORTED: [&str; 5] = ["area", "left", "bottom", "right", "top"];

fn report_lists(lent: &ReportLists) -> Lists {
    let floats = |list: &Vec<f64>| list.iter().map(|&float| Number::float(float)).collect();
    REPORTED.into_iter().zip(lent.lists().map(floats)).collect()
}

fn lists(lent: &Buffers) -> Lists {
    vec![
        ("state", numbers(&lent.state)),
        ("points", numbers(&lent.points)),
        ("first", numbers(&lent.first)),
        ("len", numbers(&lent.len)),
        ("kind", numbers(&lent.kind)),
    ]
}

/// What was counted. Contours left out are told where straight points are dropped; elsewhere there are none to be told.
fn words(counts: Counts, drop_straight: bool) -> String {
    let Counts { contours, points, rejected, walked, left_out, kept_area, rejected_area } = counts;
    let left_out = if drop_straight || left_out > 0 { format!(" left_out {left_out}") } else { String::new() };
    let areas = format!("kept_area {kept_area} rejected_area {rejected_area}");
    format!("contours {contours} points {points} rejected {rejected} walked {walked}{left_out} {areas}")
}

impl Input {
    /// Every setting that is asked for: each direction with each minimum, with straight points kept or dropped.
    pub fn settings(&self) -> impl Iterator<Item = Settings> {
        let Input { clockwise, minimum, drop_straight, .. } = self;
        let ways = clockwise.iter().flat_map(|way| minimum.iter().map(move |least| (way, least)));
        ways.flat_map(|(&clockwise, &minimum)| {
            drop_straight.iter().map(move |&drop_straight| Settings { clockwise, minimum, drop_straight })
        })
    }

    fn buffers(&self) -> Buffers {
        let (n, room) = (self.graph.links(), &self.room);
        let contours = |room: Option<usize>| room.unwrap_or(n / 3 + 1);
        Buffers {
            state: self.state.clone(),
            points: vec![SEVEN.into(); room.points.unwrap_or(2 * n + 2)],
            first: vec![SEVEN.into(); contours(room.first)],
            len: vec![SEVEN.into(); contours(room.len)],
            kind: vec![SEVEN; contours(room.kind)],
        }
    }

    pub fn extract(&self, side: Side, settings: Settings) -> Outcome {
        let mut lent = self.buffers();
        let before = lists(&lent);
        let answer = (side.extract)(&self.graph, settings, &mut lent);
        let Settings { clockwise, minimum, drop_straight } = settings;
        let straight = if drop_straight { ", straight dropped" } else { "" };
        let asked = format!("{}, minimum {minimum}{straight}", direction(clockwise));
        Outcome { asked, said: said(answer, |counts| words(counts, drop_straight)), before, after: lists(&lent) }
    }

    pub fn bind(&self, side: Side, clockwise: bool) -> Outcome {
        let mut owner: Vec<u16> = vec![SEVEN.into(); self.room.owners.unwrap_or(self.table.contours() + 1)];
        let before = vec![("owner", numbers(&owner))];
        let answer = (side.bind)(&self.table, clockwise, &mut owner);
        let words = |Bound { shapes, dropped }| format!("shapes {shapes} dropped {dropped}");
        let after = vec![("owner", numbers(&owner))];
        Outcome { asked: direction(clockwise).into(), said: said(answer, words), before, after }
    }

    pub fn lookup(&self, side: Side, contour: usize) -> Outcome {
        let said = match (side.lookup)(&self.table, &self.owner, contour) {
            None => "none".into(),
            Some(Record { first, len, role }) => {
                let role = match role {
                    Role::Hull(number) => format!("hull {number}"),
                    Role::Hole(number) => format!("hole {number}"),
                    Role::Dropped => "dropped".into(),
                };
                format!("first {first} len {len} {role}")
            }
        };
        Outcome { asked: format!("contour {contour}"), said, before: Vec::new(), after: Vec::new() }
    }

    pub fn report(&self, side: Side, contour: usize) -> Outcome {
        let found = (side.report)(&self.table, &self.owner, contour);
        let numbers = found.into_iter().flat_map(|report| report.numbers());
        let after = REPORTED.into_iter().zip(numbers.map(|number| vec![Number::float(number)])).collect();
        let said = if found.is_some() { "found" } else { "none" };
        Outcome { asked: format!("contour {contour}"), said: said.into(), before: Vec::new(), after }
    }

    pub fn report_all(&self, side: Side) -> Outcome {
        let room = |length: Option<usize>| vec![SEVEN.into(); length.unwrap_or(self.table.contours() + 1)];
        let [area, left, bottom, right, top] = self.room.reports.map(room);
        let mut lent = ReportLists { area, left, bottom, right, top };
        let before = report_lists(&lent);
        let answer = (side.report_all)(&self.table, &self.owner, &mut lent);
        let words = |Reported { contours, missing }| format!("contours {contours} missing {missing}");
        Outcome { asked: "all".into(), said: said(answer, words), before, after: report_lists(&lent) }
    }
}
