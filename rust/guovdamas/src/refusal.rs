//! Refusals: a number, a place, and the one reason that applies.

use std::error::Error;
use std::fmt;

/// Why nothing was found: a number, the link, node or contour that it speaks of, and the reason. All that was lent is
/// as before, but that after 8 and 9 the points and the contour table are zero.
///
/// Number and place are the library's own, and are proved. The [kind](Refusal::kind) is worked out afterwards, on this
/// side, from what was lent.
#[derive(Clone, Copy, Debug, PartialEq, Eq, Hash)]
pub struct Refusal {
    number: u32,
    place: u32,
    kind: RefusalKind,
}

impl Refusal {
    pub(crate) fn new(number: u32, place: u32, kind: RefusalKind) -> Self {
        debug_assert_eq!(kind.number(), number, "the reason is one of this number");
        Self { number, place, kind }
    }

    /// The refusal's number: 1 to 9 from extraction, 10 to 12 from binding, 10 from the reports of a table.
    pub fn number(&self) -> u32 {
        self.number
    }

    /// The lowest link (3, 4), node (6, 7) or contour (10, 11) at fault, the link the scan stood at (8, 9), the first
    /// hole that found no shape (12); 0 where the fault is no single one's (1, 2, 5).
    ///
    /// A link of [`Graph::from_segments`](crate::Graph::from_segments) has the number of the caller's segment here.
    pub fn place(&self) -> u32 {
        self.place
    }

    /// The one reason that applies: of several, the first in the order of [`RefusalKind`].
    pub fn kind(&self) -> RefusalKind {
        self.kind
    }

    /// The same refusal with every link that it names numbered anew.
    pub(crate) fn renumbered(mut self, number_of: impl Fn(u32) -> u32) -> Self {
        if matches!(self.number, 3 | 4 | 8 | 9) {
            self.place = number_of(self.place);
        }
        match &mut self.kind {
            RefusalKind::StrangeLink { link, .. }
            | RefusalKind::MissingLink { link, .. }
            | RefusalKind::RepeatedLink { link, .. } => *link = number_of(*link),
            RefusalKind::SameDirection { links, .. } => *links = links.map(number_of),
            _ => {}
        }
        self
    }
}

impl fmt::Display for Refusal {
    fn fmt(&self, f: &mut fmt::Formatter<'_>) -> fmt::Result {
        let Self { number, place, kind } = self;
        write!(f, "refused {number} at {place}: ")?;
        match number {
            3 | 4 => write!(f, "link {place} "),
            6 => write!(f, "node {place} "),
            8 | 9 => write!(f, "the walk from link {place} "),
            10 if kind.is_of_a_contour() => write!(f, "contour {place} "),
            11 | 12 => write!(f, "hole {place} "),
            _ => Ok(()),
        }?;
        kind.fmt(f)
    }
}

impl Error for Refusal {}

/// The reasons of refusals, by their numbers. docs/RULES.md has each check in full.
#[derive(Clone, Copy, Debug, PartialEq, Eq, Hash)]
#[non_exhaustive]
pub enum RefusalKind {
    /// 1: there are more links than [`MAX_LINKS`](crate::MAX_LINKS).
    TooManyLinks,
    /// 2: a list of the links, named here, is not as long as `a_id`.
    WrongLength {
        /// The list's name, as `"ax"` or `"state"`.
        list: &'static str,
    },
    /// 2: there is no start; even a graph without nodes has one.
    NoStart,
    /// 2: there is room for fewer points than links.
    LittleRoomForPoints,
    /// 2: `first`, `len` and `kind` differ in length.
    UnevenTable,
    /// 2: there is room for fewer contours than a third of the links.
    LittleRoomForContours,
    /// 3: a coordinate is out of range.
    OutOfRange,
    /// 3: both points are equal.
    NoLength,
    /// 3: point b is before point a, by x and then by y.
    WrongWayRound,
    /// 3: there is no node of this number.
    UnknownNode {
        /// The number that the link names.
        node: u32,
    },
    /// 3: both ends name one node.
    OneNodeTwice,
    /// 3: the top is neither 0 nor 1.
    WrongTop,
    /// 3: the state is neither 0 nor 1.
    WrongState,
    /// 4: the link's point a is before the previous link's.
    OutOfOrder,
    /// 5: the starts do not begin at 0.
    FirstStart,
    /// 5: the starts do not end at the length of the list.
    LastStart,
    /// 5: a node's list begins after the next one.
    FallingStarts {
        /// The node.
        node: u32,
    },
    /// 5: a loose end: only one link ends at this node.
    LooseEnd {
        /// The node.
        node: u32,
        /// Where the link ends.
        point: [i32; 2],
    },
    /// 5: a node's list has fewer than two links.
    FewEntries {
        /// The node.
        node: u32,
    },
    /// 5: a node's list has a number that is no link's.
    UnknownLink {
        /// The node.
        node: u32,
        /// The number.
        entry: u32,
    },
    /// 5: a node's list has a link that does not end there.
    StrangeLink {
        /// The node.
        node: u32,
        /// The link.
        link: u32,
    },
    /// 5: a node's list has a link twice.
    RepeatedLink {
        /// The node.
        node: u32,
        /// The link.
        link: u32,
    },
    /// 5: a link does not stand in the list of its node.
    MissingLink {
        /// The node.
        node: u32,
        /// The link.
        link: u32,
    },
    /// 6: ends that meet at the node have different points.
    EndsApart {
        /// The two points that differ, of which the first is the first entry's.
        points: [[i32; 2]; 2],
    },
    /// 7: two links run from the node in one direction.
    SameDirection {
        /// The node's point.
        point: [i32; 2],
        /// The links.
        links: [u32; 2],
    },
    /// 8: the rules of walking name a link that is skipped or walked already, or none.
    NoLinkToTake,
    /// 9: the walk has reached its last link away from where it began.
    EndsElsewhere,
    /// 10, of the whole table: `first`, `len` and `kind` differ in length.
    UnevenColumns,
    /// 10, of the whole table: there are fewer owners than contours.
    LittleRoomForOwners,
    /// 10, of the reports of a whole table: a list to fill, named here, is shorter than the contours.
    LittleRoomForReports {
        /// The list's name, as `"area"` or `"left"`.
        list: &'static str,
    },
    /// 10, of the whole table: there are more points than [`MAX_LINKS`](crate::MAX_LINKS).
    TooManyPoints,
    /// 10, of the whole table: the points' last number is an x alone.
    HalfAPoint,
    /// 10, of the whole table: the contours do not end at the last point.
    PointsLeft,
    /// 10: the contour does not begin where the one before it ends.
    NotAdjoining,
    /// 10: the contour goes past the points.
    PastThePoints,
    /// 10: the contour has fewer than three points.
    FewPoints,
    /// 10: two neighbours round the contour are equal.
    EqualNeighbours,
    /// 10: the contour has a coordinate out of range.
    PointOutOfRange,
    /// 10: the contour's kind is neither 0 nor 1.
    WrongKind,
    /// 11: the hole's anchor (point 1 for clockwise output, else point 0) is not its least point.
    AnchorNotLeast,
    /// 11: the hole's anchor is before that of the hole before it.
    HolesOutOfOrder,
    /// 12: no edge with fill above lies under the hole's anchor.
    NothingUnder,
    /// What was lent shows no reason. Not met: every refusal has one.
    Unknown {
        /// The refusal's number.
        number: u32,
    },
}

impl RefusalKind {
    /// The number of the refusals that have this reason.
    pub fn number(&self) -> u32 {
        use RefusalKind::*;
        match *self {
            TooManyLinks => 1,
            WrongLength { .. } | NoStart | LittleRoomForPoints | UnevenTable | LittleRoomForContours => 2,
            OutOfRange | NoLength | WrongWayRound | UnknownNode { .. } | OneNodeTwice | WrongTop | WrongState => 3,
            OutOfOrder => 4,
            FirstStart | LastStart | FallingStarts { .. } | LooseEnd { .. } | FewEntries { .. } => 5,
            UnknownLink { .. } | StrangeLink { .. } | RepeatedLink { .. } | MissingLink { .. } => 5,
            EndsApart { .. } => 6,
            SameDirection { .. } => 7,
            NoLinkToTake => 8,
            EndsElsewhere => 9,
            UnevenColumns | LittleRoomForOwners | LittleRoomForReports { .. } => 10,
            TooManyPoints | HalfAPoint | PointsLeft => 10,
            NotAdjoining | PastThePoints | FewPoints | EqualNeighbours | PointOutOfRange | WrongKind => 10,
            AnchorNotLeast | HolesOutOfOrder => 11,
            NothingUnder => 12,
            Unknown { number } => number,
        }
    }

    /// Of the reasons of 10: whether it is a single contour's.
    fn is_of_a_contour(&self) -> bool {
        use RefusalKind::*;
        matches!(
            self,
            NotAdjoining | PastThePoints | FewPoints | EqualNeighbours | PointOutOfRange | WrongKind | Unknown { .. }
        )
    }

    /// The reason in words that go on from what is at fault, where the place says that.
    fn fmt(&self, f: &mut fmt::Formatter<'_>) -> fmt::Result {
        if self.number() <= 7 { self.fmt_of_graph(f) } else { self.fmt_of_walk_or_table(f) }
    }

    fn fmt_of_graph(&self, f: &mut fmt::Formatter<'_>) -> fmt::Result {
        use RefusalKind::*;
        match *self {
            TooManyLinks => write!(f, "there are more than 4,096 links"),
            WrongLength { list } => write!(f, "the list {list} is not as long as a_id"),
            NoStart => write!(f, "the list start is empty"),
            LittleRoomForPoints => write!(f, "points has room for fewer points than there are links"),
            UnevenTable => write!(f, "the buffers first, len and kind differ in length"),
            LittleRoomForContours => write!(f, "first, len and kind have room for fewer contours than links / 3"),
            OutOfRange => write!(f, "has a coordinate out of range"),
            NoLength => write!(f, "has no length"),
            WrongWayRound => write!(f, "runs from its greater point to its lesser"),
            UnknownNode { node } => write!(f, "names node {node}, and there is none of this number"),
            OneNodeTwice => write!(f, "names one node at both ends"),
            WrongTop => write!(f, "has a top other than 0 and 1"),
            WrongState => write!(f, "has a state other than 0 and 1"),
            OutOfOrder => write!(f, "begins before the link before it"),
            EndsApart { points: [p, q] } => {
                write!(f, "joins ends with different points, {} and {}", Point(p), Point(q))
            }
            SameDirection { point, links: [one, other] } => {
                write!(f, "links {one} and {other} run from {} in the same direction", Point(point))
            }
            _ => self.fmt_of_nodes(f),
        }
    }

    fn fmt_of_nodes(&self, f: &mut fmt::Formatter<'_>) -> fmt::Result {
        use RefusalKind::*;
        match *self {
            FirstStart => write!(f, "the starts do not begin at 0"),
            LastStart => write!(f, "the starts do not end at the length of the list"),
            FallingStarts { node } => write!(f, "the list of node {node} begins after the next one"),
            LooseEnd { node, point } => {
                write!(f, "only one link ends at {}, node {node}: a loose end", Point(point))
            }
            FewEntries { node } => write!(f, "the list of node {node} has fewer than two links"),
            UnknownLink { node, entry } => write!(f, "the list of node {node} has {entry}, which is no link's number"),
            StrangeLink { node, link } => {
                write!(f, "the list of node {node} has link {link}, which does not end there")
            }
            RepeatedLink { node, link } => write!(f, "the list of node {node} has link {link} twice"),
            MissingLink { node, link } => write!(f, "the list of node {node} lacks link {link}, which ends there"),
            _ => write!(f, "for no reason that is known"),
        }
    }

    fn fmt_of_walk_or_table(&self, f: &mut fmt::Formatter<'_>) -> fmt::Result {
        use RefusalKind::*;
        if let LittleRoomForReports { list } = self {
            return write!(f, "the list {list} has room for fewer reports than there are contours");
        }
        f.write_str(match self {
            NoLinkToTake => "has no unvisited link to take",
            EndsElsewhere => "ends away from where it began",
            UnevenColumns => "the lists first, len and kind of the contour table differ in length",
            LittleRoomForOwners => "there are fewer owners than contours",
            TooManyPoints => "the contour table has more than 4,096 points",
            HalfAPoint => "the points end with an x alone",
            PointsLeft => "the contours do not end at the last point",
            NotAdjoining => "does not begin where the one before it ends",
            PastThePoints => "goes past the points",
            FewPoints => "has fewer than three points",
            EqualNeighbours => "has the same point twice in a row",
            PointOutOfRange => "has a coordinate out of range",
            WrongKind => "has a kind other than 0 and 1",
            AnchorNotLeast => "has a point before its anchor",
            HolesOutOfOrder => "has its anchor before that of the hole before it",
            NothingUnder => "belongs to no shape: no edge with fill above lies under it",
            _ => "for no reason that is known",
        })
    }
}

/// A point in words.
struct Point([i32; 2]);

impl fmt::Display for Point {
    fn fmt(&self, f: &mut fmt::Formatter<'_>) -> fmt::Result {
        write!(f, "({}, {})", self.0[0], self.0[1])
    }
}
