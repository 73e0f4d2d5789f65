//! Every reason of a refusal, each by the least change of a sound input, with its number, place and words.

use guovdamas::RefusalKind::{self, *};
use guovdamas::{ContourDirection, Graph, Lists, MAX_LINKS, Options, Refusal, Segment, lent};

/// E2's square with its buffers, list by list.
#[derive(Clone)]
struct Square {
    ax: Vec<i32>,
    ay: Vec<i32>,
    bx: Vec<i32>,
    by: Vec<i32>,
    a_id: Vec<u32>,
    b_id: Vec<u32>,
    top: Vec<u8>,
    start: Vec<u32>,
    list: Vec<u32>,
    state: Vec<u8>,
    points: Vec<i32>,
    first: Vec<u32>,
    len: Vec<u32>,
    kind: Vec<u8>,
}

impl Square {
    fn new() -> Self {
        Self {
            ax: vec![0, 0, 0, 4],
            ay: vec![0, 0, 4, 0],
            bx: vec![4, 0, 4, 4],
            by: vec![0, 4, 4, 4],
            a_id: vec![0, 0, 1, 2],
            b_id: vec![2, 1, 3, 3],
            top: vec![1, 0, 0, 1],
            start: vec![0, 2, 4, 6, 8],
            list: vec![0, 1, 1, 2, 0, 3, 2, 3],
            state: vec![0; 4],
            points: vec![0; 8],
            first: vec![0],
            len: vec![0],
            kind: vec![0],
        }
    }

    fn extract(&mut self) -> Result<lent::Counts, Refusal> {
        let lists = Lists {
            ax: &self.ax,
            ay: &self.ay,
            bx: &self.bx,
            by: &self.by,
            a_id: &self.a_id,
            b_id: &self.b_id,
            top: &self.top,
            start: &self.start,
            list: &self.list,
        };
        let lent = lent::Buffers {
            state: &mut self.state,
            points: &mut self.points,
            first: &mut self.first,
            len: &mut self.len,
            kind: &mut self.kind,
        };
        lent::extract(lists, Options::default(), lent)
    }
}

fn assert_refused(refusal: Refusal, kind: RefusalKind, place: u32, words: &str) {
    assert_eq!((refusal.kind(), refusal.number(), refusal.place()), (kind, kind.number(), place), "{refusal}");
    assert_eq!(refusal.to_string(), format!("refused {} at {place}: {words}", kind.number()));
}

/// The square with a change, its reason, place and words.
type Change = (fn(&mut Square), RefusalKind, u32, &'static str);

fn assert_changes(changes: &[Change]) {
    assert_eq!(Square::new().extract().unwrap().kept_area, 32);
    for (change, kind, place, words) in changes {
        let mut square = Square::new();
        change(&mut square);
        assert_refused(square.extract().unwrap_err(), *kind, *place, words);
    }
}

#[test]
fn lengths_and_room() {
    let many: fn(&mut Square) = |s| s.a_id = vec![0; MAX_LINKS + 1];
    assert_changes(&[
        (many, TooManyLinks, 0, "there are more than 4,096 links"),
        (|s| s.by.truncate(3), WrongLength { list: "by" }, 0, "the list by is not as long as a_id"),
        (|s| s.state.push(0), WrongLength { list: "state" }, 0, "the list state is not as long as a_id"),
        (|s| s.start.clear(), NoStart, 0, "the list start is empty"),
        (|s| s.points.truncate(7), LittleRoomForPoints, 0, "points has room for fewer points than there are links"),
        (|s| s.kind.clear(), UnevenTable, 0, "the buffers first, len and kind differ in length"),
        (
            |s| (s.first, s.len, s.kind) = (vec![], vec![], vec![]),
            LittleRoomForContours,
            0,
            "first, len and kind have room for fewer contours than links / 3",
        ),
    ]);
}

#[test]
fn links() {
    let turned: fn(&mut Square) = |s| (s.ay[3], s.by[3]) = (4, 0);
    assert_changes(&[
        (|s| s.by[2] = 524_289, OutOfRange, 2, "link 2 has a coordinate out of range"),
        (|s| s.bx[0] = 0, NoLength, 0, "link 0 has no length"),
        (turned, WrongWayRound, 3, "link 3 runs from its greater point to its lesser"),
        (|s| s.b_id[1] = 4, UnknownNode { node: 4 }, 1, "link 1 names node 4, and there is none of this number"),
        (|s| s.b_id[1] = 0, OneNodeTwice, 1, "link 1 names one node at both ends"),
        (|s| s.top[1] = 2, WrongTop, 1, "link 1 has a top other than 0 and 1"),
        (|s| s.state[3] = 3, WrongState, 3, "link 3 has a state other than 0 and 1"),
        (|s| s.ay[1] = -1, OutOfOrder, 1, "link 1 begins before the link before it"),
    ]);
}

#[test]
fn node_lists() {
    let without_last: fn(&mut Square) = |s| (s.start, s.list) = (vec![0, 2, 4, 6, 7], vec![0, 1, 1, 2, 0, 3, 2]);
    let fifth: fn(&mut Square) = |s| s.start.push(8);
    assert_changes(&[
        (|s| s.start[0] = 1, FirstStart, 0, "the starts do not begin at 0"),
        (|s| s.start[4] = 7, LastStart, 0, "the starts do not end at the length of the list"),
        (|s| s.start[1] = 5, FallingStarts { node: 1 }, 0, "the list of node 1 begins after the next one"),
        (fifth, FewEntries { node: 4 }, 0, "the list of node 4 has fewer than two links"),
        (
            |s| s.list[2] = 9,
            UnknownLink { node: 1, entry: 9 },
            0,
            "the list of node 1 has 9, which is no link's number",
        ),
        (
            |s| s.list[2] = 3,
            StrangeLink { node: 1, link: 3 },
            0,
            "the list of node 1 has link 3, which does not end there",
        ),
        (|s| s.list[3] = 1, RepeatedLink { node: 1, link: 1 }, 0, "the list of node 1 has link 1 twice"),
        // two links end at node 3, so what its list lacks is told, and no loose end
        (without_last, MissingLink { node: 3, link: 3 }, 0, "the list of node 3 lacks link 3, which ends there"),
    ]);
}

#[test]
fn nodes_and_walks() {
    let moved: fn(&mut Square) = |s| s.ay[3] = 1;
    let apart = EndsApart { points: [[4, 0], [4, 1]] };
    assert_changes(&[
        (moved, apart, 2, "node 2 joins ends with different points, (4, 0) and (4, 1)"),
        (|s| s.state[0] = 1, NoLinkToTake, 1, "the walk from link 1 has no unvisited link to take"),
    ]);
    assert_eq!(EndsElsewhere.number(), 9);
}

fn segment(a: [i32; 2], b: [i32; 2], fill_top: bool) -> Segment {
    Segment { a, b, fill_top, skipped: false }
}

#[test]
fn a_loose_end_has_its_point() {
    let open = [segment([0, 0], [4, 0], true), segment([4, 0], [4, 4], true), segment([0, 0], [3, 3], false)];
    let refusal = Graph::from_segments(open).extract_contours(Options::default()).unwrap_err();
    let kind = LooseEnd { node: 1, point: [3, 3] };
    assert_refused(refusal, kind, 0, "only one link ends at (3, 3), node 1: a loose end");
}

#[test]
fn segments_keep_their_numbers() {
    // sorted, the segments would be 2, 1, 0
    let mut corner = [segment([9, 9], [4, 4], true), segment([4, 4], [2, 0], true), segment([0, 0], [3, 3], true)];
    let refused = |segments: &[Segment]| {
        Graph::from_segments(segments.iter().copied()).extract_contours(Options::default()).unwrap_err()
    };
    corner[0].a = [4, 4];
    assert_refused(refused(&corner), NoLength, 0, "link 0 has no length");
    let double = [segment([8, 8], [0, 0], true), segment([8, 8], [5, 5], true), segment([9, 0], [0, 0], true)];
    let closed = [segment([5, 5], [0, 0], true), segment([8, 8], [9, 0], false)];
    let kind = SameDirection { point: [0, 0], links: [3, 0] };
    let words = "links 3 and 0 run from (0, 0) in the same direction";
    assert_refused(refused(&[&double[..], &closed[..]].concat()), kind, 0, words);
}

/// A table's lists: a hull with a hole.
#[derive(Clone)]
struct Framed {
    points: Vec<i32>,
    first: Vec<u32>,
    len: Vec<u32>,
    kind: Vec<u8>,
    owners: usize,
}

impl Framed {
    fn new() -> Self {
        let points = vec![0, 10, 0, 0, 10, 0, 10, 10, 2, 2, 2, 8, 8, 8, 8, 2];
        Self { points, first: vec![0, 4], len: vec![4, 4], kind: vec![0, 1], owners: 2 }
    }

    fn bind(&self) -> Result<lent::Bound, Refusal> {
        let Self { points, first, len, kind, owners } = self;
        let table = lent::Table { points, first, len, kind };
        lent::bind(table, ContourDirection::CounterClockwise, &mut vec![0; *owners])
    }

    /// The reports of both contours, with lists so long.
    fn report_all(&self, lengths: [usize; 5]) -> Result<lent::Reported, Refusal> {
        let Self { points, first, len, kind, owners } = self;
        let mut lists = lengths.map(|length| vec![0.0; length]);
        let [area, left, bottom, right, top] = lists.each_mut();
        let lists = lent::ReportLists { area, left, bottom, right, top };
        lent::report_all(lent::Table { points, first, len, kind }, &vec![0; *owners], lists)
    }

    /// A contour more.
    fn with(mut self, points: &[[i32; 2]], kind: u8) -> Self {
        self.first.push(self.points.len() as u32 / 2);
        self.len.push(points.len() as u32);
        self.points.extend(points.as_flattened());
        self.kind.push(kind);
        self.owners += 1;
        self
    }
}

#[test]
fn tables() {
    type Change = (fn(&mut Framed), RefusalKind, u32, &'static str);
    let changes: [Change; 12] = [
        (
            |t| t.len.truncate(1),
            UnevenColumns,
            0,
            "the lists first, len and kind of the contour table differ in length",
        ),
        (|t| t.owners = 1, LittleRoomForOwners, 0, "there are fewer owners than contours"),
        (|t| t.points = vec![0; 2 * 4097], TooManyPoints, 0, "the contour table has more than 4,096 points"),
        (|t| t.points.push(1), HalfAPoint, 0, "the points end with an x alone"),
        (|t| t.points.extend([1, 1]), PointsLeft, 0, "the contours do not end at the last point"),
        (|t| t.first[0] = 1, NotAdjoining, 0, "contour 0 does not begin where the one before it ends"),
        (|t| t.len[0] = 9, PastThePoints, 0, "contour 0 goes past the points"),
        (|t| (t.len[0], t.first[1], t.len[1]) = (2, 2, 6), FewPoints, 0, "contour 0 has fewer than three points"),
        (|t| t.points[12] = 2, EqualNeighbours, 1, "contour 1 has the same point twice in a row"),
        (|t| t.points[12] = 524_289, PointOutOfRange, 1, "contour 1 has a coordinate out of range"),
        (|t| t.kind[0] = 2, WrongKind, 0, "contour 0 has a kind other than 0 and 1"),
        (|t| t.points[14] = 1, AnchorNotLeast, 1, "hole 1 has a point before its anchor"),
    ];
    assert_eq!(Framed::new().bind(), Ok(lent::Bound { shapes: 1, dropped: 0 }));
    for (change, kind, place, words) in changes {
        let mut table = Framed::new();
        change(&mut table);
        assert_refused(table.bind().unwrap_err(), kind, place, words);
    }
}

#[test]
fn reports() {
    assert_eq!(Framed::new().report_all([2; 5]), Ok(lent::Reported { contours: 2, missing: 0 }));
    for (at, list) in ["area", "left", "bottom", "right", "top"].into_iter().enumerate() {
        let mut lengths = [2; 5];
        lengths[at] = 1;
        let words = format!("the list {list} has room for fewer reports than there are contours");
        assert_refused(Framed::new().report_all(lengths).unwrap_err(), LittleRoomForReports { list }, 0, &words);
    }
    // of several reasons the first in their order: owners before the lists, and these before the contours
    let mut damaged = Framed::new();
    damaged.kind[1] = 2;
    let words = "contour 1 has a kind other than 0 and 1";
    assert_refused(damaged.report_all([2; 5]).unwrap_err(), WrongKind, 1, words);
    let words = "the list left has room for fewer reports than there are contours";
    assert_refused(damaged.report_all([2, 1, 2, 2, 0]).unwrap_err(), LittleRoomForReports { list: "left" }, 0, words);
    damaged.owners = 1;
    let words = "there are fewer owners than contours";
    assert_refused(damaged.report_all([0; 5]).unwrap_err(), LittleRoomForOwners, 0, words);
}

#[test]
fn holes() {
    let earlier = Framed::new().with(&[[1, 1], [1, 2], [2, 1]], 1);
    let words = "hole 2 has its anchor before that of the hole before it";
    assert_refused(earlier.bind().unwrap_err(), HolesOutOfOrder, 2, words);

    let two_hulls = Framed::new().with(&[[20, 10], [20, 0], [30, 0], [30, 10]], 0);
    let astray = two_hulls.with(&[[40, 2], [40, 8], [46, 8], [46, 2]], 1);
    let words = "hole 3 belongs to no shape: no edge with fill above lies under it";
    assert_refused(astray.bind().unwrap_err(), NothingUnder, 3, words);
}
