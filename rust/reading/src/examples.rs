//! Document 01's examples E1 to E10, with every number that it gives, and request b's hole.

use crate::bind::{Bound, NO_OWNER, Record, Role, Table, anchor_visits, bind, contours_under, lookup};
use crate::file::{Study, answer, encode, parse};
use crate::geometry::Point;
use crate::graph::{Buffers, Graph};
use crate::walk::{Counts, Scan, extract, walks};
use crate::{Refusal, Settings};

const COUNTERCLOCKWISE: Settings = Settings { clockwise: false, minimum: 0, drop_straight: false };
const CLOCKWISE: Settings = Settings { clockwise: true, ..COUNTERCLOCKWISE };

fn at_least(minimum: u64) -> Settings {
    Settings { minimum, ..COUNTERCLOCKWISE }
}

fn square() -> Graph {
    let square = Graph::of_links(&[([0, 0], [4, 0], 1), ([0, 0], [0, 4], 0), ([0, 4], [4, 4], 0), ([4, 0], [4, 4], 1)]);
    // The document numbers the nodes [0,1] [1,2] [0,3] [2,3], which is their point order.
    assert_eq!(square.list, [0, 1, 1, 2, 0, 3, 2, 3]);
    square
}

fn run(graph: &Graph, state: Vec<u8>, settings: Settings) -> (Result<Counts, Refusal>, Buffers) {
    let mut lent = Buffers::for_states(state);
    let outcome = extract(graph, settings, &mut lent);
    (outcome, lent)
}

fn printed(graph: &Graph, state: Vec<u8>, settings: Settings) -> String {
    let study = Study { settings, graph: graph.clone(), state };
    let file = encode(&study);
    assert_eq!(parse(&file), Ok(study), "a written file reads back");
    answer(&file)
}

#[test]
fn e1_nothing_lent_nothing_found() {
    let (outcome, lent) = run(&Graph::of_links(&[]), vec![], COUNTERCLOCKWISE);
    assert_eq!(outcome, Ok(Counts::default()));
    assert_eq!(lent, Buffers::for_states(vec![]));
    assert_eq!(printed(&Graph::of_links(&[]), vec![], COUNTERCLOCKWISE), "contours 0 shapes 0 points 0 dropped 0\n");
}

#[test]
fn e2_square() {
    let (outcome, lent) = run(&square(), vec![0; 4], COUNTERCLOCKWISE);
    let counts = Counts { contours: 1, points: 4, walked: 4, kept_area: 32, ..Counts::default() };
    assert_eq!(outcome, Ok(counts));
    assert_eq!(lent.points, [0, 4, 0, 0, 4, 0, 4, 4]);
    assert_eq!((lent.state, lent.first, lent.len, lent.kind), (vec![3; 4], vec![0], vec![4], vec![0]));
    assert_eq!(
        printed(&square(), vec![0; 4], COUNTERCLOCKWISE),
        "contours 1 shapes 1 points 4 dropped 0\n0 hull 0 4\n0 4\n0 0\n4 0\n4 4\n"
    );
}

#[test]
fn e3_square_clockwise() {
    let (outcome, lent) = run(&square(), vec![0; 4], CLOCKWISE);
    assert_eq!(outcome.unwrap().kept_area, -32);
    assert_eq!(lent.points, [0, 0, 0, 4, 4, 4, 4, 0]);
}

#[test]
fn e4_minimum_16_keeps() {
    let (outcome, lent) = run(&square(), vec![0; 4], at_least(16));
    assert_eq!(outcome.unwrap().contours, 1);
    assert_eq!(lent.points, [0, 4, 0, 0, 4, 0, 4, 4]);
}

#[test]
fn e5_minimum_17_rejects() {
    let (outcome, lent) = run(&square(), vec![0; 4], at_least(17));
    assert_eq!(outcome, Ok(Counts { rejected: 1, walked: 4, rejected_area: 32, ..Counts::default() }));
    assert_eq!((lent.points, lent.len, lent.state), (vec![0; 8], vec![0], vec![3; 4]));
}

#[test]
fn e6_triangle_of_doubled_area_1() {
    let triangle = Graph::of_links(&[([0, 0], [0, 1], 0), ([0, 0], [1, 0], 1), ([0, 1], [1, 0], 0)]);
    let kept = run(&triangle, vec![0; 3], COUNTERCLOCKWISE).0.unwrap();
    assert_eq!((kept.contours, kept.kept_area), (1, 1));
    let rejected = run(&triangle, vec![0; 3], at_least(1)).0.unwrap();
    assert_eq!((rejected.contours, rejected.rejected, rejected.rejected_area), (0, 1, 1));
}

#[test]
fn e7_square_with_link_0_skipped() {
    let state = vec![1, 0, 0, 0];
    let (outcome, lent) = run(&square(), state.clone(), COUNTERCLOCKWISE);
    assert_eq!(outcome, Err(Refusal { number: 8, place: 1 }));
    assert_eq!(lent, Buffers::for_states(state.clone()));
    assert_eq!(printed(&square(), state, COUNTERCLOCKWISE), "refused 8 at 1\n");
}

#[test]
fn e8_the_scan_stays_at_its_link() {
    let fan = Graph::of_links(&[
        ([0, 0], [10, -20], 1),
        ([0, 0], [10, -10], 0),
        ([0, 0], [2, -1], 1),
        ([0, 0], [2, 0], 0),
        ([0, 0], [2, 1], 1),
        ([0, 0], [2, 2], 0),
        ([2, -1], [2, 0], 1),
        ([2, 1], [2, 2], 1),
        ([10, -20], [10, -10], 1),
    ]);
    let settings = at_least(2);
    let (outcome, lent) = run(&fan, vec![0; 9], settings);
    let counts =
        Counts { contours: 1, points: 3, rejected: 2, walked: 9, left_out: 0, kept_area: 100, rejected_area: 4 };
    assert_eq!(outcome, Ok(counts));
    assert_eq!(lent.points[..6], [10, -10, 0, 0, 10, -20]);
    assert_eq!(lent.kind[0], 0);
    // "The crate calls that contour a hole and drops it (D1)."
    let crates = walks(&fan, &[0; 9], settings, Scan::MovesOn).unwrap();
    assert_eq!(crates.iter().map(|walk| walk.kept && walk.hole).collect::<Vec<_>>(), [false, false, true]);
    let walks = walks(&fan, &[0; 9], settings, Scan::Stays).unwrap();
    assert_eq!(walks.iter().map(|walk| walk.doubled_area()).collect::<Vec<_>>(), [2, 2, 100]);
    assert_eq!(walks.iter().map(|walk| walk.is_difference_1()).collect::<Vec<_>>(), [true, true, false]);
}

/// A table of contours, each with its kind.
pub(crate) fn table(contours: &[(&[i32], u8)]) -> Table {
    let mut table = Table::default();
    for (numbers, kind) in contours {
        let points: Vec<Point> = (0..numbers.len() / 2).map(|position| Point::in_list(numbers, position)).collect();
        table.push(&points, *kind == 1);
    }
    table
}

pub(crate) const FIRST_HULL: (&[i32], u8) = (&[0, 10, 0, 0, 10, 0, 10, 10], 0);
pub(crate) const SECOND_HULL: (&[i32], u8) = (&[20, 20, 20, 0, 30, 0, 30, 20], 0);
pub(crate) const FIRST_HOLE: (&[i32], u8) = (&[22, 2, 22, 8, 28, 8, 28, 2], 1);
pub(crate) const SECOND_HOLE: (&[i32], u8) = (&[23, 10, 23, 14, 27, 14, 27, 10], 1);
const FAR_HOLE: (&[i32], u8) = (&[40, 2, 40, 8, 46, 8, 46, 2], 1);

#[test]
fn e9_a_hole_through_another() {
    let table = table(&[FIRST_HULL, SECOND_HULL, FIRST_HOLE, SECOND_HOLE]);
    let mut owner = [7; 5];
    assert_eq!(bind(&table, false, &mut owner), Ok(Bound { shapes: 2, dropped: 0 }));
    assert_eq!(owner, [0, 1, 1, 1, 7], "a longer owner buffer keeps its tail");
    assert_eq!(lookup(&table, &owner, 1), Some(Record { first: 4, len: 4, role: Role::Hull(1) }));
    assert_eq!(lookup(&table, &owner, 3), Some(Record { first: 12, len: 4, role: Role::Hole(1) }));
    assert_eq!(lookup(&table, &owner, 4), None);
    owner[3] = 0;
    assert_eq!(lookup(&table, &owner, 3), Some(Record { first: 12, len: 4, role: Role::Hole(0) }));
    owner[3] = 2;
    assert_eq!(lookup(&table, &owner, 3), None);
}

#[test]
fn e10_an_orphan() {
    let mut owner = [7; 4];
    let orphaned = table(&[FIRST_HULL, SECOND_HULL, FIRST_HOLE, FAR_HOLE]);
    assert_eq!(bind(&orphaned, false, &mut owner), Err(Refusal { number: 12, place: 3 }));
    assert_eq!(owner, [7; 4]);

    let one_hull = table(&[FIRST_HULL, FIRST_HOLE, FAR_HOLE]);
    assert_eq!(bind(&one_hull, false, &mut owner), Ok(Bound { shapes: 1, dropped: 0 }));
    assert_eq!(owner, [0, 0, 0, 7]);
}

/// Document 02, b: "a filled island touches a hole's leftmost point".
#[test]
fn a_hole_touching_its_island() {
    const TOUCHED: (&[i32], u8) = (&[22, 10, 26, 16, 29, 10, 26, 4, 22, 10, 25, 9, 25, 11], 1);
    let table = table(&[FIRST_HULL, SECOND_HULL, TOUCHED]);
    assert_eq!(anchor_visits(&table.contour(2), false).collect::<Vec<_>>(), [0, 4]);
    // under the anchor lies the hull's lower edge, and no edge of the hole itself
    assert_eq!(contours_under(&table, 2, false), [1]);
    let mut owner = [7; 3];
    assert_eq!(bind(&table, false, &mut owner), Ok(Bound { shapes: 2, dropped: 0 }));
    assert_eq!(owner, [0, 1, 1]);
}

#[test]
fn holes_without_a_hull_are_dropped() {
    let table = table(&[FIRST_HOLE, SECOND_HOLE]);
    let mut owner = [7; 2];
    assert_eq!(bind(&table, false, &mut owner), Ok(Bound { shapes: 0, dropped: 2 }));
    assert_eq!(owner, [NO_OWNER; 2]);
    assert_eq!(lookup(&table, &owner, 1), Some(Record { first: 4, len: 4, role: Role::Dropped }));
}

#[test]
fn a_dropped_hole_is_printed() {
    // The square with its tops turned round: a hole without a hull.
    let mut hole = square();
    hole.top = vec![0, 1, 1, 0];
    assert_eq!(
        printed(&hole, vec![0; 4], COUNTERCLOCKWISE),
        "contours 1 shapes 0 points 4 dropped 1\n0 dropped 65535 4\n0 0\n0 4\n4 4\n4 0\n"
    );
}

/// A record of the program's file.
fn record(kind: u16, body: &[u8]) -> Vec<u8> {
    [&(body.len() as u32).to_le_bytes(), &kind.to_le_bytes()[..], body].concat()
}

#[test]
fn file_form() {
    let settings = record(3, &[0; 9]);
    let link = record(1, &[0; 22]);
    let with = |tail: &[u8]| answer(&[&settings, tail].concat());
    assert_eq!(answer(&[]), "refused 13 at 0\n");
    assert_eq!(answer(&settings[..5]), "refused 13 at 0\n");
    assert_eq!(answer(&settings[..14]), "refused 13 at 0\n");
    assert_eq!(answer(&link), "refused 13 at 0\n");
    assert_eq!(answer(&record(3, &[2, 0, 0, 0, 0, 0, 0, 0, 0])), "refused 13 at 0\n");
    assert_eq!(answer(&record(3, &[0; 8])), "refused 13 at 0\n");
    assert_eq!(with(&settings), "refused 13 at 15\n");
    assert_eq!(with(&[9]), "refused 13 at 15\n");
    assert_eq!(with(&record(4, &[])), "refused 13 at 15\n");
    assert_eq!(with(&record(1, &[0; 21])), "refused 13 at 15\n");
    assert_eq!(with(&record(2, &[0; 3])), "refused 13 at 15\n");
    assert_eq!(with(&[record(2, &[]), link.clone()].concat()), "refused 13 at 21\n");
    assert_eq!(with(&link), "refused 3 at 0\n");
    assert_eq!(with(&link[..27]), "refused 13 at 15\n");
    assert_eq!(with(&record(2, &[])), "refused 5 at 0\n");
}

#[test]
fn file_limits_are_judged_at_the_head() {
    let settings = record(3, &[0; 9]);
    let links = |count: usize| [settings.clone(), record(1, &[0; 22]).repeat(count)].concat();
    let (cut, wrong) = (&record(1, &[0; 22])[..6], &record(1, &[0; 21])[..]);
    assert_eq!(answer(&links(4096)), "refused 3 at 0\n");
    assert_eq!(answer(&[&links(4096), cut].concat()), "refused 1 at 0\n");
    assert_eq!(answer(&[&links(4096), wrong].concat()), format!("refused 13 at {}\n", 15 + 4096 * 28));
    assert_eq!(answer(&[&links(4095), cut].concat()), format!("refused 13 at {}\n", 15 + 4095 * 28));

    let nodes = |count: usize| [settings.clone(), record(2, &[]).repeat(count)].concat();
    assert_eq!(answer(&[&nodes(4096), &[0, 0, 0, 0, 2, 0][..]].concat()), "refused 5 at 0\n");
    assert_eq!(answer(&[&nodes(4095), &[2, 0, 0, 0, 2, 0][..]].concat()), format!("refused 13 at {}\n", 15 + 4095 * 6));
    // 8,192 entries and the first past them, with their bodies cut off.
    assert_eq!(answer(&[&settings, &[0, 0x40, 0, 0, 2, 0][..]].concat()), "refused 13 at 15\n");
    assert_eq!(answer(&[&settings, &[2, 0x40, 0, 0, 2, 0][..]].concat()), "refused 5 at 0\n");
    assert_eq!(answer(&[&settings, &[0xfe, 0xff, 0xff, 0xff, 2, 0][..]].concat()), "refused 5 at 0\n");
}
