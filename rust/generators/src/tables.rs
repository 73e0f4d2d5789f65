//! Contour tables for binding that no extraction need have made: small coordinates, so that anchors, edges, gaps and
//! slopes coincide in every way. For reports: owners that no binding need have found, and tables as large as can be.

use crate::rng::Rng;
use reading::bind::{NO_OWNER, Table};
use reading::geometry::Point;
use reading::{MAX_COORDINATE, MAX_LINKS};

/// A contour with its kind.
type Kept = (u8, Vec<Point>);

/// A table that passes checks 10 and 11 for the output direction.
pub fn sample(size: usize, clockwise: bool, rng: &mut Rng) -> Table {
    let reach = rng.choose(&[1, 2, 2, 3, 5, 9, reading::MAX_COORDINATE]);
    let several = 1 + rng.below(size);
    let count = rng.choose(&[0, 1, 2, 2, 3, several]);
    let hulls = hulls(count, reach, clockwise, rng);
    let mut holes: Vec<Vec<Point>> = (0..rng.below(size)).map(|_| hole(reach, clockwise, rng)).collect();
    for hole in 1..holes.len() {
        if rng.chance(20) {
            holes[hole] = holes[rng.below(hole)].clone();
        }
    }
    table(hulls, holes, clockwise, rng)
}

/// A table of two hulls or more and holes on three by three points, most of which pass the least of these again and again and have
/// their anchor there. Now and then a hole's anchor is any of its points: check 11 may refuse that.
pub fn crowded(size: usize, clockwise: bool, rng: &mut Rng) -> Table {
    let least = Point::new(-1, -1);
    let count = rng.choose(&[2, 2, 3]);
    let hulls = hulls(count, rng.choose(&[1, 2]), clockwise, rng);
    let astray_percent = rng.choose(&[0, 0, 0, 10]);
    let mut holes = Vec::new();
    for _ in 0..1 + rng.below(size) {
        let points = 3 + rng.below(9);
        let mut hole = passing(least, contour(points, 1, rng), rng);
        if rng.chance(astray_percent) {
            hole.rotate_left(rng.below(points));
        } else {
            hole = anchored(hole, clockwise, rng);
        }
        holes.push(hole);
    }
    table(hulls, holes, clockwise, rng)
}

/// A table with 4,096 points, or at most two less: one contour, contours of many lengths, or 1,365 triangles. It passes
/// check 10 alone. Many a contour goes round and round the corners of all that is in range, or beside them: no area is
/// larger.
pub fn full(rng: &mut Rng) -> Table {
    let longest = rng.choose(&[3, 5, 40, 1000, MAX_LINKS]);
    let hole_percent = rng.choose(&[0, 50, 100]);
    let mut table = Table::default();
    loop {
        let room = MAX_LINKS - table.points.len() / 2;
        let count = if longest == MAX_LINKS { room } else { (3 + rng.below(longest - 2)).min(room) };
        if count < 3 {
            return table;
        }
        let contour = if rng.chance(50) { round_and_round(count, rng) } else { wandering(count, rng) };
        table.push(&contour, rng.chance(hole_percent));
    }
}

/// Round the corners of all that is in range, or up to two off them, in either direction.
fn round_and_round(count: usize, rng: &mut Rng) -> Vec<Point> {
    let (beside, clockwise) = (rng.choose(&[0, 0, 2]), rng.chance(50));
    let corner = |at: usize| {
        let Point { x, y } = [(-1, -1), (1, -1), (1, 1), (-1, 1)].map(|(x, y)| Point::new(x, y))[at % 4];
        Point::new(x * (MAX_COORDINATE - rng.within(0..=beside)), y * (MAX_COORDINATE - rng.within(0..=beside)))
    };
    let mut round: Vec<Point> = (0..count).map(corner).collect();
    if clockwise {
        round.reverse();
    }
    if round.first() == round.last() {
        round[count - 1] = Point::new(0, 0);
    }
    round
}

/// Any points, no two neighbours equal, however many there are.
fn wandering(count: usize, rng: &mut Rng) -> Vec<Point> {
    let reach = rng.choose(&[1, 9, 1000, MAX_COORDINATE]);
    let mut points: Vec<Point> = Vec::with_capacity(count);
    while points.len() < count {
        let point = Point::new(rng.within(-reach..=reach), rng.within(-reach..=reach));
        let closes = points.len() + 1 == count && points.first() == Some(&point);
        if points.last() != Some(&point) && !closes {
            points.push(point);
        }
    }
    points
}

/// An owner for each contour that a lookup takes, though binding might find another; of every hundred so many are any,
/// right or wrong.
pub fn owners(table: &Table, any_percent: usize, rng: &mut Rng) -> Vec<u16> {
    let hulls = table.kind.iter().filter(|&&kind| kind == 0).count();
    let mut met = 0;
    let mut owners = Vec::new();
    for &kind in &table.kind {
        let right = match kind {
            0 => met,
            _ if hulls == 0 => NO_OWNER,
            _ => rng.below(hulls) as u16,
        };
        met += (kind == 0) as u16;
        let any = rng.choose(&[0, 1, 2, hulls as u16, 65_534, NO_OWNER]);
        owners.push(if rng.chance(any_percent) { any } else { right });
    }
    owners
}

/// So many random hulls, often with a floor under everything, so that most holes find an edge.
fn hulls(count: usize, reach: i32, clockwise: bool, rng: &mut Rng) -> Vec<Kept> {
    let mut hulls: Vec<Kept> = (0..count).map(|_| (0, any_contour(reach, rng))).collect();
    if count > 0 && reach < 100 && rng.chance(70) {
        let mut floor = [(-reach, -reach - 1), (reach + 1, -reach - 1), (0, -reach - 2)].map(|(x, y)| Point::new(x, y));
        if clockwise {
            floor.reverse();
        }
        hulls[0].1 = floor.to_vec();
    }
    hulls
}

/// Hulls and holes stand mixed; the holes are in order, since each goes before those that are in already.
fn table(hulls: Vec<Kept>, mut holes: Vec<Vec<Point>>, clockwise: bool, rng: &mut Rng) -> Table {
    let mut contours = hulls;
    holes.sort_by_key(|hole| hole[clockwise as usize]);
    for hole in holes.into_iter().rev() {
        let before = contours.iter().position(|(kind, _)| *kind == 1).unwrap_or(contours.len());
        contours.insert(rng.below(before + 1), (1, hole));
    }
    let mut table = Table::default();
    contours.iter().for_each(|(kind, points)| table.push(points, *kind == 1));
    table
}

fn any_contour(reach: i32, rng: &mut Rng) -> Vec<Point> {
    contour(3 + rng.below(4), reach, rng)
}

/// So many random points, no two neighbours equal.
fn contour(count: usize, reach: i32, rng: &mut Rng) -> Vec<Point> {
    loop {
        let points: Vec<Point> =
            (0..count).map(|_| Point::new(rng.within(-reach..=reach), rng.within(-reach..=reach))).collect();
        if points.iter().zip(points.iter().cycle().skip(1)).all(|(p, q)| p != q) {
            return points;
        }
    }
}

/// A hole with its least point where the anchor is sought; of every four, one passes that point again.
fn hole(reach: i32, clockwise: bool, rng: &mut Rng) -> Vec<Point> {
    let mut hole = any_contour(reach, rng);
    if rng.chance(25) {
        let least = *hole.iter().min().expect("contours have points");
        hole = passing(least, hole, rng);
    }
    anchored(hole, clockwise, rng)
}

/// The contour, passing a point between many of its own.
fn passing(through: Point, contour: Vec<Point>, rng: &mut Rng) -> Vec<Point> {
    let mut passing = Vec::new();
    for (&point, &next) in contour.iter().zip(contour.iter().cycle().skip(1)) {
        passing.push(point);
        if point != through && next != through && rng.chance(40) {
            passing.push(through);
        }
    }
    passing
}

/// Turns the contour so that its least point, at any of its visits, stands where the anchor is sought.
fn anchored(mut hole: Vec<Point>, clockwise: bool, rng: &mut Rng) -> Vec<Point> {
    let least = hole.iter().min().expect("contours have points");
    let visits: Vec<usize> = (0..hole.len()).filter(|&position| hole[position] == *least).collect();
    hole.rotate_left(rng.choose(&visits));
    hole.rotate_right(clockwise as usize);
    hole
}
