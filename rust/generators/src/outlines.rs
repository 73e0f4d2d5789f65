//! The contours of which [`polygons`](crate::polygons) are made.

use crate::joints::greatest_divisor;
use crate::mesh::Mesh;
use crate::patch::Patch;
use crate::planar;
use crate::polygons::{Contour, Polygons};
use crate::rng::Rng;
use reading::MAX_COORDINATE;
use reading::geometry::Point;

fn anywhere(reach: i32, rng: &mut Rng) -> Point {
    Point::new(rng.within(-reach..=reach), rng.within(-reach..=reach))
}

fn moved(point: Point, by: Point) -> Point {
    Point::new(point.x + by.x, point.y + by.y)
}

/// A point at most four off, within the bounds.
pub fn near_by(point: Point, rng: &mut Rng) -> Point {
    let Point { x, y } = moved(point, anywhere(4, rng));
    Point::new(x.clamp(-MAX_COORDINATE, MAX_COORDINATE), y.clamp(-MAX_COORDINATE, MAX_COORDINATE))
}

/// A point of which either coordinate is often at a bound, beside it or 0.
pub fn near_the_bounds(rng: &mut Rng) -> Point {
    let anywhere = anywhere(MAX_COORDINATE, rng);
    let choices = |any: i32| [-MAX_COORDINATE, MAX_COORDINATE, 1 - MAX_COORDINATE, 0, any, any];
    Point::new(rng.choose(&choices(anywhere.x)), rng.choose(&choices(anywhere.y)))
}

/// Any rectangle of at most that width and height, near the origin.
pub fn rectangle([width, height]: [i32; 2], rng: &mut Rng) -> Contour {
    let (left, low) = (rng.within(-width..=width), rng.within(-height..=height));
    between([left, left + rng.within(1..=width)], [low, low + rng.within(1..=height)])
}

/// A rectangle round some contours, a little off them unless it is at the bounds; none round no points.
pub fn frame(contours: &[Contour], rng: &mut Rng) -> Option<Contour> {
    let gap = rng.within(0..=3);
    let points = || contours.iter().flatten();
    let below = |least: i32| (least - gap).max(-MAX_COORDINATE);
    let above = |greatest: i32| (greatest + gap).min(MAX_COORDINATE);
    let (left, right) = (points().map(|point| point.x).min()?, points().map(|point| point.x).max()?);
    let (low, high) = (points().map(|point| point.y).min()?, points().map(|point| point.y).max()?);
    Some(between([below(left), above(right)], [below(low), above(high)]))
}

/// A rectangle, counterclockwise.
fn between([left, right]: [i32; 2], [low, high]: [i32; 2]) -> Contour {
    [(left, low), (right, low), (right, high), (left, high)].map(|(x, y)| Point::new(x, y)).to_vec()
}

/// A contour through random points.
pub fn tangle(reach: i32, points: usize, rng: &mut Rng) -> Contour {
    (0..points).map(|_| anywhere(reach, rng)).collect()
}

/// Up to three, of one reach.
pub fn tangles(reaches: &[i32], size: usize, rng: &mut Rng) -> Vec<Contour> {
    let reach = rng.choose(reaches);
    (0..1 + rng.below(3)).map(|_| tangle(reach, 3 + rng.below(2 * size), rng)).collect()
}

/// Octagons or kites in one another, by turns in both directions. Each may stand off the middle by the gap to the next: so kites
/// touch in one point, at the left, where holes are anchored, or at the right; octagons touch along an edge.
pub fn rings(size: usize, rng: &mut Rng) -> Vec<Contour> {
    let gap = rng.choose(&[1, 2, 2, 5, 100]);
    let off_percent = rng.choose(&[0, 30, 60]);
    let are_kites = rng.chance(50);
    let mut middle = anywhere(4 * gap, rng);
    let mut rings = Vec::new();
    for number in 1..=1 + rng.below(size) as i32 {
        let radius = number * gap;
        if rng.chance(off_percent) {
            let (x, y) = rng.choose(&[(gap, 0), (gap, 0), (gap, 0), (-gap, 0), (0, gap)]);
            middle = moved(middle, Point::new(x, y));
        }
        let mut ring = if are_kites { kite(radius, number * radius) } else { octagon(radius, rng.within(0..=radius)) };
        if number % 2 == 0 {
            ring.reverse();
        }
        rings.push(ring.into_iter().map(|corner| moved(middle, corner)).collect());
    }
    rings
}

/// Counterclockwise, round the origin.
fn kite(width: i32, height: i32) -> Contour {
    [(width, 0), (0, height), (-width, 0), (0, -height)].map(|(x, y)| Point::new(x, y)).to_vec()
}

/// Counterclockwise, round the origin: a square if the slant is the radius.
fn octagon(radius: i32, slant: i32) -> Contour {
    let quarter = [(radius, slant), (slant, radius)];
    let half = quarter.into_iter().chain(quarter.map(|(x, y)| (-y, x)));
    half.clone().chain(half.map(|(x, y)| (-x, -y))).map(|(x, y)| Point::new(x, y)).collect()
}

/// The filled faces of planar graphs, each a contour.
pub fn faces(size: usize, rng: &mut Rng) -> Vec<Contour> {
    let Patch { mesh, filled, .. } = planar::patches(rng.choose(&planar::FAMILIES), size, rng);
    mesh.contours(&filled)
}

/// Strips between a few lines, now and then sheared, with joints in their edges.
pub fn strips(size: usize, rng: &mut Rng) -> Vec<Contour> {
    let sheared = [[[1, 1], [-1, 1]], [[1, 0], [3, 1]], [[2, 1], [1, -1]]];
    let [[p, q], [r, s]]: [[i32; 2]; 2] = if rng.chance(50) { rng.choose(&sheared) } else { [[1, 0], [0, 1]] };
    let percent = rng.choose(&[20, 60, 100]);
    let strip = |rng: &mut Rng| {
        let strip = rectangle([size as i32, 2], rng).into_iter();
        let strip: Contour = strip.map(|Point { x, y }| Point::new(p * x + q * y, r * x + s * y)).collect();
        with_joints(&strip, percent, rng)
    };
    (0..2 + rng.below(size)).map(|_| strip(rng)).collect()
}

/// That percentage of the whole points within the contour's edges becomes points of it.
fn with_joints(contour: &[Point], percent: usize, rng: &mut Rng) -> Contour {
    let mut jointed = Vec::new();
    for (from, to) in contour.iter().zip(contour.iter().cycle().skip(1)) {
        let (x, y) = (to.x - from.x, to.y - from.y);
        let parts = greatest_divisor(x.abs(), y.abs()).max(1);
        jointed.push(*from);
        jointed.extend(
            (1..parts)
                .filter(|_| rng.chance(percent))
                .map(|part| moved(*from, Point::new(x / parts * part, y / parts * part))),
        );
    }
    jointed
}

/// Some of the triangles round a point, or every other, each a contour.
pub fn star(size: usize, rng: &mut Rng) -> Vec<Contour> {
    let reach = rng.choose(&[2, 3, 9]);
    let mesh = Mesh::fan(anywhere(reach, rng), 3 + rng.below(2 * size), 1, rng.chance(30), rng);
    let percent = rng.choose(&[0, 30, 60, 100]);
    let is_filled = |face: usize| if percent == 0 { face.is_multiple_of(2) } else { rng.chance(percent) };
    mesh.contours(&(0..mesh.faces.len()).map(is_filled).collect::<Vec<_>>())
}

/// Slivers of a width of one or two, many from one point.
pub fn slivers(size: usize, rng: &mut Rng) -> Vec<Contour> {
    let reach = rng.choose(&[5, 30, 1000, 100_000]);
    let mut from = anywhere(reach, rng);
    let mut sliver = |rng: &mut Rng| {
        if rng.chance(40) {
            from = anywhere(reach, rng);
        }
        let to = anywhere(reach, rng);
        let width = anywhere(2, rng);
        let mut contour = vec![from, to, moved(to, width)];
        if rng.chance(50) {
            contour.push(moved(from, width));
        }
        contour
    };
    (0..2 + rng.below(size)).map(|_| sliver(rng)).collect()
}

/// Rectangles and small tangles all over.
pub fn many(size: usize, rng: &mut Rng) -> Vec<Contour> {
    let reach = size as i32 * rng.choose(&[2, 5, 20]);
    let small = |rng: &mut Rng| {
        let contour = if rng.chance(50) { rectangle([2, 2], rng) } else { tangle(3, 3 + rng.below(2), rng) };
        let by = anywhere(reach, rng);
        contour.into_iter().map(|point| moved(point, by)).collect()
    };
    (0..size * size * rng.choose(&[1, 2])).map(|_| small(rng)).collect()
}

/// The subject is one level and the clip another; round some centres each has a hole.
pub fn bands(size: usize, rng: &mut Rng) -> Polygons {
    let unit = rng.choose(&[2, 10, 300]);
    let mut polygons = Polygons::default();
    for _ in 0..1 + rng.below(3) {
        let centre = anywhere(8 * unit, rng);
        let corners = 8 + rng.below(4 * size);
        let outer = (0..corners).map(|_| rng.within(7 * unit..=8 * unit)).collect::<Vec<_>>();
        let inner = inward(&outer, unit, rng);
        polygons.subject.push(wobbly(centre, &outer));
        polygons.clip.push(wobbly(centre, &inner));
        if rng.chance(40) {
            let cold = inner.iter().map(|radius| radius / 2).collect::<Vec<_>>();
            let colder = inward(&cold, unit / 2, rng);
            polygons.clip.push(wobbly(centre, &cold).into_iter().rev().collect());
            polygons.subject.push(wobbly(centre, &colder).into_iter().rev().collect());
        }
    }
    polygons
}

/// Smaller by a step at most corners, equal at some, and now and then greater.
fn inward(radii: &[i32], step: i32, rng: &mut Rng) -> Vec<i32> {
    let steps = rng.choose(&[[step, step, step, step], [step, step, step, 0], [step, 2 * step, 0, -step]]);
    radii.iter().map(|radius| radius - rng.choose(&steps)).collect()
}

/// A ring with these radii, in directions that go once round.
fn wobbly(centre: Point, radii: &[i32]) -> Contour {
    let count = radii.len() as i64;
    let corner = |(number, &radius): (usize, &i32)| {
        // Once round a square of side 2,000, from its lower right corner.
        let (side, along) = ((4 * number as i64) / count, (4 * number as i64) % count * 2000 / count - 1000);
        let (x, y) = [(1000, along), (-along, 1000), (-1000, -along), (along, -1000)][side as usize];
        let length = (x * x + y * y).isqrt();
        moved(centre, Point::new((x * radius as i64 / length) as i32, (y * radius as i64 / length) as i32))
    };
    radii.iter().enumerate().map(corner).collect()
}
