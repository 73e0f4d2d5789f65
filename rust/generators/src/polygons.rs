//! Random polygons, subject and clip, of which the crate's own front end makes graphs: they overlap, touch and cross, and some
//! have the faults that polygons from elsewhere have.

use crate::outlines::{
    bands, faces, frame, many, near_by, near_the_bounds, rectangle, rings, slivers, star, strips, tangle, tangles,
};
use crate::rng::Rng;
use reading::geometry::Point;

/// A closed contour, in either direction.
pub type Contour = Vec<Point>;

#[derive(Clone, Debug, Default, PartialEq, Eq)]
pub struct Polygons {
    pub subject: Vec<Contour>,
    pub clip: Vec<Contour>,
}

/// The families of polygons.
#[derive(Clone, Copy, Debug, PartialEq, Eq, PartialOrd, Ord)]
pub enum Family {
    /// Rectangles on a small grid: shared edges, touching corners.
    Rectangles,
    /// Contours through random points of a small grid, which cross themselves and one another, often in one point.
    Tangle,
    /// The same on a wide grid, where crossings are rounded.
    WideTangle,
    /// Rings in rings, some of which touch or cross the next: holes and islands.
    Nested,
    /// Strips with points within their straight edges, which lie on one another in part.
    Joints,
    /// Stars: triangles round a few points, which may be one another's tips.
    Stars,
    /// Long slivers of a width of one or two, many with a common end.
    Slivers,
    /// Two levels of dose: wobbly rings round several centres, the one inside the other but for where they touch or cross.
    Bands,
    /// Contours on a grid of two to four cells a side.
    Tiny,
    /// Contours from bound to bound.
    Huge,
    /// Hundreds of small contours.
    Many,
    /// The filled faces of planar graphs of every family: touching points, holes and stars as there.
    Faces,
}

pub const FAMILIES: [Family; 12] = [
    Family::Rectangles,
    Family::Tangle,
    Family::WideTangle,
    Family::Nested,
    Family::Joints,
    Family::Stars,
    Family::Slivers,
    Family::Bands,
    Family::Tiny,
    Family::Huge,
    Family::Many,
    Family::Faces,
];

/// Polygons of the family, with about `size` contours, or as many points in each.
pub fn sample(family: Family, size: usize, rng: &mut Rng) -> Polygons {
    let mut polygons = match family {
        Family::Bands => bands(size, rng),
        Family::Faces if rng.chance(50) => Polygons { subject: faces(size, rng), clip: Vec::new() },
        _ => deal(framed(contours(family, size, rng), rng), rng),
    };
    for _ in 0..rng.choose(&[0, 0, 0, 1, 3]) {
        soil(&mut polygons, rng);
    }
    polygons
}

/// Often with a rectangle round them, or two: what is empty inside is a hole.
fn framed(mut contours: Vec<Contour>, rng: &mut Rng) -> Vec<Contour> {
    for _ in 0..rng.choose(&[0, 0, 1, 2]) {
        contours.extend(frame(&contours, rng));
    }
    contours
}

/// Gives each contour to the subject or the clip, now and then all to one of them, and turns some round.
fn deal(contours: Vec<Contour>, rng: &mut Rng) -> Polygons {
    let mut polygons = Polygons::default();
    let subject_percent = rng.choose(&[50, 50, 50, 75, 100, 0]);
    let turned_percent = rng.choose(&[0, 50, 50, 100]);
    for mut contour in contours {
        if rng.chance(turned_percent) {
            contour.reverse();
        }
        let side = if rng.chance(subject_percent) { &mut polygons.subject } else { &mut polygons.clip };
        side.push(contour);
    }
    polygons
}

fn contours(family: Family, size: usize, rng: &mut Rng) -> Vec<Contour> {
    match family {
        Family::Rectangles => {
            let reach = rng.choose(&[2, 3, 5, size as i32]);
            (0..2 + rng.below(2 * size)).map(|_| rectangle([reach; 2], rng)).collect()
        }
        Family::Tangle => tangles(&[2, 3, 5, 9], size, rng),
        Family::WideTangle => tangles(&[50, 1000, 100_000], size, rng),
        Family::Nested => (0..1 + rng.below(3)).flat_map(|_| rings(size, rng)).collect(),
        Family::Joints => strips(size, rng),
        Family::Stars => (0..1 + rng.below(3)).flat_map(|_| star(size, rng)).collect(),
        Family::Slivers => slivers(size, rng),
        Family::Tiny => {
            let reach = rng.choose(&[1, 1, 2]);
            (0..1 + rng.below(4)).map(|_| tangle(reach, 3 + rng.below(4), rng)).collect()
        }
        Family::Huge => {
            let count = 1 + rng.below(3);
            (0..count).map(|_| (0..3 + rng.below(size)).map(|_| near_the_bounds(rng)).collect()).collect()
        }
        Family::Many => many(size, rng),
        Family::Faces => faces(size, rng),
        Family::Bands => unreachable!("bands know their subject from their clip"),
    }
}

/// Gives the polygons a fault: a contour without area or points, one that is there twice, or a fault in one of them.
fn soil(polygons: &mut Polygons, rng: &mut Rng) {
    let Polygons { subject, clip } = polygons;
    let (side, other) = if rng.chance(50) { (subject, clip) } else { (clip, subject) };
    let place = rng.below(side.len().max(1));
    let Some(contour) = side.get_mut(place).filter(|contour| !contour.is_empty()) else {
        side.push(flat(Point::new(0, 0), rng));
        return;
    };
    match rng.below(5) {
        0 => side.push(flat(side[place][0], rng)),
        1 => side.push(side[place].clone()),
        2 => other.push(side[place].clone()),
        _ => soil_contour(contour, rng),
    }
}

/// A contour without area, near the point.
fn flat(near: Point, rng: &mut Rng) -> Contour {
    let (from, to) = (near_by(near, rng), near_by(near, rng));
    rng.choose::<&[Point]>(&[&[], &[from], &[from, to], &[from, to, near, to]]).to_vec()
}

/// A point twice, or a spike.
fn soil_contour(contour: &mut Contour, rng: &mut Rng) {
    let place = rng.below(contour.len());
    let point = contour[place];
    if rng.chance(50) {
        contour.insert(place, near_by(point, rng));
    }
    contour.insert(place, point);
}
