//! Meshes: points and the faces between them, from which planar graphs are made.

use crate::rng::Rng;
use reading::MAX_COORDINATE;
use reading::geometry::Point;
use std::collections::BTreeSet;

/// Faces are lists of points, counterclockwise; no two overlap. Outside them nothing is filled.
#[derive(Clone, Debug)]
pub struct Mesh {
    pub points: Vec<Point>,
    pub faces: Vec<Vec<usize>>,
    /// Columns and rows, where the faces stand on a board; a fan is one row.
    pub columns: usize,
}

impl Mesh {
    /// A board of `columns` by `rows` cells between the given lines, face by face, row by row.
    pub fn board(xs: &[i32], ys: &[i32]) -> Self {
        let points = ys.iter().flat_map(|&y| xs.iter().map(move |&x| Point::new(x, y))).collect();
        let (columns, rows) = (xs.len() - 1, ys.len() - 1);
        let corner = |column: usize, row: usize| row * xs.len() + column;
        let cell = |column, row| {
            vec![corner(column, row), corner(column + 1, row), corner(column + 1, row + 1), corner(column, row + 1)]
        };
        let faces = (0..rows).flat_map(|row| (0..columns).map(move |column| cell(column, row))).collect();
        Self { points, faces, columns }
    }

    /// A board of unit cells.
    pub fn unit_board(columns: usize, rows: usize) -> Self {
        Self::board(&(0..=columns as i32).collect::<Vec<_>>(), &(0..=rows as i32).collect::<Vec<_>>())
    }

    /// Splits every cell of a board by one of its diagonals.
    pub fn split_cells(&mut self, rng: &mut Rng) {
        let split = |cell: &Vec<usize>, rising: bool| match cell[..] {
            [p, q, r, s] if rising => [vec![p, q, r], vec![p, r, s]],
            [p, q, r, s] => [vec![p, q, s], vec![q, r, s]],
            _ => unreachable!("cells have four corners"),
        };
        self.faces = self.faces.iter().flat_map(|cell| split(cell, rng.chance(50))).collect();
        self.columns *= 2;
    }

    /// Moves every point a little, by at most `reach`; points whose faces would turn over stay.
    pub fn jitter(&mut self, reach: i32, rng: &mut Rng) {
        let mut around = vec![Vec::new(); self.points.len()];
        for (number, face) in self.faces.iter().enumerate() {
            face.iter().for_each(|&corner| around[corner].push(number));
        }
        for (corner, faces) in around.iter().enumerate() {
            let stood = self.points[corner];
            self.points[corner] =
                Point::new(stood.x + rng.within(-reach..=reach), stood.y + rng.within(-reach..=reach));
            if !faces.iter().all(|&face| self.is_convex(face)) {
                self.points[corner] = stood;
            }
        }
    }

    /// Every corner of the face turns strictly left.
    fn is_convex(&self, face: usize) -> bool {
        let face = &self.faces[face];
        let corner = |position: usize| self.points[face[position % face.len()]];
        (0..face.len()).all(|i| corner(i).to(corner(i + 1)).cross(corner(i + 1).to(corner(i + 2))) > 0)
    }

    /// Applies a matrix of whole numbers and mirrors back what it turns over. The caller keeps the result in range.
    pub fn transform(&mut self, [[p, q], [r, s]]: [[i32; 2]; 2]) {
        for point in &mut self.points {
            *point = Point::new(p * point.x + q * point.y, r * point.x + s * point.y);
        }
        if p * s < q * r {
            self.faces.iter_mut().for_each(|face| face.reverse());
        }
    }

    /// The filled faces, each a contour.
    pub fn contours(&self, filled: &[bool]) -> Vec<Vec<Point>> {
        let points = |face: &Vec<usize>| face.iter().map(|&corner| self.points[corner]).collect();
        self.faces.iter().zip(filled).filter(|(_, filled)| **filled).map(|(face, _)| points(face)).collect()
    }

    /// All points lie in document 01's range.
    pub fn in_range(&self) -> bool {
        self.points.iter().all(|point| point.in_range())
    }

    /// A fan round a centre: triangles between up to `spokes` spokes in all directions, or rightward only, and cells between
    /// the rings outside them.
    pub fn fan(centre: Point, spokes: usize, rings: usize, rightward: bool, rng: &mut Rng) -> Self {
        let tips = directions(spokes, rightward, rng);
        let sectors = tips.len();
        let moved = |tip: &Point, ring: i32| Point::new(centre.x + ring * tip.x, centre.y + ring * tip.y);
        let outward = (1..=rings as i32).flat_map(|ring| tips.iter().map(move |tip| moved(tip, ring)));
        let points: Vec<Point> = std::iter::once(centre).chain(outward).collect();
        let origin = Point::new(0, 0);
        let is_narrow = |&sector: &usize| origin.to(tips[sector]).cross(origin.to(tips[(sector + 1) % sectors])) > 0;
        let narrow: Vec<usize> = (0..sectors).filter(is_narrow).collect();
        let corner = |ring: usize, sector: usize| 1 + (ring - 1) * sectors + sector % sectors;
        let cell = |ring: usize, sector: usize| match ring {
            1 => vec![0, corner(1, sector), corner(1, sector + 1)],
            _ => vec![
                corner(ring - 1, sector),
                corner(ring, sector),
                corner(ring, sector + 1),
                corner(ring - 1, sector + 1),
            ],
        };
        let faces = (1..=rings).flat_map(|ring| narrow.iter().map(move |&sector| cell(ring, sector))).collect();
        Self { points, faces, columns: narrow.len().max(1) }
    }

    /// Some rising lines; now and then from bound to bound.
    pub fn lines(count: usize, rng: &mut Rng) -> Vec<i32> {
        let mut lines = BTreeSet::new();
        let reach = rng.choose(&[count as i32, 4 * count as i32, 1000, MAX_COORDINATE]);
        while lines.len() < count {
            lines.insert(rng.within(-reach..=reach));
        }
        let mut lines: Vec<i32> = lines.into_iter().collect();
        if rng.chance(10) {
            lines[0] = -MAX_COORDINATE;
            lines[count - 1] = MAX_COORDINATE;
        }
        lines
    }
}

/// Up to `count` directions as points round the origin, in counterclockwise order from below.
fn directions(count: usize, rightward: bool, rng: &mut Rng) -> Vec<Point> {
    let reach = (count as i32).clamp(3, 2000);
    let origin = Point::new(0, 0);
    let downward = origin.to(Point::new(0, -1));
    let mut tips: Vec<Point> = (0..count)
        .map(|_| Point::new(rng.within(if rightward { 0 } else { -reach }..=reach), rng.within(-reach..=reach)))
        .filter(|&tip| tip != origin)
        .collect();
    tips.sort_by(|tip, other| downward.met_first(origin.to(*tip), origin.to(*other), false));
    tips.dedup_by(|tip, other| origin.to(*tip).same_direction(origin.to(*other)));
    tips
}
