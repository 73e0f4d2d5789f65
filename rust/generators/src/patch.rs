//! Patches: meshes with their filled faces, put beside one another or into one another's empty faces.

use crate::mesh::Mesh;
use crate::rng::Rng;
use reading::geometry::Point;

#[derive(Clone, Debug)]
pub struct Patch {
    pub mesh: Mesh,
    pub filled: Vec<bool>,
    /// Faces into which a patch was put: they stay empty.
    pub hosts: Vec<bool>,
}

/// The least rectangle round some points.
#[derive(Clone, Copy, Debug)]
struct Frame {
    least: Point,
    greatest: Point,
}

impl Frame {
    fn of(mesh: &Mesh) -> Self {
        let corner = |pick: fn(i32, i32) -> i32| {
            mesh.points.iter().copied().reduce(|p, q| Point::new(pick(p.x, q.x), pick(p.y, q.y))).expect("has points")
        };
        Self { least: corner(i32::min), greatest: corner(i32::max) }
    }
}

impl Patch {
    pub fn new(mesh: Mesh, filled: Vec<bool>) -> Self {
        let hosts = vec![false; filled.len()];
        Self { mesh, filled, hosts }
    }

    /// Takes the other patch in where it stands, if all stays in range.
    fn absorb(&mut self, mut other: Patch, shift: Point) {
        let known = self.mesh.points.len();
        other.mesh.points.iter_mut().for_each(|point| *point = Point::new(point.x + shift.x, point.y + shift.y));
        if other.mesh.in_range() {
            self.mesh.points.append(&mut other.mesh.points);
            let moved = |face: Vec<usize>| face.into_iter().map(|corner| corner + known).collect();
            self.mesh.faces.extend(other.mesh.faces.into_iter().map(moved));
            self.filled.append(&mut other.filled);
            self.hosts.append(&mut other.hosts);
        }
    }

    /// Puts the other patch to the right of this one, or above it.
    pub fn put_beside(&mut self, other: Patch, rng: &mut Rng) {
        let (frame, others) = (Frame::of(&self.mesh), Frame::of(&other.mesh));
        let gap = rng.within(1..=3);
        let slide = rng.within(-5..=5);
        let shift = if rng.chance(50) {
            Point::new(frame.greatest.x - others.least.x + gap, frame.least.y - others.least.y + slide)
        } else {
            Point::new(frame.least.x - others.least.x + slide, frame.greatest.y - others.least.y + gap)
        };
        self.absorb(other, shift);
    }

    /// Puts the other patch into an empty face of this one, if it fits.
    pub fn put_into(&mut self, other: Patch, face: usize) {
        let corners: Vec<Point> = self.mesh.faces[face].iter().map(|&corner| self.mesh.points[corner]).collect();
        let frame = Frame::of(&other.mesh);
        let count = corners.len() as i32;
        let middle = Point::new(
            corners.iter().map(|corner| corner.x / count).sum(),
            corners.iter().map(|corner| corner.y / count).sum(),
        );
        let shift = Point::new(
            middle.x - (frame.least.x + frame.greatest.x) / 2,
            middle.y - (frame.least.y + frame.greatest.y) / 2,
        );
        let edges = || corners.iter().zip(corners.iter().cycle().skip(1));
        let is_inside = |x: i32, y: i32| {
            let point = Point::new(x + shift.x, y + shift.y);
            edges().all(|(from, to)| from.to(*to).cross(from.to(point)) > 0)
        };
        let Frame { least, greatest } = frame;
        let fits = is_inside(least.x, least.y)
            && is_inside(greatest.x, least.y)
            && is_inside(greatest.x, greatest.y)
            && is_inside(least.x, greatest.y);
        if !self.filled[face] && fits {
            self.hosts[face] = true;
            self.absorb(other, shift);
        }
    }
}
