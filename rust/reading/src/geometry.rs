//! Points, turning and area.

use crate::MAX_COORDINATE;
use std::cmp::Ordering;

/// A point. "Points are ordered by x, then y", which is the derived order.
#[derive(Clone, Copy, Debug, PartialEq, Eq, PartialOrd, Ord, Hash)]
pub struct Point {
    pub x: i32,
    pub y: i32,
}

impl Point {
    pub const fn new(x: i32, y: i32) -> Self {
        Self { x, y }
    }

    /// The point at a position of a flat list, x and y in turn.
    pub fn in_list(list: &[i32], position: usize) -> Self {
        Self::new(list[2 * position], list[2 * position + 1])
    }

    /// Both coordinates lie in document 01's range.
    pub fn in_range(self) -> bool {
        let range = -MAX_COORDINATE..=MAX_COORDINATE;
        range.contains(&self.x) && range.contains(&self.y)
    }

    /// The vector from this point to `end`.
    pub fn to(self, end: Self) -> Vector {
        Vector { x: end.x as i128 - self.x as i128, y: end.y as i128 - self.y as i128 }
    }
}

/// A difference of two points, in numbers that cannot overflow.
#[derive(Clone, Copy, Debug, PartialEq, Eq)]
pub struct Vector {
    pub x: i128,
    pub y: i128,
}

impl Vector {
    /// Positive when `other` is counterclockwise of this vector, y upward.
    pub fn cross(self, other: Self) -> i128 {
        self.x * other.y - self.y * other.x
    }

    pub fn dot(self, other: Self) -> i128 {
        self.x * other.x + self.y * other.y
    }

    /// Both vectors point the same way.
    pub fn same_direction(self, other: Self) -> bool {
        self.cross(other) == 0 && self.dot(other) > 0
    }

    /// Which of `u` and `v` is met first when turning from this vector, clockwise or counterclockwise. This vector's own
    /// direction is met last, after a full turn.
    pub fn met_first(self, u: Self, v: Self, clockwise: bool) -> Ordering {
        let side = if clockwise { -1 } else { 1 };
        // Less than half a turn, half a turn, more than half, a full turn.
        let quarter = |w: Self| match (side * self.cross(w)).cmp(&0) {
            Ordering::Greater => 0,
            Ordering::Equal if self.dot(w) < 0 => 1,
            Ordering::Less => 2,
            Ordering::Equal => 3,
        };
        quarter(u).cmp(&quarter(v)).then_with(|| 0.cmp(&(side * u.cross(v))))
    }
}

/// The points turn strictly clockwise.
pub fn strictly_clockwise(p: Point, q: Point, r: Point) -> bool {
    p.to(q).cross(q.to(r)) < 0
}

/// "The signed doubled area is the sum of x·y' - y·x' round the contour, positive when counterclockwise."
pub fn doubled_area(contour: &[Point]) -> i128 {
    let next = contour.iter().cycle().skip(1);
    contour.iter().zip(next).map(|(p, q)| p.x as i128 * q.y as i128 - p.y as i128 * q.x as i128).sum()
}
