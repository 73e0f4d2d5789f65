//! What is found: contours, and shapes with their holes.

use crate::iter::{Iter, Numbered};
use crate::lent::{self, Bound, Counts, Role};
use crate::lists::Lists;
use crate::written::Written;
use crate::{Options, Refusal};

/// Whether a contour bounds a shape from outside or from inside.
#[derive(Clone, Copy, Debug, PartialEq, Eq, Hash)]
pub enum ContourKind {
    /// From outside.
    Hull,
    /// From inside.
    Hole,
}

/// One contour.
#[derive(Clone, Copy, Debug, PartialEq, Eq)]
pub struct Contour<'a> {
    number: usize,
    kind: ContourKind,
    points: &'a [[i32; 2]],
}

impl<'a> Contour<'a> {
    /// The contour's number, in the order in which contours were found.
    pub fn number(&self) -> usize {
        self.number
    }

    /// Hull or hole.
    pub fn kind(&self) -> ContourKind {
        self.kind
    }

    /// The points, x and y each; the last is joined to the first.
    pub fn points(&self) -> &'a [[i32; 2]] {
        self.points
    }

    /// The signed doubled area, positive when counterclockwise.
    pub fn doubled_area(&self) -> i64 {
        let ahead = self.points.iter().cycle().skip(1);
        let cross = |(p, q): (&[i32; 2], &[i32; 2])| p[0] as i64 * q[1] as i64 - p[1] as i64 * q[0] as i64;
        self.points.iter().zip(ahead).map(cross).sum()
    }
}

/// The kept contours of a graph, hulls and holes, in the order in which they were found.
#[derive(Clone, Debug, Default, PartialEq, Eq)]
pub struct Contours {
    options: Options,
    /// As the options ask for it.
    written: Written,
    /// With all points, where `written` is without those on a straight line: on these holes are bound. Else empty.
    full: Written,
}

impl Contours {
    /// How many were kept.
    pub fn len(&self) -> usize {
        self.written.contours()
    }

    /// Whether none was kept.
    pub fn is_empty(&self) -> bool {
        self.len() == 0
    }

    /// The contour with this number.
    pub fn get(&self, number: usize) -> Option<Contour<'_>> {
        (number < self.len()).then(|| self.item(number))
    }

    /// All contours, in the order in which they were found.
    pub fn iter(&self) -> Iter<'_, Self> {
        Iter::new(self, self.len())
    }

    /// The points of each contour.
    pub fn to_vec(&self) -> Vec<Vec<[i32; 2]>> {
        self.iter().map(|contour| contour.points.to_vec()).collect()
    }

    /// Counts and areas, of the rejected walks too.
    pub fn counts(&self) -> Counts {
        self.written.counts
    }

    /// What became of each link: 1 skipped, 2 walked in a hole's contour, 3 in a hull's.
    pub fn states(&self) -> &[u8] {
        &self.written.state
    }

    /// The contour table with all points.
    pub(crate) fn full_table(&self) -> lent::Table<'_> {
        if self.options.preserve_output_collinear { self.written.table() } else { self.full.table() }
    }

    /// Finds the shape of every hole: i_overlay's `join_sorted_holes`. It is sought among all points, also where those on a
    /// straight line were left out of the contours.
    ///
    /// # Errors
    /// 12: a hole finds no shape. 10 and 11 are not met, since what extraction leaves passes these checks.
    pub fn bind_holes(self) -> Result<Shapes, Refusal> {
        let mut shapes = Shapes { contours: self, ..Shapes::default() };
        shapes.bind()?;
        Ok(shapes)
    }

    /// Extracts a graph in the place of what was found before: once as the options ask, and once more with all points if
    /// that was without some.
    pub(crate) fn extract(&mut self, lists: Lists<'_>, skipped: &[u8], options: Options) -> Result<(), Refusal> {
        self.options = options;
        self.full.clear();
        self.written.extract(lists, skipped, options)?;
        if !options.preserve_output_collinear {
            self.full.extract(lists, skipped, Options { preserve_output_collinear: true, ..options })?;
        }
        Ok(())
    }

    fn kind(&self, number: usize) -> ContourKind {
        if self.written.is_hole(number) { ContourKind::Hole } else { ContourKind::Hull }
    }
}

impl Numbered for Contours {
    type Item<'a> = Contour<'a>;

    fn item(&self, number: usize) -> Contour<'_> {
        Contour { number, kind: self.kind(number), points: self.written.points(number) }
    }
}

impl<'a> IntoIterator for &'a Contours {
    type Item = Contour<'a>;
    type IntoIter = Iter<'a, Contours>;

    fn into_iter(self) -> Self::IntoIter {
        self.iter()
    }
}

/// Shapes: each a hull with its holes.
#[derive(Clone, Debug, Default, PartialEq, Eq)]
pub struct Shapes {
    pub(crate) contours: Contours,
    bound: Bound,
    owner: Vec<u16>,
    /// Each shape's hull, by contour number.
    hulls: Vec<usize>,
}

impl Shapes {
    /// How many shapes there are.
    pub fn len(&self) -> usize {
        self.hulls.len()
    }

    /// Whether there is none.
    pub fn is_empty(&self) -> bool {
        self.hulls.is_empty()
    }

    /// The shape with this number.
    pub fn shape(&self, number: usize) -> Option<Shape<'_>> {
        (number < self.len()).then(|| self.item(number))
    }

    /// All shapes, in the order in which their hulls were found.
    pub fn iter(&self) -> Iter<'_, Self> {
        Iter::new(self, self.len())
    }

    /// The shapes as i_overlay nests them: each the points of its contours, the hull's first. Dropped holes are not
    /// there.
    pub fn to_vec(&self) -> Vec<Vec<Vec<[i32; 2]>>> {
        let mut shapes: Vec<_> = self.iter().map(|shape| vec![shape.hull().points.to_vec()]).collect();
        let holes = self.contours.iter().filter(|contour| contour.kind == ContourKind::Hole);
        for hole in holes {
            if let Some(shape) = shapes.get_mut(self.owner[hole.number] as usize) {
                shape.push(hole.points.to_vec());
            }
        }
        shapes
    }

    /// All contours, in the order in which they were found.
    pub fn contours(&self) -> &Contours {
        &self.contours
    }

    /// What a contour is, and to which shape it belongs: what [`lent::lookup`] says. Binding has made the owners, so
    /// nothing is checked again.
    pub fn role(&self, contour: usize) -> Option<Role> {
        let owner = *self.owner.get(contour)?;
        Some(match self.contours.kind(contour) {
            ContourKind::Hull => Role::Hull(owner),
            ContourKind::Hole if self.is_empty() => Role::Dropped,
            ContourKind::Hole => Role::Hole(owner),
        })
    }

    /// Each contour's shape, or 65,535 for a dropped hole.
    pub fn owners(&self) -> &[u16] {
        &self.owner
    }

    /// Holes that belong to no shape, since there is none.
    pub fn dropped_holes(&self) -> Iter<'_, Contours> {
        Iter::new(&self.contours, if self.is_empty() { self.contours.len() } else { 0 })
    }

    /// How many shapes there are, and how many holes were dropped.
    pub fn bound(&self) -> Bound {
        self.bound
    }

    /// Binds the contours, in the place of what was bound before.
    pub(crate) fn bind(&mut self) -> Result<(), Refusal> {
        let contours = self.contours.len();
        self.owner.resize(contours, 0);
        let direction = self.contours.options.output_direction;
        self.bound = lent::bind(self.contours.full_table(), direction, &mut self.owner)?;
        self.hulls.clear();
        self.hulls.extend((0..contours).filter(|&number| self.contours.kind(number) == ContourKind::Hull));
        Ok(())
    }
}

impl Numbered for Shapes {
    type Item<'a> = Shape<'a>;

    fn item(&self, number: usize) -> Shape<'_> {
        Shape { shapes: self, number }
    }
}

impl<'a> IntoIterator for &'a Shapes {
    type Item = Shape<'a>;
    type IntoIter = Iter<'a, Shapes>;

    fn into_iter(self) -> Self::IntoIter {
        self.iter()
    }
}

/// One shape: a hull with its holes.
#[derive(Clone, Copy, Debug)]
pub struct Shape<'a> {
    shapes: &'a Shapes,
    number: usize,
}

impl<'a> Shape<'a> {
    /// The shape's number: hulls are counted from 0, in the order in which they were found.
    pub fn number(&self) -> usize {
        self.number
    }

    /// The contour that bounds it from outside.
    pub fn hull(&self) -> Contour<'a> {
        self.shapes.contours.item(self.shapes.hulls[self.number])
    }

    /// The contours that bound it from inside, in the order in which they were found.
    pub fn holes(&self) -> impl Iterator<Item = Contour<'a>> + use<'a> {
        let (shapes, number) = (self.shapes, self.number);
        let is_ours = move |contour: &Contour<'_>| {
            contour.kind() == ContourKind::Hole && shapes.owner[contour.number()] as usize == number
        };
        shapes.contours.iter().filter(is_ours)
    }

    /// The signed doubled area: the hull's and the holes', which run the other way.
    pub fn doubled_area(&self) -> i64 {
        self.hull().doubled_area() + self.holes().map(|hole| hole.doubled_area()).sum::<i64>()
    }
}
