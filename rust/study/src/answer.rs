//! What a study answers, as it is shown and drawn: shapes, dropped holes and rejected patches, or a refusal with its
//! place.

use crate::view::misfits;
use guovdamas::lent::Counts;
use guovdamas::study::Study;
use guovdamas::{Contour, ContourDirection, ContourKind, Contours, Refusal, Shapes};

pub type Point = [i32; 2];

/// A walk that closed: a contour, or a patch that was rejected.
#[derive(Clone, Debug, PartialEq)]
pub struct Patch {
    /// In the order found: among the contours, or among the rejected patches.
    pub number: usize,
    pub is_hole: bool,
    pub points: Vec<Point>,
    /// Doubled; positive if it runs as the output direction asks of its kind.
    pub doubled_area: i128,
    /// The same in mm², as the library reports it: what is drawn. What is shown in words is exact, however large.
    pub area_mm2: f64,
}

impl Patch {
    pub fn new(number: usize, contour: &Contour<'_>, direction: ContourDirection) -> Self {
        let is_hole = contour.kind() == ContourKind::Hole;
        let is_turned = is_hole != direction.is_clockwise();
        let area = i128::from(contour.doubled_area());
        let doubled_area = if is_turned { -area } else { area };
        let area_mm2 = turned(contour.area_mm2(), is_turned);
        Self { number, is_hole, points: contour.points().to_vec(), doubled_area, area_mm2 }
    }

    pub fn kind(&self) -> &'static str {
        if self.is_hole { "hole" } else { "hull" }
    }
}

/// An area with its sign turned round, if so; 0 stays 0, and is not -0.
fn turned(area_mm2: f64, is_turned: bool) -> f64 {
    if is_turned { 0.0 - area_mm2 } else { area_mm2 }
}

#[derive(Clone, Debug, PartialEq)]
pub struct Shape {
    pub hull: Patch,
    pub holes: Vec<Patch>,
    /// The hull less its holes in mm², rounded once.
    pub net_mm2: f64,
}

impl Shape {
    /// The hull less its holes.
    pub fn doubled_net(&self) -> i128 {
        self.hull.doubled_area - doubled_sum(&self.holes)
    }
}

fn doubled_sum(patches: &[Patch]) -> i128 {
    patches.iter().map(|patch| patch.doubled_area).sum()
}

/// An answer that is no refusal.
#[derive(Clone, Debug, Default, PartialEq)]
pub struct Found {
    pub shapes: Vec<Shape>,
    /// All shapes in mm², rounded once.
    pub net_mm2: f64,
    /// Holes without a shape, since there is none.
    pub dropped: Vec<Patch>,
    /// Walks below the minimum.
    pub rejected: Vec<Patch>,
    /// Shapes and dropped holes are without their straight points.
    pub straight_dropped: bool,
}

impl Found {
    /// What is written: hulls, holes and dropped holes.
    pub fn contours(&self) -> impl Iterator<Item = &Patch> {
        let shapes = self.shapes.iter().flat_map(|Shape { hull, holes, .. }| [hull].into_iter().chain(holes));
        shapes.chain(&self.dropped)
    }

    /// All shapes, each less its holes.
    pub fn doubled_net(&self) -> i128 {
        self.shapes.iter().map(Shape::doubled_net).sum()
    }

    pub fn doubled_dropped(&self) -> i128 {
        doubled_sum(&self.dropped)
    }

    /// Rejected hulls, and rejected holes.
    pub fn doubled_rejected(&self) -> [i128; 2] {
        [false, true].map(|holes| {
            let ours = self.rejected.iter().filter(|patch| patch.is_hole == holes);
            ours.map(|patch| patch.doubled_area).sum()
        })
    }
}

/// What a refusal speaks of.
#[derive(Clone, Debug, PartialEq)]
pub enum Place {
    /// The graph as a whole.
    Whole,
    Link(usize),
    Nodes(Vec<usize>),
    Contour(Patch),
}

#[derive(Clone, Debug, PartialEq)]
pub struct Refused {
    pub refusal: Refusal,
    pub place: Place,
}

#[derive(Clone, Debug, PartialEq)]
pub enum Answer {
    Found(Found),
    Refused(Refused),
}

/// Asks the library. The error, in words, is one of this tool or of the library, and of no study.
pub fn answer(study: &Study) -> Result<Answer, String> {
    match study.extract_shapes() {
        Ok(shapes) => found(study, &shapes).map(Answer::Found),
        Err(refusal) => Ok(Answer::Refused(Refused { refusal, place: place(study, refusal) })),
    }
}

fn place(study: &Study, refusal: Refusal) -> Place {
    let at = refusal.place() as usize;
    match refusal.number() {
        3 | 4 | 8 | 9 => Place::Link(at),
        5 => Place::Nodes(misfits(study)),
        6 | 7 => Place::Nodes(vec![at]),
        12 => match study.extract_contours().ok().as_ref().and_then(|contours| contours.get(at)) {
            Some(contour) => Place::Contour(Patch::new(at, &contour, study.options.output_direction)),
            None => Place::Whole,
        },
        _ => Place::Whole,
    }
}

fn found(study: &Study, shapes: &Shapes) -> Result<Found, String> {
    let direction = study.options.output_direction;
    let patch = |contour: Contour<'_>| Patch::new(contour.number(), &contour, direction);
    let net = |area_mm2: f64| turned(area_mm2, direction.is_clockwise());
    let shape = |shape: guovdamas::Shape<'_>| Shape {
        hull: patch(shape.hull()),
        holes: shape.holes().map(patch).collect(),
        net_mm2: net(shape.area_mm2()),
    };
    Ok(Found {
        shapes: shapes.iter().map(shape).collect(),
        net_mm2: net(shapes.area_mm2()),
        dropped: shapes.dropped_holes().map(patch).collect(),
        rejected: rejected(study, shapes.contours().counts())?,
        straight_dropped: !study.options.preserve_output_collinear,
    })
}

/// The library counts rejected walks and does not hand them out. A rejected walk changes no other (rule 7), so with
/// minimum 0 the same walks come, all of them kept: those below the minimum are the rejected ones. All their points are
/// shown, since none is dropped from what is not written.
fn rejected(study: &Study, counts: Counts) -> Result<Vec<Patch>, String> {
    let mut all = study.clone();
    all.options.min_output_area = 0;
    all.options.preserve_output_collinear = true;
    let all: Contours = all.extract_contours().map_err(|refusal| format!("with minimum 0: {refusal}"))?;
    let minimum = study.options.min_output_area;
    let below: Vec<Contour<'_>> =
        all.iter().filter(|contour| contour.doubled_area().unsigned_abs() / 2 < minimum).collect();
    let area: i64 = below.iter().map(Contour::doubled_area).sum();
    if (below.len(), area) != (counts.rejected as usize, counts.rejected_area) {
        return Err(format!("{} walks of doubled area {area} are below the minimum; counted: {counts:?}", below.len()));
    }
    let direction = study.options.output_direction;
    Ok(below.iter().enumerate().map(|(number, contour)| Patch::new(number, contour, direction)).collect())
}
