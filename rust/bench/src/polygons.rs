//! The polygons that are timed end to end, and who makes shapes of them: the text as it is, and the text that is
//! patched to call the library.

use crate::sides::SETTINGS;
use crate::timing::{Round, once};
use generators::polygons::{Contour, Polygons};
use generators::rng::Rng;
use reading::geometry::Point;
use std::f64::consts::TAU;

/// Polygons with a fill rule and an overlay rule, by their numbers.
pub struct Plan {
    pub name: &'static str,
    polygons: Polygons,
    fill: usize,
    rule: usize,
}

/// What is timed of each plan.
pub const STEPS: [&str; 3] = ["polygons to shapes", "split and graph alone", "extraction and binding alone"];

/// The front end of `text` or of `patched`, which have the same functions.
macro_rules! front {
    ($text:ident, $plan:expr) => {
        $text::Front::new(&$plan.polygons.subject, &$plan.polygons.clip, false)
    };
}

/// A round of each step.
macro_rules! rounds {
    ($text:ident, $plan:expr) => {{
        let &Plan { fill, rule, .. } = $plan;
        let (mut whole, mut graph) = (front!($text, $plan), front!($text, $plan));
        let mut kept = graph.kept(fill, rule).expect("there are edges");
        let shapes = once(move || whole.bound(fill, rule, SETTINGS));
        [shapes, once(move || graph.links(fill, rule)), once(move || kept.bound())]
    }};
}

impl Plan {
    /// By the patched text.
    pub fn patched(&self) -> [Round<'static>; 3] {
        rounds!(patched, self)
    }

    /// By the text as it is.
    pub fn text(&self) -> [Round<'static>; 3] {
        rounds!(text, self)
    }

    /// The links of the graph. Panics unless both make the same shapes of it.
    pub fn links(&self) -> usize {
        let &Plan { name, fill, rule, .. } = self;
        let (mut ours, mut theirs) = (front!(patched, self), front!(text, self));
        let shapes = [ours.overlay(fill, rule, SETTINGS), theirs.overlay(fill, rule, SETTINGS)];
        assert_eq!(shapes[0], shapes[1], "{name}: both make the same shapes");
        theirs.links(fill, rule)
    }
}

const EVEN_ODD: usize = 0;
const NON_ZERO: usize = 1;
const INTERSECT: usize = 2;
const UNION: usize = 3;

/// Graphs of some thousand links are made of these.
pub fn plans() -> [Plan; 2] {
    [
        of_bands("dose bands round six centres", [3, 2], 6, 60),
        of_patches("450 small overlapping polygons", 450, [60_000, 4500]),
    ]
}

/// The same kinds of polygons, few.
#[cfg(test)]
pub fn small() -> [Plan; 2] {
    [of_bands("few bands", [2, 1], 3, 12), of_patches("few polygons", 30, [4000, 4000])]
}

/// Bands of two doses, of which the second stands a little off the first; what lies in a band of both is asked for.
fn of_bands(name: &'static str, [columns, rows]: [i32; 2], levels: i32, corners: usize) -> Plan {
    let mut rng = Rng::new(1);
    let mut polygons = Polygons::default();
    for centre in 0..columns * rows {
        let centre = Point::new(centre % columns * 12_000, centre / columns * 12_000);
        let beside = Point::new(centre.x + 150, centre.y + 90);
        polygons.subject.extend(bands(centre, levels, corners, &mut rng));
        polygons.clip.extend(bands(beside, levels, corners, &mut rng));
    }
    Plan { name, polygons, fill: EVEN_ODD, rule: INTERSECT }
}

/// The levels of a dose round a centre: even-odd fills every second band between them.
fn bands(centre: Point, levels: i32, corners: usize, rng: &mut Rng) -> Vec<Contour> {
    let waves = waves(rng);
    (1..=levels).map(|level| ring(centre, 1000 * level, waves, corners)).collect()
}

/// Small polygons anywhere in a rectangle, by turns of the subject and of the clip; what any of them covers is asked for.
fn of_patches(name: &'static str, count: usize, [width, height]: [i32; 2]) -> Plan {
    let mut rng = Rng::new(2);
    let mut polygons = Polygons::default();
    for number in 0..count {
        let centre = Point::new(rng.within(0..=width), rng.within(0..=height));
        let (radius, corners) = (rng.within(200..=600), 4 + rng.below(5));
        let patch = ring(centre, radius, waves(&mut rng), corners);
        if number % 2 == 0 { &mut polygons.subject } else { &mut polygons.clip }.push(patch);
    }
    Plan { name, polygons, fill: NON_ZERO, rule: UNION }
}

/// Where a ring's slow wave and its quick wave begin.
fn waves(rng: &mut Rng) -> [f64; 2] {
    [0; 2].map(|_| rng.below(360) as f64 / 360.0 * TAU)
}

/// A wobbly ring, counterclockwise.
fn ring(centre: Point, radius: i32, [slow, quick]: [f64; 2], corners: usize) -> Contour {
    let corner = |number: usize| {
        let angle = number as f64 / corners as f64 * TAU;
        let reach = f64::from(radius) * (1.0 + 0.1 * (3.0 * angle + slow).cos() + 0.05 * (7.0 * angle + quick).cos());
        let along = |part: f64| (reach * part).round() as i32;
        Point::new(centre.x + along(angle.cos()), centre.y + along(angle.sin()))
    };
    (0..corners).map(corner).collect()
}
