//! `study draw`: shapes in colours that tell them apart, holes blank, rejected patches and skipped links as such.

use crate::answer::{Answer, Found, Patch, Shape, answer};
use crate::label::{Item, Labels, Spot};
use crate::refused;
use crate::sheet::{Entry, Key, Sheet};
use crate::show::rejected_words;
use crate::svg::{Anchor, Edge, Pixel, Svg};
use crate::units::{count, square_mm};
use crate::view::{Frame, Link, links};
use guovdamas::study::Study;

pub const INK: &str = "#222222";
const SKIPPED: &str = "fill=\"none\" stroke=\"#888888\" stroke-width=\"1.2\" stroke-dasharray=\"6 4\"";
const REJECTED: Colours = Colours { fill: [255, 205, 150], line: [190, 80, 0] };
const REJECTED_HOLE: Colours = Colours { fill: [255, 238, 217], ..REJECTED };
const DROPPED: Colours = Colours { fill: [236, 236, 236], line: [90, 90, 90] };
/// So many shapes, rejected patches and dropped holes, of each, have a line in the legend; the others share one.
const LISTED: usize = 40;
/// The radius of a contour's point, where the points are drawn.
const DOT: f64 = 3.0;
/// The legend tells each hole's area if a shape has no more than these.
const TOLD: usize = 2;

/// The picture of a study, found or refused.
pub fn study(title: &str, study: &Study) -> Result<String, String> {
    match answer(study)? {
        Answer::Found(answer) => Ok(found(title, &links(study), &answer)),
        Answer::Refused(answer) => refused::picture(title, study, &answer),
    }
}

/// The picture of an answer that is no refusal.
pub fn found(title: &str, links: &[Link], found: &Found) -> String {
    let heading = format!(
        "{title}: {}, {}, {}",
        sum(found.shapes.len(), "shape", &found.net_mm2.to_string()),
        rejected(found),
        sum(found.dropped.len(), "dropped hole", &square_mm(found.doubled_dropped())),
    );
    // a number and its unit are not parted by the end of a line
    let heading = heading.replace(" mm²", "\u{a0}mm²");
    let sheet = Sheet::new(Frame::of_links(links), &heading, INK, entries(links, found));
    let mut svg = Svg::default();
    for (number, Shape { hull, holes, .. }) in found.shapes.iter().enumerate() {
        let rings: Vec<Vec<Pixel>> = [hull].into_iter().chain(holes).map(|patch| sheet.ring(&patch.points)).collect();
        svg.path(rings.iter().map(Vec::as_slice), true, &shape_colours(number).style());
    }
    for hole in &found.dropped {
        svg.path([&sheet.ring(&hole.points)[..]], true, &DROPPED.style());
    }
    for patch in &found.rejected {
        svg.path([&sheet.ring(&patch.points)[..]], true, &rejected_colours(patch).style());
    }
    draw_points(&mut svg, &sheet, found);
    let skipped = skipped_edges(&sheet, links);
    draw_skipped(&mut svg, &skipped);
    draw_labels(&mut svg, &sheet, found, skipped);
    sheet.finish(svg)
}

/// The points that are left of the contours, where straight ones are dropped.
fn draw_points(svg: &mut Svg, sheet: &Sheet, found: &Found) {
    for &point in found.contours().filter(|_| found.straight_dropped).flat_map(|contour| &contour.points) {
        svg.circle(sheet.at(point), DOT, &format!("fill=\"{INK}\""));
    }
}

fn sum(number: usize, word: &str, area: &str) -> String {
    match number {
        0 => format!("no {word}"),
        _ => format!("{} of {area} mm²", count(number, word)),
    }
}

fn rejected(found: &Found) -> String {
    match found.rejected.len() {
        0 => "no rejected patch".into(),
        some => count(some, "rejected patch") + &rejected_words(found),
    }
}

pub fn skipped_edges(sheet: &Sheet, links: &[Link]) -> Vec<Edge> {
    links.iter().filter(|link| link.is_skipped()).filter_map(|link| sheet.edge(link)).collect()
}

pub fn draw_skipped(svg: &mut Svg, skipped: &[Edge]) {
    if !skipped.is_empty() {
        svg.path(skipped.iter().map(|edge| &edge[..]), false, SKIPPED);
    }
}

/// The legend's line for skipped links, if there are any.
pub fn skipped_entry(links: &[Link]) -> Option<Entry> {
    let skipped = links.iter().filter(|link| link.is_skipped()).count();
    let entry = Entry { key: Key::Line(SKIPPED.into()), words: count(skipped, "skipped link") };
    (skipped > 0).then_some(entry)
}

fn entries(links: &[Link], found: &Found) -> Vec<Entry> {
    let entry = |colours: Colours, words: String| Entry { key: Key::Patch(colours.style()), words };
    let mut entries: Vec<Entry> = Vec::new();
    for (number, shape) in found.shapes.iter().enumerate().take(LISTED) {
        entries.push(entry(shape_colours(number), shape_words(number, shape)));
    }
    entries.extend(rest(&found.shapes, "more shape", Shape::doubled_net));
    let groups = [(&found.rejected, "rejected"), (&found.dropped, "dropped")];
    for (patches, what) in groups {
        for patch in patches.iter().take(LISTED) {
            let colours = if what == "dropped" { DROPPED } else { rejected_colours(patch) };
            let Patch { number, area_mm2, .. } = patch;
            entries.push(entry(colours, format!("{what} {number}: {area_mm2} mm² ({})", patch.kind())));
        }
        entries.extend(rest(patches, &format!("more {what} patch"), |patch| patch.doubled_area));
    }
    entries.extend(skipped_entry(links));
    let mut totals = vec![format!("net in all: {} mm²", found.net_mm2)];
    if !found.rejected.is_empty() {
        totals.push(format!("rejected in all:{}", rejected_words(found).trim_start_matches(" of")));
    }
    if !found.dropped.is_empty() {
        totals.push(format!("dropped in all: {} mm²", square_mm(found.doubled_dropped())));
    }
    if found.straight_dropped {
        let points = found.contours().map(|contour| contour.points.len()).sum();
        totals.push(format!("{} left, straight ones dropped", count(points, "point")));
    }
    entries.extend(totals.into_iter().map(|words| Entry { key: Key::Nothing, words }));
    entries
}

fn shape_words(number: usize, shape: &Shape) -> String {
    let Shape { hull, holes, net_mm2 } = shape;
    let less = match holes.len() {
        0 => return format!("shape {number}: {net_mm2} mm²"),
        1..=TOLD => {
            let holes = holes.iter().map(|hole| format!("hole {}, {}", hole.number, hole.area_mm2));
            holes.collect::<Vec<_>>().join(", and ")
        }
        more => count(more, "hole"),
    };
    format!("shape {number}: {net_mm2} mm² (hull {} less {less})", hull.area_mm2)
}

/// One line for those that have none.
fn rest<T>(all: &[T], what: &str, doubled: impl Fn(&T) -> i128) -> Option<Entry> {
    let others = all.get(LISTED..).filter(|others| !others.is_empty())?;
    let area = square_mm(others.iter().map(doubled).sum());
    Some(Entry { key: Key::Nothing, words: format!("{}: {area} mm² in all", count(others.len(), what)) })
}

fn draw_labels(svg: &mut Svg, sheet: &Sheet, found: &Found, skipped: Vec<Edge>) {
    let mut items: Vec<Item> = Vec::new();
    let mut colours: Vec<String> = Vec::new();
    let mut label = |patch: &Patch, what: String, short: String, area_mm2: f64, colour: Colours| {
        let long = vec![what, format!("{area_mm2} mm²")];
        items.push(Item { ring: sheet.ring(&patch.points), long, short });
        colours.push(colour.line());
    };
    // those that come first are the first to get a leader line
    for patch in &found.rejected {
        let number = patch.number;
        label(patch, format!("rejected {number}"), format!("r{number}"), patch.area_mm2, REJECTED);
    }
    for (number, shape) in found.shapes.iter().enumerate() {
        label(&shape.hull, format!("shape {number}"), number.to_string(), shape.net_mm2, shape_colours(number));
    }
    for hole in &found.dropped {
        label(hole, format!("dropped hole {}", hole.number), format!("d{}", hole.number), hole.area_mm2, DROPPED);
    }
    for (number, shape) in found.shapes.iter().enumerate() {
        for hole in &shape.holes {
            let what = format!("hole {} of {number}", hole.number);
            label(hole, what, format!("h{}", hole.number), hole.area_mm2, DROPPED);
        }
    }
    let spots = Labels::new(sheet.area(), &items, skipped).place(&items);
    for (spot, colour) in spots.iter().zip(&colours) {
        draw_spot(svg, spot.as_ref(), colour);
    }
}

/// A label with its leader line.
pub fn draw_spot(svg: &mut Svg, spot: Option<&Spot>, colour: &str) {
    let Some(Spot { lines, size, rect, leader }) = spot else { return };
    if let Some(leader) = leader {
        svg.path([&leader[..]], false, &format!("fill=\"none\" stroke=\"{colour}\" stroke-width=\"0.8\""));
        svg.circle(leader[0], 1.8, &format!("fill=\"{colour}\""));
    }
    svg.text(lines, *rect, Anchor::Middle, *size, colour);
}

/// Red, green and blue of a patch's inside and of its line.
#[derive(Clone, Copy)]
pub struct Colours {
    fill: [u8; 3],
    line: [u8; 3],
}

impl Colours {
    fn style(&self) -> String {
        let fill = hexadecimal(self.fill);
        format!("fill=\"{fill}\" fill-rule=\"evenodd\" stroke=\"{}\" stroke-width=\"1.5\"", self.line())
    }

    fn line(&self) -> String {
        hexadecimal(self.line)
    }
}

fn hexadecimal([red, green, blue]: [u8; 3]) -> String {
    format!("#{red:02x}{green:02x}{blue:02x}")
}

fn rejected_colours(patch: &Patch) -> Colours {
    if patch.is_hole { REJECTED_HOLE } else { REJECTED }
}

/// A hue of its own for each shape, none near the orange of rejected patches or the red of a refusal's place: each is
/// the golden section of the range on from the last, so that neighbours differ.
fn shape_colours(number: usize) -> Colours {
    let part = (0.55 + number as f64 * 0.618_034).fract();
    let hue = 80.0 + 230.0 * part;
    Colours { fill: colour(hue, 0.6, 0.86), line: colour(hue, 0.65, 0.32) }
}

/// A colour by hue (in degrees), saturation and lightness.
fn colour(hue: f64, saturation: f64, lightness: f64) -> [u8; 3] {
    let most = saturation * lightness.min(1.0 - lightness);
    [0.0, 8.0, 4.0].map(|from: f64| {
        let k = (from + hue / 30.0) % 12.0;
        (255.0 * (lightness - most * (k - 3.0).min(9.0 - k).clamp(-1.0, 1.0))).round() as u8
    })
}
