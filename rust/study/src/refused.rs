//! The picture of a refused study: its links with their filled sides, the place in red, the walk as far as it came.

use crate::answer::{Place, Point, Refused};
use crate::draw::{INK, draw_skipped, draw_spot, skipped_edges, skipped_entry};
use crate::label::Labels;
use crate::sheet::{Entry, Key, Sheet};
use crate::show::{NODES, place_words};
use crate::stuck::{Stuck, stuck_walk};
use crate::svg::{Edge, Pixel, Svg, length};
use crate::view::{Frame, Link, links, nodes, points_at};
use guovdamas::study::Study;

const RED: &str = "#cc0000";
const PLACE: &str = "fill=\"none\" stroke=\"#cc0000\" stroke-width=\"2.5\"";
const HOLE: &str = "fill=\"#ffdddd\" stroke=\"#cc0000\" stroke-width=\"2.5\"";
const LINKS: &str = "fill=\"none\" stroke=\"#444444\" stroke-width=\"1.2\"";
const TICKS: &str = "fill=\"none\" stroke=\"#2a8a2a\" stroke-width=\"2\"";
const WALK: &str = "fill=\"none\" stroke=\"#7fa8e8\" stroke-width=\"6\" stroke-linecap=\"round\"";
const ARROWS: &str = "fill=\"#1f55b0\"";
/// How far a tick reaches to the filled side.
const TICK: f64 = 7.0;
/// The links' numbers are drawn if there are no more links than this.
const NUMBERED: usize = 60;

/// What is drawn in red.
struct Marks {
    links: Vec<usize>,
    points: Vec<Point>,
    contour: Vec<Point>,
}

pub fn picture(title: &str, study: &Study, refused: &Refused) -> Result<String, String> {
    let links = links(study);
    let walk = stuck_walk(study, refused)?;
    let heading = format!("{title}: {}", refused.refusal);
    let entries = entries(study, &links, refused, walk.as_ref());
    let sheet = Sheet::new(Frame::in_bounds(&links), &heading, RED, entries);
    let marks = marks(study, &links, refused);
    let mut svg = Svg::default();
    if !marks.contour.is_empty() {
        svg.path([&sheet.ring(&marks.contour)[..]], true, HOLE);
    }
    if let Some(walk) = &walk {
        draw_walk(&mut svg, &sheet.ring(&walk.points));
    }
    draw_links(&mut svg, &sheet, &links, &marks);
    draw_names(&mut svg, &sheet, &links, refused);
    Ok(sheet.finish(svg))
}

fn marks(study: &Study, links: &[Link], refused: &Refused) -> Marks {
    let mut marks = Marks { links: Vec::new(), points: Vec::new(), contour: Vec::new() };
    match &refused.place {
        Place::Whole => {}
        Place::Link(link) => marks.links = vec![*link],
        Place::Nodes(at) => {
            marks.points = at.iter().flat_map(|&node| points_at(links, node)).collect();
            // of a list that does not fit no link is to be trusted
            if refused.refusal.number() != 5 {
                marks.links = at.iter().flat_map(|&node| nodes(study)[node]).map(|&entry| entry as usize).collect();
            }
        }
        Place::Contour(patch) => marks.contour = patch.points.clone(),
    }
    marks
}

fn entries(study: &Study, links: &[Link], refused: &Refused, walk: Option<&Stuck>) -> Vec<Entry> {
    let entry = |style: &str, words: &str| Entry { key: Key::Line(style.into()), words: words.into() };
    let mut entries = vec![entry(LINKS, "link"), entry(TICKS, "its filled side")];
    entries.extend(skipped_entry(links));
    entries.extend(place_words(study, &refused.place).lines().map(|line| entry(PLACE, line.trim())));
    if let Some(walk) = walk {
        let words = format!("the walk of a {}, from the dot to the ring and no farther", walk.kind());
        entries.push(entry(WALK, &words));
    }
    entries
}

fn draw_walk(svg: &mut Svg, way: &[Pixel]) {
    svg.path([way], false, WALK);
    for step in way.windows(2) {
        svg.path([&arrow(step[0], step[1])[..]], true, ARROWS);
    }
    if let (Some(&first), Some(&last)) = (way.first(), way.last()) {
        svg.circle(first, 6.0, ARROWS);
        svg.circle(last, 8.0, "fill=\"#ffffff\" stroke=\"#1f55b0\" stroke-width=\"2\"");
    }
}

/// The unit vector from p to q.
fn direction(p: Pixel, q: Pixel) -> Pixel {
    let length = length([q[0] - p[0], q[1] - p[1]]).max(f64::MIN_POSITIVE);
    [(q[0] - p[0]) / length, (q[1] - p[1]) / length]
}

fn middle([p, q]: Edge) -> Pixel {
    [(p[0] + q[0]) / 2.0, (p[1] + q[1]) / 2.0]
}

/// A head of an arrow, two thirds of the way.
fn arrow(p: Pixel, q: Pixel) -> [Pixel; 3] {
    let [x, y] = direction(p, q);
    let tip = [p[0] + (q[0] - p[0]) * 0.66, p[1] + (q[1] - p[1]) * 0.66];
    let back = |side: f64| [tip[0] - 10.0 * x - side * 5.0 * y, tip[1] - 10.0 * y + side * 5.0 * x];
    [tip, back(1.0), back(-1.0)]
}

/// From the middle of a link to its filled side: its left if its top is 1. On the picture, whose y points downward, the
/// left of x, y is y, -x.
fn tick(link: &Link, [p, q]: Edge) -> Edge {
    let [x, y] = direction(p, q);
    let side = if link.top == 1 { TICK } else { -TICK };
    let from = middle([p, q]);
    [from, [from[0] + side * y, from[1] - side * x]]
}

fn draw_links(svg: &mut Svg, sheet: &Sheet, links: &[Link], marks: &Marks) {
    let drawn: Vec<(&Link, Edge)> = links.iter().filter_map(|link| Some((link, sheet.edge(link)?))).collect();
    let walked = || drawn.iter().filter(|(link, _)| !link.is_skipped());
    draw_edges(svg, walked().map(|(_, edge)| *edge).collect(), LINKS);
    draw_skipped(svg, &skipped_edges(sheet, links));
    let marked = marks.links.iter().filter_map(|&link| sheet.edge(links.get(link)?));
    draw_edges(svg, marked.collect(), PLACE);
    draw_edges(svg, walked().map(|(link, edge)| tick(link, *edge)).collect(), TICKS);
    for &point in &marks.points {
        svg.circle(sheet.at(point), 7.0, PLACE);
    }
}

fn draw_edges(svg: &mut Svg, edges: Vec<Edge>, style: &str) {
    if !edges.is_empty() {
        svg.path(edges.iter().map(|edge| &edge[..]), false, style);
    }
}

/// The place's name with a leader line, then the links' numbers as far as there is room.
fn draw_names(svg: &mut Svg, sheet: &Sheet, links: &[Link], refused: &Refused) {
    let lines = links.iter().filter_map(|link| sheet.edge(link).map(|edge| [edge, tick(link, edge)])).flatten();
    let mut labels = Labels::new(sheet.area(), &[], lines.collect());
    for (from, name) in names(sheet, links, &refused.place) {
        draw_spot(svg, labels.beside(from, &name).as_ref(), RED);
    }
    for (k, link) in links.iter().enumerate().filter(|_| links.len() <= NUMBERED) {
        if let Some(edge) = sheet.edge(link).filter(|_| refused.place != Place::Link(k)) {
            draw_spot(svg, labels.close(middle(edge), &k.to_string()).as_ref(), INK);
        }
    }
}

/// What the refusal speaks of, by name, and where on the picture it is.
fn names(sheet: &Sheet, links: &[Link], place: &Place) -> Vec<(Pixel, String)> {
    let at = |point: Option<&Point>, name: String| point.map(|&point| (sheet.at(point), name));
    match place {
        Place::Whole => Vec::new(),
        Place::Link(k) => {
            let edge = links.get(*k).and_then(|link| sheet.edge(link));
            edge.map(|edge| (middle(edge), format!("link {k}"))).into_iter().collect()
        }
        Place::Nodes(nodes) => {
            let name = |&node: &usize| at(points_at(links, node).first(), format!("node {node}"));
            nodes.iter().take(NODES).filter_map(name).collect()
        }
        Place::Contour(patch) => at(patch.points.first(), format!("contour {}", patch.number)).into_iter().collect(),
    }
}
