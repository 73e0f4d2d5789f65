//! Where labels go: inside what they name where there is room, else beside it with a leader line, and never over one
//! another.

use crate::svg::{Edge, LINE, Pixel, Rect, distance, lines_width};

/// Sizes of letters that are tried.
pub const LARGE: f64 = 13.0;
pub const SMALL: f64 = 10.5;
/// Clear room round a label.
const CLEAR: f64 = 2.5;
/// How far from what it names a label with a leader line may stand.
const FAR: [f64; 8] = [16.0, 26.0, 38.0, 52.0, 70.0, 95.0, 130.0, 170.0];
/// And one without.
const CLOSE: [f64; 3] = [5.0, 8.0, 12.0];
/// So many labels with leader lines at the most: with more of them nothing could be told apart.
const LED: usize = 24;

/// What is to be labelled: a ring of points, the lines of its label, and one word for where there is little room.
pub struct Item {
    pub ring: Vec<Pixel>,
    pub long: Vec<String>,
    pub short: String,
}

/// A label that found its place.
#[derive(Clone, Debug)]
pub struct Spot {
    pub lines: Vec<String>,
    pub size: f64,
    pub rect: Rect,
    /// From what it names to the label, if that stands beside it.
    pub leader: Option<Edge>,
}

/// What is on the picture so far.
pub struct Labels {
    area: Rect,
    edges: Vec<Edge>,
    rings: Vec<Ring>,
    taken: Vec<Rect>,
    leaders: Vec<Edge>,
}

struct Ring {
    points: Vec<Pixel>,
    bounds: Rect,
    area: f64,
}

impl Ring {
    fn new(points: &[Pixel]) -> Self {
        let doubled: f64 = edges(points).map(|[p, q]| p[0] * q[1] - p[1] * q[0]).sum();
        Self { points: points.to_vec(), bounds: Rect::of(points), area: doubled.abs() }
    }

    fn holds(&self, [x, y]: Pixel) -> bool {
        let crosses =
            |&[p, q]: &Edge| (p[1] > y) != (q[1] > y) && x < p[0] + (y - p[1]) / (q[1] - p[1]) * (q[0] - p[0]);
        edges(&self.points).filter(crosses).count() % 2 == 1
    }
}

/// A ring's edges.
fn edges(ring: &[Pixel]) -> impl Iterator<Item = Edge> {
    ring.iter().zip(ring.iter().cycle().skip(1)).map(|(&p, &q)| [p, q])
}

fn bounds([p, q]: &Edge) -> Rect {
    Rect::of(&[*p, *q])
}

impl Labels {
    /// Labels within the area, none of them over the items' rings or the other lines.
    pub fn new(area: Rect, items: &[Item], lines: Vec<Edge>) -> Self {
        let rings: Vec<Ring> = items.iter().map(|item| Ring::new(&item.ring)).collect();
        let mut all = lines;
        all.extend(items.iter().flat_map(|item| edges(&item.ring)));
        Self { area, edges: all, rings, taken: Vec::new(), leaders: Vec::new() }
    }

    /// A place for each item's label, if it finds one.
    pub fn place(&mut self, items: &[Item]) -> Vec<Option<Spot>> {
        let grids: Vec<Grid> = (0..items.len()).map(|at| self.grid(at)).collect();
        let mut spots: Vec<Option<Spot>> =
            items.iter().zip(&grids).map(|(item, grid)| self.inside(item, grid)).collect();
        let outside: Vec<usize> = (0..items.len()).filter(|&at| spots[at].is_none()).take(LED).collect();
        for at in outside {
            let item = &items[at];
            let from = grids[at].places.first().map_or(item.ring[0], |place| place.1);
            let long = item.long.join(", ");
            spots[at] = self.beside(from, &long).or_else(|| self.beside(from, &item.short));
        }
        spots
    }

    /// The places inside a ring and in no lesser one, those with the most room first.
    fn grid(&self, at: usize) -> Grid {
        let ring = &self.rings[at];
        let near: Vec<Edge> = self.edges.iter().filter(|edge| touch(&bounds(edge), &ring.bounds)).copied().collect();
        let is_less = |other: usize| (self.rings[other].area, other) < (ring.area, at);
        let lesser: Vec<&Ring> = (0..self.rings.len())
            .filter(|&other| is_less(other) && touch(&self.rings[other].bounds, &ring.bounds))
            .map(|other| &self.rings[other])
            .collect();
        let steps = (400_000.0 / near.len().max(1) as f64).sqrt().clamp(6.0, 28.0) as usize;
        let [width, height] = ring.bounds.size();
        let place = |step: usize| {
            let part = |at: usize| (at as f64 + 0.5) / steps as f64;
            [ring.bounds.left + width * part(step % steps), ring.bounds.top + height * part(step / steps)]
        };
        let mut places: Vec<(f64, Pixel)> = (0..steps * steps)
            .map(place)
            .filter(|&place| ring.holds(place) && !lesser.iter().any(|other| other.holds(place)))
            .map(|place| (near.iter().map(|&edge| distance(place, edge)).fold(f64::INFINITY, f64::min), place))
            .collect();
        places.sort_by(|p, q| q.0.total_cmp(&p.0));
        Grid { near, places }
    }

    fn inside(&mut self, item: &Item, grid: &Grid) -> Option<Spot> {
        let short = vec![item.short.clone()];
        for (lines, size) in [(&item.long, LARGE), (&item.long, SMALL), (&short, LARGE), (&short, SMALL)] {
            let room = [lines_width(lines, size), LINE * size * lines.len() as f64];
            let has_height = |place: &&(f64, Pixel)| place.0 >= room[1] / 2.0;
            let rects = grid.places.iter().take_while(has_height).map(|&(_, place)| Rect::around(place, room));
            let is_free =
                |rect: &Rect| self.is_free(rect) && !grid.near.iter().any(|&edge| rect.grown(CLEAR).meets(edge));
            if let Some(rect) = { rects }.find(is_free) {
                self.taken.push(rect);
                return Some(Spot { lines: lines.clone(), size, rect, leader: None });
            }
        }
        None
    }

    /// Within the area, and over no other label.
    fn is_free(&self, rect: &Rect) -> bool {
        self.area.holds(rect) && !self.taken.iter().any(|other| other.overlaps(&rect.grown(CLEAR)))
    }

    /// A label as near as can be, with a leader line; on blank ground if there is some.
    pub fn beside(&mut self, from: Pixel, words: &str) -> Option<Spot> {
        let spot = self.round(from, words, &FAR)?;
        let leader = [from, nearest(&spot.rect, from)];
        self.leaders.push(leader);
        Some(Spot { leader: Some(leader), ..spot })
    }

    /// A label so near that it needs no leader line.
    pub fn close(&mut self, from: Pixel, words: &str) -> Option<Spot> {
        self.round(from, words, &CLOSE)
    }

    fn round(&mut self, from: Pixel, words: &str, distances: &[f64]) -> Option<Spot> {
        let lines = vec![words.to_string()];
        let room = [lines_width(&lines, SMALL), LINE * SMALL];
        let rects: Vec<Rect> = distances.iter().flat_map(|&far| rects_round(from, far, room)).collect();
        let is_clear = |rect: &&Rect| {
            let leader = [from, nearest(rect, from)];
            self.is_free(rect)
                && !self.edges.iter().chain(&self.leaders).any(|&edge| rect.grown(CLEAR).meets(edge))
                && !self.taken.iter().any(|other| other.meets(leader))
                && !self.leaders.iter().any(|&other| cross(other, leader))
        };
        let is_blank = |rect: &&Rect| !self.rings.iter().any(|ring| ring.holds(rect.centre()));
        let rect = *rects.iter().filter(is_clear).find(is_blank).or_else(|| rects.iter().find(is_clear))?;
        self.taken.push(rect);
        Some(Spot { lines, size: SMALL, rect, leader: None })
    }
}

/// Places for one item's label, with their distance from the nearest line.
struct Grid {
    near: Vec<Edge>,
    places: Vec<(f64, Pixel)>,
}

/// Also true of boxes without width or height, as an upright line's.
fn touch(p: &Rect, q: &Rect) -> bool {
    p.left <= q.right && q.left <= p.right && p.top <= q.bottom && q.top <= p.bottom
}

/// Boxes round a point, their middles on the sides of a box, which is so much larger than they are.
fn rects_round(from: Pixel, far: f64, room: [f64; 2]) -> impl Iterator<Item = Rect> {
    let parts = [0.0, -0.4, 0.4, -0.8, 0.8];
    let directions = parts.into_iter().flat_map(|part| [[1.0, part], [-1.0, part], [part, -1.0], [part, 1.0]]);
    let centre = move |direction: Pixel| [0, 1].map(|axis| from[axis] + direction[axis] * (far + room[axis] / 2.0));
    directions.map(move |direction| Rect::around(centre(direction), room))
}

/// Whether each edge has the other's ends on both of its sides.
fn cross(p: Edge, q: Edge) -> bool {
    let side = |[a, b]: Edge, c: Pixel| (b[0] - a[0]) * (c[1] - a[1]) - (b[1] - a[1]) * (c[0] - a[0]);
    let parts = |edge: Edge, other: Edge| side(edge, other[0]) * side(edge, other[1]) < 0.0;
    parts(p, q) && parts(q, p)
}

/// The point of a box that is nearest to a point.
fn nearest(rect: &Rect, [x, y]: Pixel) -> Pixel {
    [x.clamp(rect.left, rect.right), y.clamp(rect.top, rect.bottom)]
}
