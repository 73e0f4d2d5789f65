//! The sheet that a picture is drawn on: a heading, the plot, a bar for the scale, and the legend.

use crate::answer::Point;
use crate::svg::{Anchor, Edge, LINE, Pixel, Rect, Svg, text_width, wrapped};
use crate::units::mm;
use crate::view::{Frame, Link};

const MARGIN: f64 = 16.0;
/// Round the plot, for labels that stand beside it.
const BESIDE: f64 = 36.0;
/// The most that the plot takes.
const PLOT: [f64; 2] = [820.0, 560.0];
/// The least width of the sheet within its margins.
const NARROWEST: f64 = 420.0;
const HEADING: f64 = 15.0;
const WORDS: f64 = 12.0;
/// A legend's key, and the room that it takes.
const KEY: [f64; 2] = [18.0, 11.0];
const KEY_ROOM: f64 = 26.0;
const ROW: f64 = 19.0;
const BETWEEN: f64 = 24.0;
/// The scale's bar is no longer than this, if it can be.
const BAR: f64 = 160.0;

/// What stands before a legend's words.
pub enum Key {
    /// A box in this style.
    Patch(String),
    /// A line in this style.
    Line(String),
    Nothing,
}

pub struct Entry {
    pub key: Key,
    pub words: String,
}

pub struct Sheet {
    heading: Vec<String>,
    colour: &'static str,
    entries: Vec<Entry>,
    width: f64,
    plot: Rect,
    frame: Frame,
    /// Pixels to a unit.
    scale: f64,
}

impl Sheet {
    pub fn new(frame: Option<Frame>, heading: &str, colour: &'static str, entries: Vec<Entry>) -> Self {
        let frame = frame.unwrap_or(Frame { least: [0, 0], greatest: [1, 1] });
        let extents = [0, 1].map(|axis| frame.extent(axis).max(1) as f64);
        let scale = (PLOT[0] / extents[0]).min(PLOT[1] / extents[1]);
        let size = extents.map(|extent| extent * scale);
        let widest = entries.iter().map(entry_width).fold(NARROWEST, f64::max);
        let width = widest.max(size[0] + 2.0 * BESIDE) + 2.0 * MARGIN;
        let heading = wrapped(heading, width - 2.0 * MARGIN, HEADING);
        let top = MARGIN + LINE * HEADING * heading.len() as f64 + BESIDE;
        let plot = Rect::new([(width - size[0]) / 2.0, top], size);
        Self { heading, colour, entries, width, plot, frame, scale }
    }

    /// A point of the graph: its y points upward, the picture's downward.
    pub fn at(&self, [x, y]: Point) -> Pixel {
        let apart = |from: i32, to: i32| (f64::from(to) - f64::from(from)) * self.scale;
        [self.plot.left + apart(self.frame.least[0], x), self.plot.top + apart(y, self.frame.greatest[1])]
    }

    /// A link, as far as it lies on the plot: one that is out of bounds may lead away from it.
    pub fn edge(&self, link: &Link) -> Option<Edge> {
        self.area().cut(link.ends.map(|end| self.at(end)))
    }

    pub fn ring(&self, points: &[Point]) -> Vec<Pixel> {
        points.iter().map(|&point| self.at(point)).collect()
    }

    /// The plot with the room beside it.
    pub fn area(&self) -> Rect {
        Rect { left: MARGIN, right: self.width - MARGIN, ..self.plot.grown(BESIDE - 4.0) }
    }

    /// The whole picture, from what is in the plot.
    pub fn finish(self, mut svg: Svg) -> String {
        let inner = Rect::new([MARGIN, MARGIN], [self.width - 2.0 * MARGIN, 0.0]);
        svg.text(&self.heading, inner, Anchor::Left, HEADING, self.colour);
        let top = self.plot.bottom + BESIDE;
        self.bar(&mut svg, top);
        let bottom = self.legend(&mut svg, top + ROW + 10.0);
        svg.finish(self.width, bottom + MARGIN)
    }

    /// The bar for the scale: 1, 2 or 5 of some power of ten.
    fn bar(&self, svg: &mut Svg, top: f64) {
        let lengths = (0..10).flat_map(|power| [1, 2, 5].map(|digit| digit * 10_i64.pow(power)));
        let units = { lengths }.take_while(|&units| units as f64 * self.scale <= BAR).last().unwrap_or(1);
        let (left, right, y) = (MARGIN, MARGIN + units as f64 * self.scale, top + ROW / 2.0);
        let ends = [left, right].map(|x| [[x, y - 4.0], [x, y + 4.0]]);
        let lines = [&[[left, y], [right, y]][..], &ends[0], &ends[1]];
        svg.path(lines, false, "fill=\"none\" stroke=\"#222222\" stroke-width=\"1.5\"");
        let words = format!("{} mm", mm(units));
        let room = [text_width(&words, WORDS), LINE * WORDS];
        svg.text(&[words], Rect::new([right + 8.0, y - room[1] / 2.0], room), Anchor::Left, WORDS, "#222222");
    }

    /// Draws the entries in columns, and says where they end.
    fn legend(&self, svg: &mut Svg, top: f64) -> f64 {
        let column = self.entries.iter().map(entry_width).fold(1.0, f64::max) + BETWEEN;
        let columns = (((self.width - 2.0 * MARGIN + BETWEEN) / column) as usize).max(1);
        let rows = self.entries.len().div_ceil(columns).max(1);
        for (at, Entry { key, words }) in self.entries.iter().enumerate() {
            let left = MARGIN + (at / rows) as f64 * column;
            let middle = top + (at % rows) as f64 * ROW + ROW / 2.0;
            let corner = Rect::new([left, middle - KEY[1] / 2.0], KEY);
            match key {
                Key::Patch(style) => svg.path([&corners(corner)[..]], true, style),
                Key::Line(style) => svg.path([&[[left, middle], [left + KEY[0], middle]][..]], false, style),
                Key::Nothing => {}
            }
            let room = [text_width(words, WORDS), LINE * WORDS];
            let rect = Rect::new([left + indent(key), middle - room[1] / 2.0], room);
            svg.text(std::slice::from_ref(words), rect, Anchor::Left, WORDS, "#222222");
        }
        top + rows as f64 * ROW
    }
}

fn indent(key: &Key) -> f64 {
    if matches!(key, Key::Nothing) { 0.0 } else { KEY_ROOM }
}

fn entry_width(entry: &Entry) -> f64 {
    indent(&entry.key) + text_width(&entry.words, WORDS)
}

fn corners(rect: Rect) -> [Pixel; 4] {
    [[rect.left, rect.top], [rect.right, rect.top], [rect.right, rect.bottom], [rect.left, rect.bottom]]
}
