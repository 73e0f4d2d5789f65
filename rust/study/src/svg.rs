//! SVG to be written: lines and texts in pixels, and the room that a text takes.

use std::fmt::Write;

/// x to the right, y downward.
pub type Pixel = [f64; 2];

/// A line of text is this high, and its letters stand so much of it below the line's top.
pub const LINE: f64 = 1.2;
const BASE: f64 = 0.95;

/// What is in the picture, in the order in which it is drawn.
#[derive(Default)]
pub struct Svg {
    body: String,
}

/// Where a text begins.
#[derive(Clone, Copy, Debug, PartialEq, Eq)]
pub enum Anchor {
    Left,
    Middle,
}

impl Svg {
    /// Rings or, if not closed, lines, as one path; `style` is its further attributes.
    pub fn path<'a>(&mut self, lines: impl IntoIterator<Item = &'a [Pixel]>, closed: bool, style: &str) {
        let end = if closed { "Z" } else { "" };
        let line = |line: &[Pixel]| {
            let points: Vec<String> = line.iter().map(|&[x, y]| format!("{} {}", px(x), px(y))).collect();
            format!("M{}{end}", points.join("L"))
        };
        let lines: String = lines.into_iter().map(line).collect();
        writeln!(self.body, "<path d=\"{lines}\" {style}/>").expect("strings take all");
    }

    pub fn circle(&mut self, [x, y]: Pixel, radius: f64, style: &str) {
        writeln!(self.body, "<circle cx=\"{}\" cy=\"{}\" r=\"{}\" {style}/>", px(x), px(y), px(radius))
            .expect("strings take all");
    }

    /// Lines of text one under the other, in a box that is as wide and high as they are, or wider.
    pub fn text(&mut self, lines: &[String], within: Rect, anchor: Anchor, size: f64, colour: &str) {
        let (x, attribute) = match anchor {
            Anchor::Left => (within.left, ""),
            Anchor::Middle => (within.centre()[0], " text-anchor=\"middle\""),
        };
        for (at, line) in lines.iter().enumerate() {
            let y = within.top + (LINE * at as f64 + BASE) * size;
            let (x, y, size, line) = (px(x), px(y), px(size), escaped(line));
            let place = format!("x=\"{x}\" y=\"{y}\" font-size=\"{size}\"{attribute}");
            writeln!(self.body, "<text {place} fill=\"{colour}\">{line}</text>").expect("strings take all");
        }
    }

    /// The whole picture, on white.
    pub fn finish(self, width: f64, height: f64) -> String {
        let (width, height) = (px(width.ceil()), px(height.ceil()));
        format!(
            "<svg xmlns=\"http://www.w3.org/2000/svg\" viewBox=\"0 0 {width} {height}\" width=\"{width}\" height=\"{height}\" \
             font-family=\"DejaVu Sans, Verdana, Arial, sans-serif\" stroke-linejoin=\"round\">\n\
             <rect width=\"{width}\" height=\"{height}\" fill=\"#ffffff\"/>\n{}</svg>\n",
            self.body
        )
    }
}

/// Two decimal places at most.
fn px(value: f64) -> String {
    let text = format!("{value:.2}");
    let text = text.trim_end_matches('0').trim_end_matches('.');
    if text == "-0" { "0".into() } else { text.into() }
}

fn escaped(text: &str) -> String {
    text.replace('&', "&amp;").replace('<', "&lt;").replace('>', "&gt;")
}

/// How wide a text is at the most, by the letters of DejaVu Sans: it is the widest of the usual ones.
pub fn text_width(text: &str, size: f64) -> f64 {
    let letter = |letter: char| match letter {
        'm' | 'w' | 'M' | 'W' | '@' | '%' => 1.0,
        'i' | 'j' | 'l' | 'I' | '\'' => 0.3,
        ' ' | '\u{a0}' | '.' | ',' | ':' | ';' => 0.34,
        'f' | 't' | 'r' | '(' | ')' | '-' | '/' | '²' => 0.42,
        'A'..='Z' => 0.79,
        ' '..='~' => 0.64,
        _ => 1.0,
    };
    size * text.chars().map(letter).sum::<f64>()
}

/// The widest of the lines.
pub fn lines_width(lines: &[String], size: f64) -> f64 {
    lines.iter().map(|line| text_width(line, size)).fold(0.0, f64::max)
}

/// Words in lines that are no wider than this; a word that is wider by itself is parted.
pub fn wrapped(text: &str, width: f64, size: f64) -> Vec<String> {
    let mut lines = vec![String::new()];
    for word in text.split(' ') {
        let mut line = lines.pop().unwrap_or_default();
        let longer = if line.is_empty() { word.to_string() } else { format!("{line} {word}") };
        if text_width(&longer, size) <= width {
            lines.push(longer);
            continue;
        }
        if !line.is_empty() {
            lines.push(std::mem::take(&mut line));
        }
        for letter in word.chars() {
            if !line.is_empty() && text_width(&format!("{line}{letter}"), size) > width {
                lines.push(std::mem::take(&mut line));
            }
            line.push(letter);
        }
        lines.push(line);
    }
    lines
}

/// A box with upright sides.
#[derive(Clone, Copy, Debug, PartialEq)]
pub struct Rect {
    pub left: f64,
    pub top: f64,
    pub right: f64,
    pub bottom: f64,
}

impl Rect {
    pub fn new([left, top]: Pixel, [width, height]: [f64; 2]) -> Self {
        Self { left, top, right: left + width, bottom: top + height }
    }

    pub fn around([x, y]: Pixel, [width, height]: [f64; 2]) -> Self {
        Self::new([x - width / 2.0, y - height / 2.0], [width, height])
    }

    /// The least one round these points.
    pub fn of(points: &[Pixel]) -> Self {
        let side = |axis: usize, pick: fn(f64, f64) -> f64, start: f64| {
            points.iter().map(|point| point[axis]).fold(start, pick)
        };
        let (low, high) = (f64::INFINITY, f64::NEG_INFINITY);
        Self {
            left: side(0, f64::min, low),
            top: side(1, f64::min, low),
            right: side(0, f64::max, high),
            bottom: side(1, f64::max, high),
        }
    }

    pub fn size(&self) -> [f64; 2] {
        [self.right - self.left, self.bottom - self.top]
    }

    pub fn centre(&self) -> Pixel {
        [(self.left + self.right) / 2.0, (self.top + self.bottom) / 2.0]
    }

    pub fn grown(&self, by: f64) -> Self {
        Self { left: self.left - by, top: self.top - by, right: self.right + by, bottom: self.bottom + by }
    }

    pub fn overlaps(&self, other: &Self) -> bool {
        self.left < other.right && other.left < self.right && self.top < other.bottom && other.top < self.bottom
    }

    pub fn holds(&self, other: &Self) -> bool {
        self.left <= other.left && other.right <= self.right && self.top <= other.top && other.bottom <= self.bottom
    }

    pub fn meets(&self, edge: Edge) -> bool {
        self.cut(edge).is_some()
    }

    /// The part of an edge that lies within: the edge is cut at each side in turn, and something must be left.
    pub fn cut(&self, [p, q]: Edge) -> Option<Edge> {
        let (mut from, mut to) = (0.0_f64, 1.0_f64);
        for (axis, low, high) in [(0, self.left, self.right), (1, self.top, self.bottom)] {
            let (start, step) = (p[axis], q[axis] - p[axis]);
            if step == 0.0 && (start < low || start > high) {
                return None;
            }
            if step != 0.0 {
                let (one, other) = ((low - start) / step, (high - start) / step);
                from = from.max(one.min(other));
                to = to.min(one.max(other));
            }
        }
        let at = |part: f64| [0, 1].map(|axis| p[axis] + part * (q[axis] - p[axis]));
        (from <= to).then(|| [at(from), at(to)])
    }
}

/// A straight line between two points.
pub type Edge = [Pixel; 2];

pub fn distance(point: Pixel, [p, q]: Edge) -> f64 {
    let along = [q[0] - p[0], q[1] - p[1]];
    let square = along[0] * along[0] + along[1] * along[1];
    let part = ((point[0] - p[0]) * along[0] + (point[1] - p[1]) * along[1]) / square;
    let part = if square > 0.0 { part.clamp(0.0, 1.0) } else { 0.0 };
    length([point[0] - p[0] - part * along[0], point[1] - p[1] - part * along[1]])
}

/// By operations that every machine does alike: pictures are compared to the last digit.
pub fn length([x, y]: Pixel) -> f64 {
    (x * x + y * y).sqrt()
}
