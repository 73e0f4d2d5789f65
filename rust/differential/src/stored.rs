//! The stored sample: graphs as the program's file in hexadecimal, each with the text's answer in the program's words, so
//! that the text need not be at hand to compare with it.

use crate::compare::{Expected, TextAnswer, ask_text, expected};
use crate::sides::by;
use crate::tally::settings;
use generators::planar::FAMILIES;
use generators::rng::Rng;
use generators::{Sample, planar};
use reading::READING;
use reading::file::{Study, encode};
use reading::geometry::Point;
use reading::walk::{Scan, walks};
use std::fmt::Write;
use text::Run;

/// One stored case.
#[derive(Clone, Debug, PartialEq, Eq)]
pub struct Case {
    pub file: Vec<u8>,
    pub answer: String,
}

/// What stands between the lines of a stored answer, which is one line.
const BETWEEN: &str = "; ";

/// Reads the sample: a line `graph` with the file, then the answer on a line.
pub fn parse(text: &str) -> Vec<Case> {
    let case = |(file, answer): (&str, &str)| {
        let digits = file.strip_prefix("graph ").expect("a case begins with its graph");
        let bytes = digits.as_bytes().chunks_exact(2).map(|pair| {
            let pair = std::str::from_utf8(pair).expect("hexadecimal digits");
            u8::from_str_radix(pair, 16).expect("hexadecimal digits")
        });
        Case { file: bytes.collect(), answer: format!("{}\n", answer.trim_end().replace(BETWEEN, "\n")) }
    };
    let (files, answers) = (text.lines().step_by(2), text.lines().skip(1).step_by(2));
    files.zip(answers).map(case).collect()
}

/// Most links of a stored graph.
const MAX_STORED: usize = 40;

/// Asks the text about `count` small graphs of its domain, from every family, and writes the sample. Half of them have holes
/// whose shape must be searched; in one of eight such a hole passes its anchor point more than once.
pub fn write(count: usize) -> String {
    let mut out = String::new();
    let mut seed = 0;
    let mut written = 0;
    while written < count {
        let mut rng = Rng::new(seed ^ 99 << 32);
        let family = FAMILIES[seed as usize % FAMILIES.len()];
        seed += 1;
        let size = rng.choose(&[2, 3, 4, 5]);
        let sample = planar::sample(family, size, &mut rng);
        let choices = settings(&sample, &mut rng);
        let settings = rng.choose(&choices);
        let outcome = by(READING, &sample, settings).expect("planar graphs are walked");
        let walks = walks(&sample.graph, &sample.state, settings, Scan::Stays).expect("planar graphs are walked");
        let expected = expected(&walks, &outcome, settings.clockwise);
        let is_wanted = match written % 8 {
            7 => expected == Expected::Equality { revisited: true },
            1 | 3 | 5 => outcome.hulls() > 1 && outcome.contours.len() > outcome.hulls(),
            _ => true,
        };
        if (1..=MAX_STORED).contains(&sample.graph.links()) && is_wanted && expected.is_equality() {
            let mut run = Run::new(&sample.graph, &sample.state, settings, rng.below(Run::RULES));
            let answer = print(&ask_text(&mut run));
            let Sample { graph, state } = sample;
            let file = encode(&Study { settings, graph, state });
            let digits: String = file.iter().map(|byte| format!("{byte:02x}")).collect();
            let answer = answer.trim_end().replace('\n', BETWEEN);
            write!(out, "graph {digits}\n{answer}\n").expect("strings take all");
            written += 1;
        }
    }
    out
}

/// The text's answer as the program prints one.
pub fn print(text: &TextAnswer) -> String {
    let shapes = text.shapes.as_ref().expect("the text does not panic in its domain");
    let points: usize = text.contours.iter().map(Vec::len).sum();
    let dropped = if shapes.is_empty() { text.contours.len() } else { 0 };
    let mut out =
        format!("contours {} shapes {} points {points} dropped {dropped}\n", text.contours.len(), shapes.len());
    for (number, contour) in text.contours.iter().enumerate() {
        let (role, owner) = role(shapes, contour);
        writeln!(out, "{number} {role} {owner} {}", contour.len()).expect("strings take all");
        for Point { x, y } in contour {
            writeln!(out, "{x} {y}").expect("strings take all");
        }
    }
    out
}

/// Where a contour stands among the shapes: no two are equal, since no link is walked twice.
fn role(shapes: &[Vec<Vec<Point>>], contour: &[Point]) -> (&'static str, usize) {
    let owner = |shape: &Vec<Vec<Point>>| shape.iter().any(|other| other == contour);
    match shapes.iter().position(owner) {
        Some(shape) if shapes[shape][0] == contour => ("hull", shape),
        Some(shape) => ("hole", shape),
        None => ("dropped", 65_535),
    }
}
