//! Polygons to shapes by i_overlay 9.0.1's text, patched to call the library:
//! `cargo run -p integration --example overlay -- FILE RULE FILL [--clockwise] [--minimum N]`.
//!
//! FILE is text. After a line `subject` or `clip` come the closed contours of that side, one a line, as `x,y x,y x,y`: whole
//! numbers, either way round. Empty lines and lines that begin with # are skipped. RULE and FILL are names of [`RULES`] and
//! [`FILLS`]; N is in square units.
//!
//! Each shape is printed with its hull and its holes, then the totals. What is refused is said in one line on standard error,
//! and the status is 1.

use patched::{Front, Run};
use reading::Settings;
use reading::geometry::{Point, doubled_area};
use std::io::{self, Write};
use std::ops::RangeInclusive;
use std::process::ExitCode;
use std::{env, fs, iter, slice};

/// The overlay rules, by their numbers.
const RULES: [&str; Run::RULES] = ["subject", "clip", "intersect", "union", "difference", "inverse-difference", "xor"];

/// The fill rules, by their numbers.
const FILLS: [&str; Front::FILLS] = ["even-odd", "non-zero", "positive", "negative"];

/// What i_overlay's i32 engine takes; the library takes less, and says so.
const ENGINE: RangeInclusive<i32> = -(1 << 30)..=(1 << 30) - 1;

type Contour = Vec<Point>;

fn main() -> ExitCode {
    let arguments: Vec<String> = env::args().skip(1).collect();
    let words: Vec<&str> = arguments.iter().map(String::as_str).collect();
    match run(&words) {
        Ok(()) => ExitCode::SUCCESS,
        Err(why) => {
            eprintln!("overlay: {why}");
            ExitCode::FAILURE
        }
    }
}

fn run(words: &[&str]) -> Result<(), String> {
    let request = Request::of(words).ok_or_else(usage)?;
    let text = fs::read_to_string(request.file).map_err(|error| format!("{}: {error}", request.file))?;
    let answer = request.answer(&text)?;
    io::stdout().write_all(answer.as_bytes()).map_err(|error| format!("standard output: {error}"))
}

fn usage() -> String {
    let (rules, fills) = (RULES.join(", "), FILLS.join(", "));
    format!("usage: overlay FILE RULE FILL [--clockwise] [--minimum N]; rules: {rules}; fills: {fills}")
}

/// What is asked of which file.
pub struct Request<'a> {
    file: &'a str,
    rule: usize,
    fill: usize,
    settings: Settings,
}

impl<'a> Request<'a> {
    /// Of a command line's words; none if they cannot be understood.
    pub fn of(words: &[&'a str]) -> Option<Self> {
        let mut settings = Settings { clockwise: false, minimum: 0, drop_straight: false };
        let mut names = Vec::new();
        let mut words = words.iter();
        while let Some(&word) = words.next() {
            match word {
                "--clockwise" => settings.clockwise = true,
                "--minimum" => settings.minimum = words.next()?.parse().ok()?,
                name => names.push(name),
            }
        }
        let [file, rule, fill] = names[..] else { return None };
        let number = |names: &[&str], wanted| names.iter().position(|&name| name == wanted);
        Some(Self { file, rule: number(&RULES, rule)?, fill: number(&FILLS, fill)?, settings })
    }

    /// What is printed for the file's text, or why nothing is.
    pub fn answer(&self, text: &str) -> Result<String, String> {
        let polygons = parse(text)?;
        if !patched::AT_HAND {
            return Err("the given Rust text is not at hand (../shared/docs/src): nothing was patched".into());
        }
        Ok(printed(&self.shapes(&polygons).map_err(|refusal| refusal.to_string())?))
    }

    /// As `overlay` of the patched text, but a refusal is returned.
    fn shapes(&self, [subject, clip]: &[Vec<Contour>; 2]) -> Result<Vec<Vec<Contour>>, guovdamas::Refusal> {
        match Front::new(subject, clip, false).kept(self.fill, self.rule) {
            Some(mut graph) => {
                graph.set(self.settings);
                graph.try_extract_shapes()
            }
            None => Ok(Vec::new()),
        }
    }
}

/// The subject's contours and the clip's, or what is wrong with which line.
fn parse(text: &str) -> Result<[Vec<Contour>; 2], String> {
    let mut sides = [Vec::new(), Vec::new()];
    let mut side: Option<usize> = None;
    for (number, line) in (1..).zip(text.lines().map(str::trim)) {
        match (line, side) {
            ("subject", _) => side = Some(0),
            ("clip", _) => side = Some(1),
            _ if line.is_empty() || line.starts_with('#') => {}
            (_, Some(side)) => sides[side].push(contour(line).map_err(|fault| format!("line {number}: {fault}"))?),
            (_, None) => return Err(format!("line {number}: a line `subject` or `clip` comes first")),
        }
    }
    Ok(sides)
}

fn contour(line: &str) -> Result<Contour, String> {
    line.split_whitespace().map(point).collect()
}

fn point(word: &str) -> Result<Point, String> {
    let coordinate = |word: &str| word.parse().ok().filter(|number| ENGINE.contains(number));
    let point = word.split_once(',').and_then(|(x, y)| Some(Point::new(coordinate(x)?, coordinate(y)?)));
    point.ok_or_else(|| format!("{word} is no point; one is x,y with whole numbers from -2^30 to 2^30 - 1"))
}

/// A line for each shape and each of its contours, and one for the totals.
fn printed(shapes: &[Vec<Contour>]) -> String {
    let mut lines = Vec::new();
    for (number, shape) in shapes.iter().enumerate() {
        lines.push(format!("shape {number} area {}", area(shape)));
        let kinds = ["hull"].into_iter().chain(iter::repeat("hole"));
        lines.extend(kinds.zip(shape).map(|(kind, contour)| {
            let points = contour.iter().map(|point| format!(" {},{}", point.x, point.y)).collect::<String>();
            format!("{kind} {} points area {}:{points}", contour.len(), area(slice::from_ref(contour)))
        }));
    }
    let all = shapes.concat();
    let (holes, points) = (all.len() - shapes.len(), all.iter().map(Vec::len).sum::<usize>());
    lines.push(format!("shapes {} holes {holes} points {points} area {}", shapes.len(), area(&all)));
    lines.join("\n") + "\n"
}

/// Of hulls less their holes, which run the other way.
fn area(contours: &[Contour]) -> String {
    let doubled = contours.iter().map(|contour| doubled_area(contour)).sum::<i128>().abs();
    format!("{}{}", doubled / 2, if doubled % 2 == 0 { "" } else { ".5" })
}
