//! Reads tables; tests/tables/README.md says what each word means.

use crate::input::{Input, Link, REPORTED};
use crate::{Case, Run, made};
use reading::Side;
use reading::geometry::Point;
use reading::graph::Graph;
use std::collections::BTreeMap;
use std::fmt::Write;
use std::path::PathBuf;
use std::str::FromStr;

/// Every table, by the name of its file.
pub const TABLES: [&str; 9] =
    ["checks", "walks", "turns", "straight", "contours", "anchors", "lookups", "reports", "binding"];

/// tests/tables/NAME.ENDING
pub fn file(name: &str, ending: &str) -> PathBuf {
    PathBuf::from(env!("CARGO_MANIFEST_DIR")).join("../../tests/tables").join(name).with_extension(ending)
}

/// The cases of a table.
pub fn read(name: &str) -> Vec<Case> {
    let path = file(name, "table");
    let text = std::fs::read_to_string(&path).unwrap_or_else(|error| panic!("{}: {error}", path.display()));
    parse(&text, &path.display().to_string())
}

/// What one side answers to a table, as it is stored.
pub fn answers(cases: &[Case], side: Side) -> String {
    let mut out = String::new();
    for case in cases {
        writeln!(out, "{}", case.title).expect("strings take all");
        for outcome in case.ask(side) {
            outcome.to_string().lines().for_each(|line| writeln!(out, "  {line}").expect("strings take all"));
        }
    }
    out
}

/// One line's words, and where it stands.
struct Words<'a> {
    place: String,
    words: Vec<&'a str>,
}

impl Words<'_> {
    fn fault(&self, what: &str) -> ! {
        panic!("{}: {what}: {}", self.place, self.words.join(" "))
    }

    fn word(&self, at: usize) -> &str {
        self.words.get(at).copied().unwrap_or_else(|| self.fault("a word is missing"))
    }

    fn number<T: FromStr>(&self, at: usize) -> T {
        self.word(at).parse().unwrap_or_else(|_| self.fault("no such number"))
    }

    fn numbers<T: FromStr>(&self, from: usize) -> Vec<T> {
        (from..self.words.len()).map(|at| self.number(at)).collect()
    }

    fn points(&self, from: usize) -> Vec<Point> {
        let numbers: Vec<i32> = self.numbers(from);
        if numbers.len() % 2 == 1 {
            self.fault("a point lacks its y");
        }
        (0..numbers.len() / 2).map(|position| Point::in_list(&numbers, position)).collect()
    }
}

/// What is being described: links are numbered once no more of them come.
#[derive(Default)]
struct Block {
    links: Vec<Link>,
    has_nodes: bool,
    input: Input,
}

impl Block {
    /// Numbers the links that have come.
    fn number_links(&mut self) {
        if !self.links.is_empty() {
            self.input.graph = Graph::of_links(&std::mem::take(&mut self.links));
            self.input.state.resize(self.input.graph.links(), 0);
        }
    }

    fn finished(mut self) -> Input {
        self.number_links();
        self.input
    }

    fn take(&mut self, line: &Words<'_>, named: &BTreeMap<String, Input>) {
        if line.word(0) == "link" {
            return self.link(line);
        }
        self.number_links();
        let input = &mut self.input;
        match line.word(0) {
            "of" => {
                let Some(other) = named.get(line.word(1)) else { line.fault("no such graph or table") };
                (input.graph, input.state) = (other.graph.clone(), other.state.clone());
                (input.table, input.owner) = (other.table.clone(), other.owner.clone());
            }
            "strip" => self.links = made::strip(line.number(1)),
            "squares" => self.links = made::squares(line.number(1)),
            "star" => self.links = made::star(line.number(1)),
            "lists" => match line.word(1) {
                "falling" => made::falling(&mut input.graph),
                "mixed" => made::mixed(&mut input.graph),
                _ => line.fault("no such order"),
            },
            "node" => {
                if !std::mem::replace(&mut self.has_nodes, true) {
                    (input.graph.start, input.graph.list) = (vec![0], Vec::new());
                }
                input.graph.push_node(&line.numbers(1));
            }
            "skip" => line.numbers(1).into_iter().for_each(|link: usize| input.state[link] = 1),
            "hull" | "hole" => input.table.push(&line.points(1), line.word(0) == "hole"),
            "zigzag" => made::zigzag(&mut input.table, line.number(1)),
            "boxes" => made::boxes(&mut input.table, line.number(1), line.number(2)),
            "petals" => made::petals(&mut input.table, line.number(1)),
            "direction" | "minimum" | "straight" => setting(input, line),
            "look" => input.look = line.numbers(1),
            "room" => room(input, line),
            "set" | "give" | "fill" | "add" | "cut" => list(input, line),
            _ => line.fault("no such word"),
        }
    }

    /// `link AX AY BX BY TOP`
    fn link(&mut self, line: &Words<'_>) {
        if line.words.len() != 6 {
            line.fault("a link has four coordinates and a top");
        }
        self.links.push(([line.number(1), line.number(2)], [line.number(3), line.number(4)], line.number(5)));
    }
}

/// `direction CHOICE`, `minimum N ..`, `straight CHOICE`
fn setting(input: &mut Input, line: &Words<'_>) {
    match (line.word(0), line.word(1)) {
        ("direction", "counterclockwise") => input.clockwise = vec![false],
        ("direction", "clockwise") => input.clockwise = vec![true],
        ("direction", "both") => input.clockwise = vec![false, true],
        ("minimum", _) => input.minimum = line.numbers(1),
        ("straight", "dropped") => input.drop_straight = vec![true],
        ("straight", "both") => input.drop_straight = vec![false, true],
        _ => line.fault("no such setting"),
    }
}

/// `room LIST LENGTH`
fn room(input: &mut Input, line: &Words<'_>) {
    let (room, length) = (&mut input.room, Some(line.number(2)));
    match line.word(1) {
        "points" => room.points = length,
        "contours" => (room.first, room.len, room.kind) = (length, length, length),
        "first" => room.first = length,
        "len" => room.len = length,
        "kind" => room.kind = length,
        "owners" => room.owners = length,
        "reports" => room.reports = [length; 5],
        word => match REPORTED.iter().position(|list| *list == word) {
            Some(list) => room.reports[list] = length,
            None => line.fault("no such room"),
        },
    }
}

/// A change of one list, by its name.
fn list(input: &mut Input, line: &Words<'_>) {
    let Input { graph, table, .. } = input;
    match line.word(1) {
        "ax" => change(&mut graph.ax, line),
        "ay" => change(&mut graph.ay, line),
        "bx" => change(&mut graph.bx, line),
        "by" => change(&mut graph.by, line),
        "a_id" => change(&mut graph.a_id, line),
        "b_id" => change(&mut graph.b_id, line),
        "top" => change(&mut graph.top, line),
        "start" => change(&mut graph.start, line),
        "list" => change(&mut graph.list, line),
        "state" => change(&mut input.state, line),
        "points" => change(&mut table.points, line),
        "first" => change(&mut table.first, line),
        "len" => change(&mut table.len, line),
        "kind" => change(&mut table.kind, line),
        "owner" => change(&mut input.owner, line),
        _ => line.fault("no such list"),
    }
}

/// `set LIST AT VALUE`, `give LIST VALUE..`, `fill LIST COUNT VALUE`, `add LIST VALUE..`, `cut LIST LENGTH`
fn change<T: Clone + FromStr>(list: &mut Vec<T>, line: &Words<'_>) {
    match line.word(0) {
        "set" => match list.get_mut(line.number::<usize>(2)) {
            Some(element) => *element = line.number(3),
            None => line.fault("the list is shorter"),
        },
        "give" => *list = line.numbers(2),
        "fill" => *list = vec![line.number(3); line.number(2)],
        "add" => list.extend(line.numbers(2)),
        _ => list.truncate(line.number(2)),
    }
}

/// `run WHAT`
fn asked(line: &Words<'_>) -> Run {
    match line.word(1) {
        "extract" => Run::Extract,
        "bind" => Run::Bind,
        "lookup" => Run::Lookup,
        "report" => Run::Report,
        _ => line.fault("no such run"),
    }
}

/// Which block a line stands in.
enum Place {
    Head,
    Named(String),
    Case(String),
}

fn parse(text: &str, path: &str) -> Vec<Case> {
    let mut run = None;
    let mut head = Input::default();
    let mut named = BTreeMap::new();
    let mut cases = Vec::new();
    let mut place = Place::Head;
    let mut block = Block::default();
    for (number, line) in (1..).zip(text.lines().chain(["end"])) {
        let words: Vec<&str> = line.split_whitespace().collect();
        let line = Words { place: format!("{path}:{number}"), words };
        let next = match line.words.first() {
            None => continue,
            Some(word) if word.starts_with('#') => continue,
            Some(&"run") => {
                run = Some(asked(&line));
                continue;
            }
            Some(&("graph" | "table")) => Place::Named(line.word(1).into()),
            Some(&"case") => Place::Case(line.words[1..].join(" ")),
            Some(&"end") => Place::Head,
            Some(_) => {
                block.take(&line, &named);
                continue;
            }
        };
        let input = std::mem::take(&mut block).finished();
        match std::mem::replace(&mut place, next) {
            Place::Head => head = input,
            Place::Named(name) => {
                named.insert(name, input);
            }
            Place::Case(title) => {
                let Some(run) = run else { line.fault("no line `run` stands before this case's end") };
                cases.push(Case { title, run, input });
            }
        }
        block.input = head.clone();
    }
    cases
}
