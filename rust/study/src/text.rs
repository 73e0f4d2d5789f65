//! The text form of a study: `study dump` writes it, `study make` reads it. Its words are those of tests/tables.

use crate::view::{Link, links, nodes};
use guovdamas::study::Study;
use guovdamas::{ContourDirection, Graph, Options};
use reading::graph::Graph as Made;
use std::str::FromStr;

/// What `study --help` says of the form.
pub const FORM: &str = "\
The text has one thing a line; a line that begins with # is a comment. Links and nodes are numbered from 0.
  direction counterclockwise   or clockwise; counterclockwise if not said
  minimum N                    in square units; 0 if not said
  link AX AY BX BY TOP         a link from a to b; top is 1 where the left of a to b is filled, else 0
  skip LINK ..                 these links are skipped
  node LINK ..                 a node's list. If no line says one, nodes are made of the links' points, in point order,
                               with rising lists; the links' node ids are made so in any case
  set a_id LINK VALUE          another node id of a link's a; also b_id, and state
  give start 0, give list      no nodes at all, as two lines
";

/// The text of a study.
pub fn dump(study: &Study) -> String {
    let (links, nodes) = (links(study), nodes(study));
    let made = made(&links);
    let mut lines = vec![
        format!("direction {}", crate::show::direction(study)),
        format!("minimum {}", study.options.min_output_area),
    ];
    lines.extend(links.iter().map(|link| {
        let [a, b] = link.ends;
        format!("link {} {} {} {} {}", a[0], a[1], b[0], b[1], link.top)
    }));
    let skipped: Vec<String> = (0..links.len()).filter(|&k| links[k].is_skipped()).map(|k| k.to_string()).collect();
    if !skipped.is_empty() {
        lines.push(format!("skip {}", skipped.join(" ")));
    }
    for (k, link) in links.iter().enumerate() {
        let columns = [("a_id", link.ids[0], made.a_id[k]), ("b_id", link.ids[1], made.b_id[k])];
        let others = columns.iter().filter(|(_, id, made)| id != made).map(|(name, id, _)| (*name, *id));
        let odd = (link.state > 1).then_some(("state", link.state.into()));
        lines.extend(others.chain(odd).map(|(name, value)| format!("set {name} {k} {value}")));
    }
    let is_made = (0..made.nodes()).map(|node| made.entries(node).collect::<Vec<_>>());
    if !is_made.eq(nodes.iter().map(|list| list.iter().map(|&entry| entry as usize).collect::<Vec<_>>())) {
        lines.extend(node_lines(&nodes));
    }
    lines.join("\n") + "\n"
}

fn node_lines(nodes: &[&[u32]]) -> Vec<String> {
    if nodes.is_empty() {
        return vec!["give start 0".into(), "give list".into()];
    }
    let line = |list: &&[u32]| list.iter().fold("node".to_string(), |line, entry| format!("{line} {entry}"));
    nodes.iter().map(line).collect()
}

/// Node ids and lists as they are made where the text says none.
fn made(links: &[Link]) -> Made {
    Made::of_links(&links.iter().map(|link| (link.ends[0], link.ends[1], link.top)).collect::<Vec<_>>())
}

/// The study of a text, or what is wrong with which line.
pub fn make(text: &str) -> Result<Study, String> {
    let mut draft = Draft::default();
    for (number, line) in (1..).zip(text.lines()) {
        let words: Vec<&str> = line.split_whitespace().collect();
        if words.first().is_some_and(|word| !word.starts_with('#')) {
            draft.take(&words, number).map_err(|fault| format!("line {number}: {fault}"))?;
        }
    }
    draft.finished()
}

/// What the lines have said so far.
#[derive(Default)]
struct Draft {
    options: Options,
    /// Their node ids are not known before all links are.
    links: Vec<Link>,
    nodes: Option<Vec<Vec<u32>>>,
    settings: Vec<Setting>,
}

/// One column of one link, set by a line.
struct Setting {
    line: usize,
    column: String,
    link: usize,
    value: u16,
}

impl Draft {
    fn take(&mut self, words: &[&str], line: usize) -> Result<(), String> {
        match words {
            ["direction", "counterclockwise"] => self.options.output_direction = ContourDirection::CounterClockwise,
            ["direction", "clockwise"] => self.options.output_direction = ContourDirection::Clockwise,
            ["minimum", minimum] => self.options.min_output_area = number(minimum)?,
            ["link", ax, ay, bx, by, top] => {
                let ends = [[number(ax)?, number(ay)?], [number(bx)?, number(by)?]];
                self.links.push(Link { ends, ids: [0; 2], top: number(top)?, state: 0 });
            }
            ["skip", links @ ..] => {
                for link in links {
                    self.settings.push(Setting { line, column: "state".into(), link: number(link)?, value: 1 });
                }
            }
            ["node", list @ ..] => {
                let list = list.iter().map(|entry| number::<u16>(entry).map(u32::from)).collect::<Result<_, _>>()?;
                self.nodes.get_or_insert_default().push(list);
            }
            ["set", column @ ("a_id" | "b_id" | "state"), link, value] => {
                let column = column.to_string();
                self.settings.push(Setting { line, column, link: number(link)?, value: number(value)? });
            }
            ["give", "start", "0"] | ["give", "list"] => self.nodes = Some(Vec::new()),
            _ => {
                let line: String = words.join(" ").chars().take(60).collect();
                return Err(format!("this is no line of a study: {}", line.escape_debug()));
            }
        }
        Ok(())
    }

    fn finished(mut self) -> Result<Study, String> {
        let made = made(&self.links);
        for (k, link) in self.links.iter_mut().enumerate() {
            link.ids = [made.a_id[k], made.b_id[k]];
        }
        for setting in &self.settings {
            setting.apply(&mut self.links).map_err(|fault| format!("line {}: {fault}", setting.line))?;
        }
        let mut study = Study::new(Graph::new(), self.options);
        for Link { ends, ids, top, state } in self.links {
            study.push_link(ends, ids, top, state);
        }
        match self.nodes {
            Some(nodes) => nodes.into_iter().for_each(|list| study.graph.push_node(list)),
            None => {
                (0..made.nodes()).for_each(|node| study.graph.push_node(made.entries(node).map(|entry| entry as u32)))
            }
        }
        Ok(study)
    }
}

impl Setting {
    fn apply(&self, links: &mut [Link]) -> Result<(), String> {
        let link = links.get_mut(self.link).ok_or_else(|| format!("there is no link {}", self.link))?;
        match self.column.as_str() {
            "a_id" => link.ids[0] = self.value.into(),
            "b_id" => link.ids[1] = self.value.into(),
            _ => link.state = u8::try_from(self.value).map_err(|_| "a state is one byte".to_string())?,
        }
        Ok(())
    }
}

fn number<T: FromStr>(word: &str) -> Result<T, String> {
    word.parse().map_err(|_| format!("{word} is no such number as is wanted there"))
}
