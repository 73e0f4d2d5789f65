//! The program's file and its printed answer.

use crate::bind::{Role, bind, lookup};
use crate::geometry::Point;
use crate::graph::{Buffers, Graph};
use crate::walk::extract;
use crate::{MAX_LINKS, Refusal, Settings};
use std::fmt::Write;

const MAX_NODES: usize = 4096;
const MAX_ENTRIES: usize = 8192;
/// Four bytes of length, two of kind.
const HEAD: usize = 6;
const SETTINGS_BODY: usize = 9;
const LINK_BODY: usize = 22;

/// What a file of right form holds; it has no word for points on a straight line, and they are kept.
#[derive(Clone, Debug, PartialEq, Eq)]
pub struct Study {
    pub settings: Settings,
    pub graph: Graph,
    pub state: Vec<u8>,
}

/// The program: what it prints for the bytes on its standard input.
pub fn answer(input: &[u8]) -> String {
    match parse(input).and_then(|study| outline(&study)) {
        Ok(text) => text,
        Err(Refusal { number, place }) => format!("refused {number} at {place}\n"),
    }
}

/// Reads the records: kind 3, then kind 1, then kind 2. Refused with 13 at a record's first byte, or with 1 or 5 at 0.
pub fn parse(input: &[u8]) -> Result<Study, Refusal> {
    let mut graph = Graph { start: vec![0], ..Graph::default() };
    let mut state = Vec::new();
    let mut settings = None;
    let mut last_kind = 0;
    let mut offset = 0;
    while offset < input.len() || settings.is_none() {
        let malformed = Refusal { number: 13, place: offset as u32 };
        let head = input.get(offset..offset + HEAD).ok_or(malformed)?;
        let length = u32::from_le_bytes([head[0], head[1], head[2], head[3]]) as usize;
        let kind = u16::from_le_bytes([head[4], head[5]]);
        let right = match (last_kind, kind) {
            (0, 3) => length == SETTINGS_BODY,
            (3 | 1, 1) => length == LINK_BODY,
            (1..=3, 2) => length.is_multiple_of(2),
            _ => false,
        };
        if !right {
            return Err(malformed);
        }
        // The limits are judged at the head, whether the body is there or not.
        if kind == 1 && state.len() == MAX_LINKS {
            return Err(Refusal { number: 1, place: 0 });
        }
        if kind == 2 && (graph.nodes() == MAX_NODES || graph.list.len() + length / 2 > MAX_ENTRIES) {
            return Err(Refusal { number: 5, place: 0 });
        }
        let body = input.get(offset + HEAD..offset + HEAD + length).ok_or(malformed)?;
        match kind {
            3 => settings = Some(read_settings(body).ok_or(malformed)?),
            1 => read_link(body, &mut graph, &mut state),
            _ => read_node(body, &mut graph),
        }
        last_kind = kind;
        offset += HEAD + length;
    }
    Ok(Study { settings: settings.expect("read first"), graph, state })
}

/// "direction byte (0 counterclockwise, 1 clockwise), eight-byte minimum". The program writes every point.
fn read_settings(body: &[u8]) -> Option<Settings> {
    let minimum = u64::from_le_bytes(body[1..].try_into().expect("eight bytes"));
    (body[0] <= 1).then_some(Settings { clockwise: body[0] == 1, minimum, drop_straight: false })
}

/// "ax, ay, bx, by as signed 32-bit, two 16-bit ids, top, state".
fn read_link(body: &[u8], graph: &mut Graph, state: &mut Vec<u8>) {
    let coordinate = |at: usize| i32::from_le_bytes(body[at..at + 4].try_into().expect("four bytes"));
    let id = |at: usize| u16::from_le_bytes([body[at], body[at + 1]]) as u32;
    let point = |at: usize| [coordinate(at), coordinate(at + 4)];
    graph.push_link([point(0), point(8)], [id(16), id(18)], body[20]);
    state.push(body[21]);
}

/// "one a node, 16-bit link numbers".
fn read_node(body: &[u8], graph: &mut Graph) {
    let entry = |bytes: &[u8]| u16::from_le_bytes([bytes[0], bytes[1]]) as u32;
    graph.push_node(&body.chunks_exact(2).map(entry).collect::<Vec<u32>>());
}

/// Writes a study as the program's file; ids and link numbers are cut to 16 bits, and that straight points are dropped is not
/// said.
pub fn encode(study: &Study) -> Vec<u8> {
    let mut bytes = Vec::new();
    let mut record = |kind: u16, body: &[u8]| {
        bytes.extend((body.len() as u32).to_le_bytes());
        bytes.extend(kind.to_le_bytes());
        bytes.extend(body);
    };
    let Study { settings, graph, state } = study;
    record(3, &[&[settings.clockwise as u8][..], &settings.minimum.to_le_bytes()].concat());
    for (link, &state) in state.iter().enumerate() {
        let (a, b) = (graph.a(link), graph.b(link));
        let mut body: Vec<u8> = [a.x, a.y, b.x, b.y].iter().flat_map(|c| c.to_le_bytes()).collect();
        body.extend((graph.a_id[link] as u16).to_le_bytes());
        body.extend((graph.b_id[link] as u16).to_le_bytes());
        body.extend([graph.top[link], state]);
        record(1, &body);
    }
    for node in 0..graph.nodes() {
        record(2, &graph.entries(node).flat_map(|link| (link as u16).to_le_bytes()).collect::<Vec<u8>>());
    }
    bytes
}

/// Extraction, binding and the printed answer of a study.
fn outline(study: &Study) -> Result<String, Refusal> {
    let Study { settings, graph, state } = study;
    let mut lent = Buffers::for_states(state.clone());
    let counts = extract(graph, *settings, &mut lent)?;
    let table = counts.table(&lent);
    let contours = table.contours();
    let mut owner = vec![0; contours];
    let bound = bind(&table, settings.clockwise, &mut owner)?;

    let mut text = format!(
        "contours {} shapes {} points {} dropped {}\n",
        counts.contours, bound.shapes, counts.points, bound.dropped
    );
    for contour in 0..contours {
        let record = lookup(&table, &owner, contour).expect("lookup finds every contour after binding");
        let (role, number) = match record.role {
            Role::Hull(number) => ("hull", number),
            Role::Hole(number) => ("hole", number),
            Role::Dropped => ("dropped", owner[contour]),
        };
        writeln!(text, "{contour} {role} {number} {}", record.len).expect("strings take all");
        for Point { x, y } in table.contour(contour) {
            writeln!(text, "{x} {y}").expect("strings take all");
        }
    }
    Ok(text)
}
