//! A study: a graph with its options, read from the program's file and written to it. docs/FORMAT.md shows the file
//! byte by byte.
//!
//! ```
//! use guovdamas::study::Study;
//! use guovdamas::{Graph, Options, Segment};
//!
//! let side = |a, b, fill_top| Segment { a, b, fill_top, skipped: false };
//! let graph = Graph::from_segments([
//!     side([0, 0], [1, 0], true),
//!     side([0, 0], [0, 1], false),
//!     side([0, 1], [1, 0], false),
//! ]);
//! let study = Study::new(graph, Options::default());
//! let file = study.encode()?;
//! let read = Study::parse(&file)?;
//! assert_eq!(read.encode()?, file);
//! assert_eq!(read.extract_shapes().unwrap().len(), 1);
//! # Ok::<(), guovdamas::study::StudyError>(())
//! ```

use crate::{ContourDirection, Contours, Graph, Link, Lists, MAX_LINKS, Options, Refusal, Shapes};
use std::error::Error;
use std::fmt;

/// Most nodes of a file.
pub const MAX_NODES: usize = 4096;
/// Most list entries of a file, those of all its nodes together.
pub const MAX_ENTRIES: usize = 8192;

/// Four bytes of length, two of kind.
const HEAD: usize = 6;
const SETTINGS: u16 = 3;
const SETTINGS_BODY: usize = 9;
const LINK: u16 = 1;
const LINK_BODY: usize = 22;
const NODE: u16 = 2;

/// A graph with its options, as one file holds them.
#[derive(Clone, Debug, PartialEq, Eq)]
pub struct Study {
    /// The links and nodes.
    pub graph: Graph,
    /// Output direction and minimum area, which a file holds; and whether points on a straight line are kept, of which
    /// it says nothing: they are, if a study is read.
    pub options: Options,
    /// The bytes of links whose top or state is neither 0 nor 1: a file may have them, and a graph has flags there.
    odd: Vec<OddLink>,
}

#[derive(Clone, Copy, Debug, PartialEq, Eq)]
struct OddLink {
    link: usize,
    top: u8,
    state: u8,
}

impl Study {
    /// A study to be written.
    pub fn new(graph: Graph, options: Options) -> Self {
        Self { graph, options, odd: Vec::new() }
    }

    /// Adds a link with its ends a and b, their node ids, and a top and a state as a file has them, right or wrong.
    pub fn push_link(&mut self, [a, b]: [[i32; 2]; 2], [a_id, b_id]: [u32; 2], top: u8, state: u8) {
        let link = self.graph.skipped().len();
        self.graph.push_link(Link { a, b, a_id, b_id, fill_top: top == 1, skipped: state == 1 });
        if top > 1 || state > 1 {
            self.odd.push(OddLink { link, top, state });
        }
    }

    /// Each link's top as the file has it: 1 where the left of a to b is filled, else 0; any other is refused with 3.
    pub fn tops(&self) -> Vec<u8> {
        self.bytes(self.graph.lists().top, |odd| odd.top)
    }

    /// Each link's state as the file has it: 1 for a skipped link, else 0; any other is refused with 3.
    pub fn states(&self) -> Vec<u8> {
        self.bytes(self.graph.skipped(), |odd| odd.state)
    }

    fn bytes(&self, flags: &[u8], byte: impl Fn(&OddLink) -> u8) -> Vec<u8> {
        let mut bytes = flags.to_vec();
        for odd in &self.odd {
            if let Some(place) = bytes.get_mut(odd.link) {
                *place = byte(odd);
            }
        }
        bytes
    }

    /// Walks the graph.
    ///
    /// # Errors
    /// The refusal that the rules give, 1 to 9.
    pub fn extract_contours(&self) -> Result<Contours, Refusal> {
        let tops = self.tops();
        Lists { top: &tops, ..self.graph.lists() }.extract_contours(&self.states(), self.options)
    }

    /// Walks the graph and binds its holes.
    ///
    /// # Errors
    /// The refusal that the rules give, 1 to 9 or 12.
    pub fn extract_shapes(&self) -> Result<Shapes, Refusal> {
        self.extract_contours()?.bind_holes()
    }

    /// Reads a file: its settings, its links, its nodes.
    ///
    /// # Errors
    /// Of the first record at fault: [`StudyError::Form`] (13), or a limit that is passed (1 or 5).
    pub fn parse(file: &[u8]) -> Result<Self, StudyError> {
        let mut study = Self::new(Graph::new(), Options::default());
        let mut last_kind = None;
        let mut offset = 0;
        while offset < file.len() || last_kind.is_none() {
            let Record { kind, body } = study.record(&file[offset..], offset, last_kind)?;
            match kind {
                SETTINGS => study.options = settings(body).ok_or(at(offset, Fault::Direction(body[0])))?,
                LINK => study.read_link(body),
                _ => study.graph.push_node(body.chunks_exact(2).map(|entry| u32::from(short(entry)))),
            }
            last_kind = Some(kind);
            offset += HEAD + body.len();
        }
        Ok(study)
    }

    /// The record at the front of what is left of a file. The limits are judged at its head, whether its body is there
    /// or not.
    fn record<'a>(&self, rest: &'a [u8], offset: usize, last_kind: Option<u16>) -> Result<Record<'a>, StudyError> {
        let (head, after) = rest.split_at_checked(HEAD).ok_or(at(offset, Fault::Cut))?;
        let length = u32::from_le_bytes([head[0], head[1], head[2], head[3]]) as usize;
        let kind = short(&head[4..]);
        check_head(last_kind, kind, length).map_err(|fault| at(offset, fault))?;
        let lists = self.graph.lists();
        if kind == LINK && lists.a_id.len() == MAX_LINKS {
            return Err(StudyError::TooManyLinks);
        }
        if kind == NODE && lists.start.len() > MAX_NODES {
            return Err(StudyError::TooManyNodes);
        }
        if kind == NODE && lists.list.len() + length / 2 > MAX_ENTRIES {
            return Err(StudyError::TooManyEntries);
        }
        let body = after.get(..length).ok_or(at(offset, Fault::Cut))?;
        Ok(Record { kind, body })
    }

    fn read_link(&mut self, body: &[u8]) {
        let coordinate = |at: usize| i32::from_le_bytes([body[at], body[at + 1], body[at + 2], body[at + 3]]);
        let point = |at: usize| [coordinate(at), coordinate(at + 4)];
        let id = |at: usize| u32::from(short(&body[at..]));
        self.push_link([point(0), point(8)], [id(16), id(18)], body[20], body[21]);
    }

    /// Writes the file.
    ///
    /// # Errors
    /// A limit of the file that is passed, or a number that its 16 bits do not hold.
    pub fn encode(&self) -> Result<Vec<u8>, StudyError> {
        let Lists { ax, ay, bx, by, a_id, b_id, start, list, .. } = self.graph.lists();
        check_limits(a_id.len(), start.len() - 1, list.len())?;
        let mut file = Vec::new();
        let direction = u8::from(self.options.output_direction.is_clockwise());
        push_record(&mut file, SETTINGS, &[&[direction][..], &self.options.min_output_area.to_le_bytes()].concat());
        for (link, (top, state)) in self.tops().into_iter().zip(self.states()).enumerate() {
            let mut body = [ax[link], ay[link], bx[link], by[link]].map(i32::to_le_bytes).concat();
            for id in [a_id[link], b_id[link]] {
                body.extend(short_bytes(id)?);
            }
            body.extend([top, state]);
            push_record(&mut file, LINK, &body);
        }
        for ends in start.windows(2) {
            let entries = list[ends[0] as usize..ends[1] as usize].iter().map(|&entry| short_bytes(entry));
            push_record(&mut file, NODE, &entries.collect::<Result<Vec<_>, _>>()?.concat());
        }
        Ok(file)
    }
}

/// A record whose head and length are right.
struct Record<'a> {
    kind: u16,
    body: &'a [u8],
}

/// Order, kind and length.
fn check_head(last_kind: Option<u16>, kind: u16, length: usize) -> Result<(), Fault> {
    match (last_kind, kind) {
        (None, SETTINGS) | (Some(SETTINGS | LINK), LINK) | (Some(_), NODE) => {}
        (_, SETTINGS | LINK | NODE) => return Err(Fault::Order(kind)),
        _ => return Err(Fault::Kind(kind)),
    }
    let is_right = match kind {
        SETTINGS => length == SETTINGS_BODY,
        LINK => length == LINK_BODY,
        _ => length % 2 == 0,
    };
    if is_right { Ok(()) } else { Err(Fault::Length(kind, length)) }
}

fn check_limits(links: usize, nodes: usize, entries: usize) -> Result<(), StudyError> {
    if links > MAX_LINKS {
        Err(StudyError::TooManyLinks)
    } else if nodes > MAX_NODES {
        Err(StudyError::TooManyNodes)
    } else if entries > MAX_ENTRIES {
        Err(StudyError::TooManyEntries)
    } else {
        Ok(())
    }
}

fn settings(body: &[u8]) -> Option<Options> {
    let (&direction, minimum) = body.split_first()?;
    let min_output_area = u64::from_le_bytes(minimum.try_into().ok()?);
    let output_direction = ContourDirection::from_clockwise(direction == 1);
    (direction <= 1).then_some(Options { output_direction, min_output_area, ..Options::default() })
}

/// The 16-bit number at the front.
fn short(bytes: &[u8]) -> u16 {
    u16::from_le_bytes([bytes[0], bytes[1]])
}

fn short_bytes(number: u32) -> Result<[u8; 2], StudyError> {
    u16::try_from(number).map(u16::to_le_bytes).map_err(|_| StudyError::TooWide(number))
}

fn push_record(file: &mut Vec<u8>, kind: u16, body: &[u8]) {
    file.extend((body.len() as u32).to_le_bytes());
    file.extend(kind.to_le_bytes());
    file.extend(body);
}

fn at(offset: usize, fault: Fault) -> StudyError {
    StudyError::Form { offset: offset as u32, fault }
}

/// Why a file was not read, or a study not written.
#[derive(Clone, Copy, Debug, PartialEq, Eq)]
pub enum StudyError {
    /// 13: the record whose first byte stands at the offset is not of the file's form.
    Form {
        /// Of the record's first byte.
        offset: u32,
        /// What is wrong with it.
        fault: Fault,
    },
    /// 1: a 4,097th link.
    TooManyLinks,
    /// 5: a 4,097th node.
    TooManyNodes,
    /// 5: an 8,193rd list entry.
    TooManyEntries,
    /// Of writing alone: a node id or a link number above 65,535. No graph that has one is answered.
    TooWide(u32),
}

/// What is wrong with a record.
#[derive(Clone, Copy, Debug, PartialEq, Eq)]
pub enum Fault {
    /// The file ends within it.
    Cut,
    /// Another kind than 3, 1 and 2.
    Kind(u16),
    /// Its kind, which may not come here: one of kind 3, then those of kind 1, then those of kind 2.
    Order(u16),
    /// Its kind, and a length of body that this kind has not.
    Length(u16, usize),
    /// Another direction than 0 and 1.
    Direction(u8),
}

impl StudyError {
    /// The refusal's number, if reading gives one: 13, 1 or 5.
    pub fn number(&self) -> Option<u32> {
        match self {
            Self::Form { .. } => Some(13),
            Self::TooManyLinks => Some(1),
            Self::TooManyNodes | Self::TooManyEntries => Some(5),
            Self::TooWide(_) => None,
        }
    }

    /// The refusal's place: the offset of the record (13), or 0.
    pub fn place(&self) -> u32 {
        if let Self::Form { offset, .. } = self { *offset } else { 0 }
    }
}

impl fmt::Display for StudyError {
    fn fmt(&self, f: &mut fmt::Formatter<'_>) -> fmt::Result {
        if let Some(number) = self.number() {
            write!(f, "refused {number} at {}: ", self.place())?;
        }
        match self {
            Self::Form { offset, fault } => write!(f, "the record at byte {offset} {fault}"),
            Self::TooManyLinks => write!(f, "there are more than 4,096 links"),
            Self::TooManyNodes => write!(f, "there are more than 4,096 nodes"),
            Self::TooManyEntries => write!(f, "the nodes' lists have more than 8,192 entries"),
            Self::TooWide(number) => write!(f, "the file has 16 bits for a node id or a link number, not for {number}"),
        }
    }
}

impl fmt::Display for Fault {
    fn fmt(&self, f: &mut fmt::Formatter<'_>) -> fmt::Result {
        match self {
            Self::Cut => write!(f, "is cut off"),
            Self::Kind(kind) => write!(f, "is of kind {kind}, which there is not"),
            Self::Order(kind) => {
                write!(f, "is of kind {kind}, which may not come there: first one of kind 3, then 1, then 2")
            }
            Self::Length(kind, length) => write!(f, "is of kind {kind}, and its body may not have {length} bytes"),
            Self::Direction(direction) => write!(f, "asks for direction {direction}, which is neither 0 nor 1"),
        }
    }
}

impl Error for StudyError {}
