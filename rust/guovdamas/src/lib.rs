// What is public of this crate; its README is its front page.

#![doc = include_str!("../README.md")]
#![deny(missing_docs)]
#![deny(unsafe_code)]

mod diagnosis;
#[allow(unsafe_code)]
mod ffi;
mod graph;
mod iter;
pub mod lent;
mod lists;
mod options;
mod outline;
mod refusal;
mod report;
mod sides;
pub mod study;
mod workspace;
mod written;

pub use graph::{Graph, Link, Segment};
pub use iter::Iter;
pub use lists::Lists;
pub use options::{ContourDirection, Options};
pub use outline::{Contour, ContourKind, Contours, Shape, Shapes};
pub use refusal::{Refusal, RefusalKind};
pub use report::{Frame, Reports};
pub use sides::UnevenNode;
pub use workspace::{Lending, Workspace};

/// Most links of a graph, and most points of a contour table.
pub const MAX_LINKS: usize = 4096;
/// Coordinates lie from `-MAX_COORDINATE` to `MAX_COORDINATE`.
pub const MAX_COORDINATE: i32 = 524_288;
