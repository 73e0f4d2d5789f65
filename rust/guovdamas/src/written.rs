//! What one extraction writes, with the room that the library asks for.

use crate::lent::{self, Counts};
use crate::lists::Lists;
use crate::{MAX_LINKS, Options, Refusal};

/// The lists as extraction leaves them: past what the counts say they are zero.
#[derive(Clone, Debug, Default, PartialEq, Eq)]
pub(crate) struct Written {
    pub(crate) counts: Counts,
    pub(crate) state: Vec<u8>,
    points: Vec<[i32; 2]>,
    first: Vec<u32>,
    len: Vec<u32>,
    kind: Vec<u8>,
}

impl Written {
    /// Extracts a graph in the place of what was written before. A graph with too many links is refused before any room
    /// is asked for.
    pub(crate) fn extract(&mut self, lists: Lists<'_>, skipped: &[u8], options: Options) -> Result<(), Refusal> {
        let links = lists.links().min(MAX_LINKS);
        self.counts = Counts::default();
        self.state.clear();
        self.state.extend_from_slice(skipped);
        self.make_room(links);
        let lent = lent::Buffers {
            state: &mut self.state,
            points: self.points.as_flattened_mut(),
            first: &mut self.first,
            len: &mut self.len,
            kind: &mut self.kind,
        };
        self.counts = lent::extract(lists, options, lent)?;
        Ok(())
    }

    /// Nothing written, and no room; what was allocated is kept.
    pub(crate) fn clear(&mut self) {
        self.counts = Counts::default();
        self.state.clear();
        self.make_room(0);
    }

    fn make_room(&mut self, links: usize) {
        self.points.resize(links, [0; 2]);
        self.first.resize(links / 3, 0);
        self.len.resize(links / 3, 0);
        self.kind.resize(links / 3, 0);
    }

    pub(crate) fn contours(&self) -> usize {
        self.counts.contours as usize
    }

    /// The points of the contour with this number, which is below the count.
    pub(crate) fn points(&self, contour: usize) -> &[[i32; 2]] {
        let (first, len) = (self.first[contour] as usize, self.len[contour] as usize);
        &self.points[first..first + len]
    }

    pub(crate) fn is_hole(&self, contour: usize) -> bool {
        self.kind[contour] == 1
    }

    /// The contour table, without the room past it.
    pub(crate) fn table(&self) -> lent::Table<'_> {
        let contours = self.contours();
        lent::Table {
            points: self.points[..self.counts.points as usize].as_flattened(),
            first: &self.first[..contours],
            len: &self.len[..contours],
            kind: &self.kind[..contours],
        }
    }
}
