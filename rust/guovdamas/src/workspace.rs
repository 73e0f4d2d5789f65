//! Extraction and binding into buffers that are kept: the one way in which this crate calls the library for its
//! callers.

use crate::lists::Lists;
use crate::outline::{Contours, Shapes};
use crate::{Options, Refusal};

/// A graph as it is lent: a [`Graph`](crate::Graph), or [`Lists`] with a 1 for every link to be left out, else 0.
#[derive(Clone, Copy, Debug)]
pub struct Lending<'a> {
    pub(crate) lists: Lists<'a>,
    pub(crate) skipped: &'a [u8],
    /// By which number the caller knows each link, if not by its own.
    pub(crate) caller: Option<&'a [u32]>,
}

impl<'a> From<(Lists<'a>, &'a [u8])> for Lending<'a> {
    fn from((lists, skipped): (Lists<'a>, &'a [u8])) -> Self {
        Self { lists, skipped, caller: None }
    }
}

impl Lending<'_> {
    /// Walks the graph into buffers of its own.
    pub(crate) fn contours(self, options: Options) -> Result<Contours, Refusal> {
        let mut found = Contours::default();
        self.walk_into(&mut found, options)?;
        Ok(found)
    }

    /// Walks the graph into buffers of its own, and binds its holes.
    pub(crate) fn shapes(self, options: Options) -> Result<Shapes, Refusal> {
        self.contours(options)?.bind_holes()
    }

    /// Walks the graph into the buffers of an answer that is not needed any more.
    fn walk_into(&self, found: &mut Contours, options: Options) -> Result<(), Refusal> {
        let number_of = |link: u32| self.caller.and_then(|caller| caller.get(link as usize)).copied().unwrap_or(link);
        found.extract(self.lists, self.skipped, options).map_err(|refusal| refusal.renumbered(number_of))
    }
}

/// Buffers that are kept from call to call: who extracts one graph after the other allocates nothing once they have the
/// room that the largest graph needs.
///
/// ```
/// use guovdamas::{Graph, Options, Segment, Workspace};
///
/// let side = |a, b, fill_top| Segment { a, b, fill_top, skipped: false };
/// let triangle = |size| {
///     let (corner, right, up) = ([0, 0], [size, 0], [0, size]);
///     Graph::from_segments([side(corner, right, true), side(right, up, true), side(up, corner, true)])
/// };
/// let mut workspace = Workspace::new();
/// for size in [3, 5] {
///     let shapes = workspace.extract_shapes(&triangle(size), Options::default())?;
///     assert_eq!(shapes.shape(0).unwrap().doubled_area(), (size * size) as i64);
/// }
/// # Ok::<(), guovdamas::Refusal>(())
/// ```
#[derive(Clone, Debug, Default)]
pub struct Workspace {
    kept: Shapes,
}

impl Workspace {
    /// A workspace without any room yet.
    pub fn new() -> Self {
        Self::default()
    }

    /// Walks the graph. What was found before is gone.
    ///
    /// # Errors
    /// 1 to 9: a check finds the graph at fault, or a walk cannot be gone on with or ends elsewhere.
    pub fn extract_contours<'g>(
        &mut self,
        graph: impl Into<Lending<'g>>,
        options: Options,
    ) -> Result<&Contours, Refusal> {
        graph.into().walk_into(&mut self.kept.contours, options)?;
        Ok(&self.kept.contours)
    }

    /// Walks the graph and binds its holes. What was found before is gone.
    ///
    /// # Errors
    /// 1 to 9 as [`extract_contours`](Self::extract_contours), and 12: a hole finds no shape.
    pub fn extract_shapes<'g>(&mut self, graph: impl Into<Lending<'g>>, options: Options) -> Result<&Shapes, Refusal> {
        self.extract_contours(graph, options)?;
        self.kept.bind()?;
        Ok(&self.kept)
    }
}
