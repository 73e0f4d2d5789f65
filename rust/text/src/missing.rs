//! In place of the text, where it is not at hand: the same interface, with runs that cannot be made.

use reading::Settings;
use reading::geometry::Point;
use reading::graph::Graph;

/// The text was not found when this crate was built.
pub const AT_HAND: bool = false;

const NOT_AT_HAND: &str = "the given Rust text is not at hand";

pub struct Front(());

pub struct Run(());

#[derive(Clone)]
pub struct Unbound(());

pub struct Bound(());

impl Front {
    pub const FILLS: usize = 4;

    pub fn new(_: &[Vec<Point>], _: &[Vec<Point>], _: bool) -> Self {
        panic!("{NOT_AT_HAND}");
    }

    pub fn view(&mut self, _: usize, _: usize) -> Option<Run> {
        unreachable!("{NOT_AT_HAND}");
    }

    pub fn kept(&mut self, _: usize, _: usize) -> Option<Run> {
        unreachable!("{NOT_AT_HAND}");
    }

    pub fn links(&mut self, _: usize, _: usize) -> usize {
        unreachable!("{NOT_AT_HAND}");
    }

    pub fn overlay(&mut self, _: usize, _: usize, _: Settings) -> Vec<Vec<Vec<Point>>> {
        unreachable!("{NOT_AT_HAND}");
    }

    pub fn bound(&mut self, _: usize, _: usize, _: Settings) -> Bound {
        unreachable!("{NOT_AT_HAND}");
    }
}

impl Run {
    pub const RULES: usize = 7;

    pub fn new(_: &Graph, _: &[u8], _: Settings, _: usize) -> Self {
        panic!("{NOT_AT_HAND}");
    }

    pub fn set(&mut self, _: Settings) {
        unreachable!("{NOT_AT_HAND}");
    }

    pub fn lent(&self) -> (Graph, Vec<u8>) {
        unreachable!("{NOT_AT_HAND}");
    }

    pub fn extract_contours(&mut self) {
        unreachable!("{NOT_AT_HAND}");
    }

    pub fn contours(&self) -> Vec<Vec<Point>> {
        unreachable!("{NOT_AT_HAND}");
    }

    pub fn states(&self) -> Vec<u8> {
        unreachable!("{NOT_AT_HAND}");
    }

    pub fn extract_shapes(&mut self) -> Vec<Vec<Vec<Point>>> {
        unreachable!("{NOT_AT_HAND}");
    }

    pub fn bound(&mut self) -> Bound {
        unreachable!("{NOT_AT_HAND}");
    }

    #[cfg(patched)]
    pub fn try_extract_shapes(&mut self) -> Result<Vec<Vec<Vec<Point>>>, guovdamas::Refusal> {
        unreachable!("{NOT_AT_HAND}");
    }

    pub fn unbound(&self, _: &[u8]) -> Unbound {
        unreachable!("{NOT_AT_HAND}");
    }
}

impl Unbound {
    pub fn bind(self) -> Bound {
        unreachable!("{NOT_AT_HAND}");
    }
}

impl Bound {
    pub fn holes(&self) -> Vec<usize> {
        unreachable!("{NOT_AT_HAND}");
    }
}
