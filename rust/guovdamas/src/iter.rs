//! Going over contours and shapes by their numbers.

use std::iter::FusedIterator;
use std::ops::Range;

/// What has items with the numbers from 0 on. It cannot be named outside this crate.
pub trait Numbered {
    /// An item.
    type Item<'a>
    where
        Self: 'a;

    /// The item with this number, which is below the count.
    fn item(&self, number: usize) -> Self::Item<'_>;
}

/// The items of [`Contours`](crate::Contours) or [`Shapes`](crate::Shapes), in the order of their numbers.
#[derive(Clone, Debug)]
pub struct Iter<'a, L> {
    list: &'a L,
    numbers: Range<usize>,
}

impl<'a, L: Numbered> Iter<'a, L> {
    pub(crate) fn new(list: &'a L, count: usize) -> Self {
        Self { list, numbers: 0..count }
    }
}

impl<'a, L: Numbered> Iterator for Iter<'a, L> {
    type Item = L::Item<'a>;

    fn next(&mut self) -> Option<Self::Item> {
        self.numbers.next().map(|number| self.list.item(number))
    }

    fn nth(&mut self, ahead: usize) -> Option<Self::Item> {
        self.numbers.nth(ahead).map(|number| self.list.item(number))
    }

    fn size_hint(&self) -> (usize, Option<usize>) {
        self.numbers.size_hint()
    }
}

impl<L: Numbered> DoubleEndedIterator for Iter<'_, L> {
    fn next_back(&mut self) -> Option<Self::Item> {
        self.numbers.next_back().map(|number| self.list.item(number))
    }
}

impl<L: Numbered> ExactSizeIterator for Iter<'_, L> {}

impl<L: Numbered> FusedIterator for Iter<'_, L> {}
