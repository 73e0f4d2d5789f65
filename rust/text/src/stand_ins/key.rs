//! i_tree `key`: collections sorted by key, whose keys expire. The crate's tree is a list here too: a sorted vector answers
//! the same and, at the sizes of document 01, costs no more.

use super::{Expiration, ExpiredKey};
use std::cmp::Ordering;

pub(crate) mod exp {
    use std::cmp::Ordering;

    /// A sorted collection from which keys with `expiration <= time` are gone.
    pub trait KeyExpCollection<K, E, V> {
        fn insert(&mut self, key: K, value: V, time: E);
        /// The value of the greatest key below `key`.
        fn first_less(&mut self, time: E, default: V, key: K) -> V;
        /// The value of the greatest key that `order` finds below or level.
        fn first_less_or_equal_by(&mut self, time: E, default: V, order: impl Fn(&K) -> Ordering) -> V;
    }
}

pub(crate) mod list {
    pub type KeyExpList<K, E, V> = super::SortedVec<K, E, V>;
}

pub(crate) mod tree {
    pub type KeyExpTree<K, E, V> = super::SortedVec<K, E, V>;
}

pub struct SortedVec<K, E, V> {
    entries: Vec<(K, V)>,
    /// No entry expires before this time.
    earliest: E,
}

impl<K: ExpiredKey<E>, E: Expiration, V> SortedVec<K, E, V> {
    pub fn new(capacity: usize) -> Self {
        Self { entries: Vec::with_capacity(capacity), earliest: E::NEVER }
    }

    pub fn clear(&mut self) {
        self.entries.clear();
        self.earliest = E::NEVER;
    }

    pub fn reserve_capacity(&mut self, capacity: usize) {
        self.entries.reserve(capacity);
    }

    /// The value of the last of the first `count` keys.
    fn last_of(&self, count: usize, default: V) -> V
    where
        V: Copy,
    {
        if count == 0 { default } else { self.entries[count - 1].1 }
    }

    fn expire(&mut self, time: E) {
        if self.earliest > time {
            return;
        }
        let mut earliest = E::NEVER;
        self.entries.retain(|(key, _)| {
            let end = key.expiration();
            if end > time {
                earliest = earliest.min(end);
            }
            end > time
        });
        self.earliest = earliest;
    }
}

impl<K: ExpiredKey<E> + Ord, E: Expiration, V: Copy> exp::KeyExpCollection<K, E, V> for SortedVec<K, E, V> {
    fn insert(&mut self, key: K, value: V, time: E) {
        self.expire(time);
        self.earliest = self.earliest.min(key.expiration());
        let position = self.entries.partition_point(|(other, _)| *other < key);
        self.entries.insert(position, (key, value));
    }

    fn first_less(&mut self, time: E, default: V, key: K) -> V {
        self.expire(time);
        self.last_of(self.entries.partition_point(|(other, _)| *other < key), default)
    }

    fn first_less_or_equal_by(&mut self, time: E, default: V, order: impl Fn(&K) -> Ordering) -> V {
        self.expire(time);
        self.last_of(self.entries.partition_point(|(key, _)| order(key) != Ordering::Greater), default)
    }
}
