//! i_key_sort `sort`: a comparison sort for the crate's sort by bins.

pub(crate) mod key {
    pub trait SortKey: Ord {}

    impl SortKey for usize {}
}

pub(crate) mod one_key_cmp {
    use super::key::SortKey;
    use std::cmp::Ordering;

    pub trait OneKeyAndCmpSort<T> {
        fn sort_by_one_key_then_by_and_buffer<K: SortKey>(
            &mut self,
            parallel: bool,
            buffer: &mut Vec<T>,
            key: impl Fn(&T) -> K,
            compare: impl Fn(&T, &T) -> Ordering,
        );
    }

    impl<T> OneKeyAndCmpSort<T> for [T] {
        fn sort_by_one_key_then_by_and_buffer<K: SortKey>(
            &mut self,
            _parallel: bool,
            _buffer: &mut Vec<T>,
            key: impl Fn(&T) -> K,
            compare: impl Fn(&T, &T) -> Ordering,
        ) {
            self.sort_by(|s, t| key(s).cmp(&key(t)).then_with(|| compare(s, t)));
        }
    }
}

pub(crate) mod two_keys_cmp {
    use super::key::SortKey;
    use std::cmp::Ordering;

    pub trait TwoKeysAndCmpSort<T> {
        fn sort_by_two_keys_then_by<K: SortKey, L: SortKey>(
            &mut self,
            parallel: bool,
            first: impl Fn(&T) -> K,
            second: impl Fn(&T) -> L,
            compare: impl Fn(&T, &T) -> Ordering,
        );
    }

    impl<T> TwoKeysAndCmpSort<T> for [T] {
        fn sort_by_two_keys_then_by<K: SortKey, L: SortKey>(
            &mut self,
            _parallel: bool,
            first: impl Fn(&T) -> K,
            second: impl Fn(&T) -> L,
            compare: impl Fn(&T, &T) -> Ordering,
        ) {
            self.sort_by(|s, t| {
                first(s).cmp(&first(t)).then_with(|| second(s).cmp(&second(t))).then_with(|| compare(s, t))
            });
        }
    }
}
