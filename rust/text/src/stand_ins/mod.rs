//! What the text leans on and does not hold. Each item is no more than the text asks for. The folders hold files of i_overlay
//! itself; `given.rs` declares them in the modules that they belong to.

pub(crate) mod flat;
pub(crate) mod int;
pub(crate) mod key;
pub(crate) mod sort;
pub(crate) mod source;
pub(crate) mod triangle;

// Named here, the folders' files are laid out by `cargo fmt` too.
#[cfg(any())]
mod build {
    mod boolean;
    mod graph;
}
#[cfg(any())]
mod core {
    mod filter;
}
#[cfg(any())]
mod geom {
    mod line_range;
}
#[cfg(any())]
mod segm {
    mod build;
}
#[cfg(any())]
mod split {
    mod list;
    mod snap_radius;
}
#[cfg(any())]
mod vector {
    mod extract;
}

/// i_tree: a number that a key can expire at.
pub trait Expiration: Copy + Ord {
    const NEVER: Self;
}

/// i_tree: a key that is no longer in the collection once its time has come.
pub trait ExpiredKey<E> {
    fn expiration(&self) -> E;
}

/// i_tree: asked for by name only.
pub trait LayoutNumber {}
