//! The given text of i_overlay 9.0.1 (front end, extraction and binding), compiled unchanged over small stand-ins.
//!
//! The text itself is not part of this project: `given.rs` finds it beside the repository. Where it is missing,
//! [`AT_HAND`] is false and [`Run`] cannot be made. rust/integration compiles these sources once more, over a copy of the text
//! that is patched.
//!
//! The modules `bind`, `build`, `core`, `geom`, `segm`, `split`, `util` and `vector` hold the text's files, with stand-ins for
//! the files of that crate that the text leaves out. The text leans on four more crates, which are not at hand; the modules
//! `int`, `triangle`, `flat`, `source`, `key` and `sort` stand in for them, at the paths that the text names.

// The text says `i_float::int::point::IntPoint`: all four crates' names mean this one.
#[cfg(text_at_hand)]
extern crate alloc;
#[cfg(text_at_hand)]
extern crate self as i_float;
#[cfg(text_at_hand)]
extern crate self as i_key_sort;
#[cfg(text_at_hand)]
extern crate self as i_shape;
#[cfg(text_at_hand)]
extern crate self as i_tree;

#[cfg(text_at_hand)]
mod front;
#[cfg(text_at_hand)]
#[path = "at_hand.rs"]
mod run;
#[cfg(not(text_at_hand))]
#[path = "missing.rs"]
mod run;
pub use front::Front;
#[cfg(not(text_at_hand))]
use run as front;
pub use run::{AT_HAND, Bound, Run, Unbound};

#[cfg(text_at_hand)]
mod stand_ins;
#[cfg(text_at_hand)]
pub(crate) use stand_ins::{Expiration, ExpiredKey, LayoutNumber, flat, int, key, sort, source, triangle};

#[cfg(text_at_hand)]
macro_rules! given {
    ($($module:ident)*) => {$(
        #[allow(dead_code, unused_imports)]
        pub(crate) mod $module {
            include!(concat!(env!("OUT_DIR"), "/", stringify!($module), ".rs"));
        }
    )*};
}
#[cfg(text_at_hand)]
given! { bind build core geom segm split util vector }
