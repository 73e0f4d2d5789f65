//! Studies, the program's files, for people: shown in words or as JSON, drawn, dumped as text and made from it.
//!
//! [`answer`] asks the library and holds what it answers, [`show`] tells it, [`draw`] draws it, [`text`] is the form
//! that a person writes.

pub mod answer;
pub mod draw;
pub mod json;
pub mod label;
pub mod refused;
pub mod sheet;
pub mod show;
pub mod stuck;
pub mod svg;
pub mod text;
pub mod units;
pub mod view;
