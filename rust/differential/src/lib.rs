//! Compares contours, kinds, visit states and parents with those that the given text of i_overlay 9.0.1 answers.
//!
//! [`sides`] holds our answers (the reading's, and the library's with the feature `library`), [`compare`] the text's answer
//! and the verdict, [`tally`] many graphs with their counts, [`front`] those that the text's own front end makes, [`look`] what
//! both look like, [`stored`] the sample of the text's answers.

pub mod compare;
pub mod front;
pub mod look;
pub mod sides;
pub mod stored;
pub mod tally;
