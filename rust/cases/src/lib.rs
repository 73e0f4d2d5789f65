//! Cases as data: tables of inputs under tests/tables, what each asks, and what is answered.
//!
//! A table is a text that a person can read (tests/tables/README.md has its words). [`tables::read`] reads one,
//! [`Case::ask`] puts a case to the reading or to the library, and [`Outcome`] is one answer with every lent buffer before
//! and after, byte for byte.

pub mod input;
pub mod made;
pub mod outcome;
pub mod tables;

use input::Input;
use outcome::Outcome;
use reading::Side;

/// What the cases of a table ask for.
#[derive(Clone, Copy, Debug, PartialEq, Eq)]
pub enum Run {
    Extract,
    Bind,
    Lookup,
    Report,
}

/// One case: a title and an input, for one run or several.
#[derive(Clone, Debug)]
pub struct Case {
    pub title: String,
    pub run: Run,
    pub input: Input,
}

impl Case {
    /// The answers of one side: one for each setting of extraction, each direction of binding, or each contour that is
    /// looked up; or one for each contour that is reported, and then one for all.
    pub fn ask(&self, side: Side) -> Vec<Outcome> {
        let Input { clockwise, look, .. } = &self.input;
        match self.run {
            Run::Extract => self.input.settings().map(|settings| self.input.extract(side, settings)).collect(),
            Run::Bind => clockwise.iter().map(|&way| self.input.bind(side, way)).collect(),
            Run::Lookup => look.iter().map(|&contour| self.input.lookup(side, contour)).collect(),
            Run::Report => {
                let each = look.iter().map(|&contour| self.input.report(side, contour));
                each.chain([self.input.report_all(side)]).collect()
            }
        }
    }
}
