//! i_overlay's snap radius, as the text's words on `Precision` tell it: a squared radius 2^value, whose exponent grows by the
//! progression in every round up to 2 (BITS - 4).

use crate::core::solver::Solver;
use crate::int::number::{int::IntNumber, uint::UIntNumber};

pub(super) struct SnapRadius {
    exponent: usize,
    progression: usize,
}

impl Solver {
    pub(super) fn snap_radius(&self) -> SnapRadius {
        SnapRadius { exponent: self.precision.start, progression: self.precision.progression }
    }
}

impl SnapRadius {
    pub(super) fn squared<I: IntNumber>(&self) -> I::WideUInt {
        I::WideUInt::power_of_two(self.exponent.min(2 * (I::BITS - 4)))
    }

    pub(super) fn increment(&mut self) {
        self.exponent += self.progression;
    }
}
