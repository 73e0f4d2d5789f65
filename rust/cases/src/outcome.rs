//! An answer with every lent buffer, to be compared and to be shown.

use reading::Refusal;
use std::fmt;

/// The lent buffers by name.
pub type Lists = Vec<(&'static str, Vec<Number>)>;

/// An entry of a buffer.
#[derive(Clone, Copy, Debug, PartialEq, Eq)]
pub enum Number {
    Whole(i64),
    /// The bits of a float.
    Float(u64),
}

impl Number {
    /// All that are no number are the same one: which of them is answered is not said.
    pub fn float(float: f64) -> Self {
        Self::Float(if float.is_nan() { f64::NAN } else { float }.to_bits())
    }

    /// What is summed of it.
    fn summed(self) -> i64 {
        match self {
            Self::Whole(number) => number,
            Self::Float(bits) => bits as i64,
        }
    }
}

/// A float is shown in decimal and, unless it is no number, by its bits.
impl fmt::Display for Number {
    fn fmt(&self, f: &mut fmt::Formatter<'_>) -> fmt::Result {
        match *self {
            Self::Whole(number) => write!(f, "{number}"),
            Self::Float(bits) if f64::from_bits(bits).is_nan() => write!(f, "NaN"),
            Self::Float(bits) => write!(f, "{}={bits:016x}", f64::from_bits(bits)),
        }
    }
}

/// One answer.
#[derive(Clone, Debug, PartialEq, Eq)]
pub struct Outcome {
    pub asked: String,
    pub said: String,
    pub before: Lists,
    pub after: Lists,
}

/// A run of at least so many equal numbers is shown as `26*7`.
const RUN: usize = 4;
/// A list of more words than this is shown by its ends and sums.
const WORDS: usize = 80;
const END: usize = 8;
/// Lists stand in one line as long as it is no wider than this.
const WIDTH: usize = 110;

/// An answer, or a refusal as the program prints it.
pub fn said<T>(answer: Result<T, Refusal>, words: impl Fn(T) -> String) -> String {
    match answer {
        Ok(answer) => words(answer),
        Err(Refusal { number, place }) => format!("refused {number} at {place}"),
    }
}

/// A list's numbers, equal ones together.
fn words(list: &[Number]) -> Vec<String> {
    let runs = list.chunk_by(|p, q| p == q);
    let shown = |run: &[Number]| match run.len() {
        RUN.. => vec![format!("{}*{}", run.len(), run[0])],
        _ => run.iter().map(Number::to_string).collect(),
    };
    runs.flat_map(shown).collect()
}

/// A long list: its length, its ends, its sum, and the sum of the sums on the way to it, which tells an order from
/// another. Of floats the bits are summed, and what passes 64 bits is lost.
fn shortened(list: &[Number]) -> String {
    let (sum, again) = list.iter().fold((0i64, 0i64), |(sum, again), number| {
        let sum = sum.wrapping_add(number.summed());
        (sum, again.wrapping_add(sum))
    });
    let (head, tail) = (words(&list[..END]).join(" "), words(&list[list.len() - END..]).join(" "));
    format!("{} numbers, {head} .. {tail}, summed {sum} and again {again}", list.len())
}

impl fmt::Display for Outcome {
    fn fmt(&self, f: &mut fmt::Formatter<'_>) -> fmt::Result {
        let is_kept = !self.before.is_empty() && self.before == self.after;
        writeln!(f, "{}: {}{}", self.asked, self.said, if is_kept { ", all as before" } else { "" })?;
        if is_kept {
            return Ok(());
        }
        let mut line = String::new();
        for (name, list) in &self.after {
            let words = words(list);
            let shown = if words.len() > WORDS { shortened(list) } else { words.join(" ") };
            let part = if shown.is_empty() { format!("{name} none") } else { format!("{name} {shown}") };
            if line.is_empty() {
                line = part;
            } else if line.len() + part.len() < WIDTH {
                line = format!("{line}; {part}");
            } else {
                writeln!(f, "  {}", std::mem::replace(&mut line, part))?;
            }
        }
        if line.is_empty() { Ok(()) } else { writeln!(f, "  {line}") }
    }
}
