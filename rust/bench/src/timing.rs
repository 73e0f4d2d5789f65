//! Least times of runs that take turns.

use std::hint::black_box;
use std::time::{Duration, Instant};

/// How long rounds are repeated: at least so often, and at least so long.
#[derive(Clone, Copy)]
pub struct Effort {
    pub rounds: usize,
    pub time: Duration,
}

impl Effort {
    pub const FULL: Self = Self { rounds: 30, time: Duration::from_millis(700) };
    pub const QUICK: Self = Self { rounds: 3, time: Duration::ZERO };
}

/// The time that a run takes; dropping its answer does not count.
pub fn time<R>(run: impl FnOnce() -> R) -> Duration {
    let start = Instant::now();
    let answer = black_box(run());
    let time = start.elapsed();
    drop(answer);
    time
}

/// One round over some graphs: it answers the time of each.
pub type Round<'a> = Box<dyn FnMut() -> Vec<Duration> + 'a>;

/// A round of one run.
pub fn once<'a, R>(mut run: impl FnMut() -> R + 'a) -> Round<'a> {
    Box::new(move || vec![time(&mut run)])
}

/// Rounds of one side, with the least time of each graph so far.
struct Side<'a> {
    round: Round<'a>,
    least: Vec<Duration>,
}

impl<'a> Side<'a> {
    fn new(mut round: Round<'a>) -> Self {
        let least = round();
        Self { round, least }
    }

    fn take_turn(&mut self) {
        let times = (self.round)();
        self.least.iter_mut().zip(times).for_each(|(least, time)| *least = time.min(*least));
    }

    fn sum(&self) -> Duration {
        self.least.iter().sum()
    }
}

/// The time of one side, and of the side that it takes turns with, if there is one.
pub type Times = (Duration, Option<Duration>);

/// The least times of both sides, each summed over its graphs.
pub fn least(effort: Effort, one: Round<'_>, other: Option<Round<'_>>) -> Times {
    let began = Instant::now();
    let (mut one, mut other) = (Side::new(one), other.map(Side::new));
    let mut rounds = 1;
    while rounds < effort.rounds || began.elapsed() < effort.time {
        one.take_turn();
        other.iter_mut().for_each(Side::take_turn);
        rounds += 1;
    }
    (one.sum(), other.map(|other| other.sum()))
}
