//! The one table printer.

use crate::timing::Times;
use std::time::Duration;

/// Prints a table's rows: two times of one thing, and how many times the first is the second.
pub struct Table {
    /// Nanoseconds of the unit in which it prints.
    unit: f64,
}

impl Table {
    /// Prints the title and the head; the columns name the two that are timed.
    pub fn in_micros(title: &str, columns: [&str; 2]) -> Self {
        Self::new(title, columns, "µs", 1000.0)
    }

    pub fn in_nanos(title: &str, columns: [&str; 2]) -> Self {
        Self::new(title, columns, "ns", 1.0)
    }

    fn new(title: &str, [first, second]: [&str; 2], name: &str, unit: f64) -> Self {
        println!("\n{title}\n");
        println!("| graph | step | {first}, {name} | {second}, {name} | ratio |\n|---|---|---:|---:|---:|");
        Self { unit }
    }

    /// One row; the times are of so many runs, and what is printed is of one.
    pub fn row(&self, graph: &str, step: &str, (first, second): Times, runs: usize) {
        println!("{}", self.line(graph, step, (first, second), runs));
    }

    fn line(&self, graph: &str, step: &str, (first, second): Times, runs: usize) -> String {
        let each = |time: Duration| format!("{:.1}", time.as_nanos() as f64 / runs as f64 / self.unit);
        let ratio = |second: Duration| format!("{:.2}", first.as_nanos() as f64 / second.as_nanos() as f64);
        let (shown, ratio) = (second.map(each).unwrap_or_default(), second.map(ratio).unwrap_or_default());
        format!("| {graph} | {step} | {} | {shown} | {ratio} |", each(first))
    }
}

/// How much of each side's whole a part of it takes, in percent.
pub fn share(part: Times, whole: Times) -> String {
    let share = |(part, whole): (Duration, Duration)| 100.0 * part.as_secs_f64() / whole.as_secs_f64();
    let other = part.1.zip(whole.1).map(|times| format!(" and {:.1} %", share(times)));
    format!("{:.1} %{}", share((part.0, whole.0)), other.unwrap_or_default())
}

#[cfg(test)]
mod tests {
    use super::*;

    #[test]
    fn a_row_is_of_one_run() {
        let table = Table { unit: 1000.0 };
        let times = (Duration::from_micros(300), Some(Duration::from_micros(200)));
        assert_eq!(table.line("mesh", "extraction", times, 2), "| mesh | extraction | 150.0 | 100.0 | 1.50 |");
        assert_eq!(table.line("mesh", "checks", (times.0, None), 1), "| mesh | checks | 300.0 |  |  |");
    }

    #[test]
    fn a_share_is_of_each_side() {
        let times = |first, second| (Duration::from_micros(first), Some(Duration::from_micros(second)));
        assert_eq!(share(times(15, 10), times(300, 400)), "5.0 % and 2.5 %");
        assert_eq!(share((times(30, 0).0, None), times(40, 1)), "75.0 %");
    }
}
