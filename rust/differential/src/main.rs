//! Compares many graphs with the given text and prints the figures.
//!
//! `differential [GRAPHS]` compares that many graphs of each planar family (30,000 if not said), as many outside the domain, and
//! a third as many of each family of polygons, whose graphs the text makes itself. `differential --look [GRAPHS]` tells what
//! that many graphs of each family look like (2,000 if not said). `differential --store COUNT` prints a sample of the text's
//! answers, to be stored.

use differential::front::{Question, front};
use differential::look::Look;
use differential::stored;
use differential::tally::{self, Tally};
use generators::rng::Rng;
use generators::{planar, polygons};
use std::process::ExitCode;

fn main() -> ExitCode {
    if !text::AT_HAND {
        eprintln!("the given Rust text is not at hand (../shared/docs/src beside the repository)");
        return ExitCode::FAILURE;
    }
    if !cfg!(debug_assertions) {
        eprintln!("build with debug assertions: without them the text goes on with holes whose anchor is wrong (D1)");
        return ExitCode::FAILURE;
    }
    // The text panics on an orphan hole; the comparison catches it.
    std::panic::set_hook(Box::new(|_| {}));
    let arguments: Vec<String> = std::env::args().skip(1).collect();
    let count = |argument: &String| argument.parse().expect("a count");
    match &arguments[..] {
        [option, graphs] if option == "--store" => print!("{}", stored::write(count(graphs))),
        [option, graphs @ ..] if option == "--look" => look(graphs.first().map_or(2_000, count)),
        graphs => return compare(graphs.first().map_or(30_000, count)),
    }
    ExitCode::SUCCESS
}

fn compare(graphs: usize) -> ExitCode {
    println!("{}", Tally::HEADINGS);
    if generated(graphs) + made(graphs / 3) == 0 { ExitCode::SUCCESS } else { ExitCode::FAILURE }
}

/// What the graphs of each family look like.
fn look(graphs: usize) {
    println!("{}", Look::HEADINGS);
    for family in planar::FAMILIES {
        let samples = (0..graphs).map(|seed| tally::planar_sample(family, &mut Rng::new(seed as u64)));
        println!("| {family:?} |{}", Look::of(samples));
    }
    for family in polygons::FAMILIES {
        let samples = (0..graphs).filter_map(|seed| Question::new(family, seed).sample());
        println!("| {family:?} |{}", Look::of(samples));
    }
}

/// Generated graphs, of every planar family and outside the domain: how many findings.
fn generated(graphs: usize) -> usize {
    let mut total = Tally::default();
    for family in planar::FAMILIES {
        let tally = tally::planar(family, graphs);
        print_row(&format!("{family:?}"), &tally);
        total.add(&tally);
    }
    print_row("all planar", &total);
    let outside = tally::outside(graphs);
    print_row("outside the domain", &outside);
    total.findings + outside.findings
}

/// Graphs that the text makes, of every family of polygons: how many findings.
fn made(graphs: usize) -> usize {
    let mut total = Tally::default();
    for family in polygons::FAMILIES {
        let (tally, smallest) = front(family, graphs);
        print_row(&format!("{family:?}"), &tally);
        if let Some(question) = smallest {
            println!("smallest polygons with a finding: {question}");
        }
        total.add(&tally);
    }
    print_row("all front", &total);
    total.findings
}

fn print_row(name: &str, tally: &Tally) {
    println!("| {name} |{tally}");
    if let Some((links, file)) = &tally.smallest {
        let digits: String = file.iter().map(|byte| format!("{byte:02x}")).collect();
        println!("smallest finding, {links} links: {digits}");
    }
}
