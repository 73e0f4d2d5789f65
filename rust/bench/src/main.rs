//! Times the library and the given text on the same graphs, in turns in one process, and prints the least time of each
//! with their ratio. Run it with `cargo run --release -p bench`.

mod graphs;
mod machine;
mod polygons;
mod sides;
mod table;
mod timing;

use generators::Sample;
use graphs::Group;
use polygons::{Plan, STEPS};
use reading::file::{Study, encode};
use sides::Library;
use std::hint::black_box;
use std::path::Path;
use std::process::ExitCode;
use std::{fs, io};
use table::Table;
use text::{Run, Unbound};
use timing::{Effort, Round, least, time};

const HELP: &str = "\
Times the static library and the given text of i_overlay 9.0.1 on the same graphs, in turns in one process.

    cargo run --release -p bench [-- --quick | --write FOLDER | --help]

    --quick           few repetitions: to see that it runs, not to have times
    --write FOLDER    times nothing; writes the graphs there, as files of docs/FORMAT.md
    --help            this text

Each time is the least of many runs of one graph; the ratio is the first time by the second. There are graphs near the
most links, 48 different meshes in turn, and tiny graphs; then the whole call of the safe interface, with buffers of its
own and in a workspace, beside the bare calls; then extraction that drops the points on a straight line, beside
extraction that keeps them; then areas and frames of all contours, with their checks, beside a plain loop that checks
nothing; then polygons to shapes, by the text that is patched to call the library, beside the text as it is.
Where the text is not at hand (../shared/docs/src beside the repository) the library is timed alone.
docs/PERFORMANCE.md says what each row is.";

fn main() -> ExitCode {
    let words: Vec<String> = std::env::args().skip(1).collect();
    match words.iter().map(String::as_str).collect::<Vec<_>>()[..] {
        [] => run(Effort::FULL),
        ["--quick"] => run(Effort::QUICK),
        ["--write", folder] => write(Path::new(folder)).expect("the folder can be written"),
        ["--help"] => println!("{HELP}"),
        _ => {
            eprintln!("{HELP}");
            return ExitCode::FAILURE;
        }
    }
    ExitCode::SUCCESS
}

fn run(effort: Effort) {
    println!("{}", machine::described());
    if !text::AT_HAND {
        println!("text: not at hand (../shared/docs/src beside the repository); the library is timed alone");
    }
    if cfg!(debug_assertions) {
        println!("this is no release build: its times say little");
    }
    let (large, tiny) = (graphs::large(), graphs::tiny());
    let sides = ["library", "text"];
    beside_the_text(&Table::in_micros("Large graphs", sides), &large, effort);
    beside_the_text(&Table::in_nanos("Tiny graphs", sides), &tiny, effort);
    let calls = ["whole call", "bare calls"];
    whole_calls(&Table::in_micros("Graph to shapes from Rust, large graphs", calls), &large, effort);
    whole_calls(&Table::in_nanos("Graph to shapes from Rust, tiny graphs", calls), &tiny, effort);
    let points = ["dropped", "kept"];
    dropping(&Table::in_micros("Points on a straight line", points), &graphs::jointed(), effort);
    reporting(&Table::in_micros("Areas and frames", ["library", "plain loop"]), &large, effort);
    if text::AT_HAND {
        let sides = ["patched text", "text"];
        end_to_end(&Table::in_micros("Polygons to shapes, end to end", sides), &polygons::plans(), effort);
    }
}

/// Each graph that has a row of its own, in a file with its name.
fn write(folder: &Path) -> io::Result<()> {
    fs::create_dir_all(folder)?;
    for group in graphs::large().into_iter().chain(graphs::tiny()).chain(graphs::jointed()) {
        let [Sample { graph, state }] = &group.samples[..] else { continue };
        let study = Study { settings: sides::SETTINGS, graph: graph.clone(), state: state.clone() };
        let words = group.name.split(|letter: char| !letter.is_alphanumeric()).filter(|word| !word.is_empty());
        let path = folder.join(words.collect::<Vec<_>>().join("-")).with_extension("graph");
        fs::write(&path, encode(&study))?;
        println!("{}", path.display());
    }
    Ok(())
}

/// The library's steps, each beside the text's.
fn beside_the_text(table: &Table, groups: &[Group], effort: Effort) {
    for group in groups {
        let mut ours: Vec<Library> = group.samples.iter().map(Library::new).collect();
        let mut theirs = sides::texts(group);
        let row = |step, times| table.row(group.name, step, times, group.runs());

        row("its checks alone", least(effort, each(group, &mut ours, Library::check), None));
        let extraction = theirs.as_mut().map(|theirs| each(group, theirs, Run::extract_contours));
        row("extraction", least(effort, each(group, &mut ours, Library::extract), extraction));
        ours.iter_mut().for_each(Library::bind);
        if let Some(theirs) = &theirs {
            ours.iter().zip(theirs).for_each(|(ours, theirs)| sides::agree(group.name, ours, theirs));
        }
        if ours.iter().any(|ours| ours.kinds().contains(&1)) {
            let unbound = theirs.as_ref().map(|theirs| sides::unbound(&ours, theirs));
            let binding = unbound.as_ref().map(|unbound| binds(group, unbound));
            row("binding", least(effort, each(group, &mut ours, Library::bind), binding));
        }
    }
}

/// The whole call of the safe interface beside extraction and binding in lent buffers.
fn whole_calls(table: &Table, groups: &[Group], effort: Effort) {
    for group in groups {
        let mut ours: Vec<Library> = group.samples.iter().map(Library::new).collect();
        let mut bare: Vec<Library> = group.samples.iter().map(Library::new).collect();
        let wholes: [(_, fn(&mut Library)); 2] = [
            ("graph to shapes", |ours| drop(black_box(ours.shapes()))),
            ("graph to shapes, in a workspace", |ours| _ = black_box(ours.shapes_in_workspace())),
        ];
        for (step, whole) in wholes {
            let calls = each(group, &mut bare, |bare| {
                bare.extract();
                bare.bind();
            });
            table.row(group.name, step, least(effort, each(group, &mut ours, whole), Some(calls)), group.runs());
        }
        bare.iter_mut().for_each(|bare| sides::agree_with_safe_interface(group.name, bare));
    }
}

/// Extraction that drops the points on a straight line beside extraction that keeps them.
fn dropping(table: &Table, groups: &[Group], effort: Effort) {
    for group in groups {
        let mut dropped: Vec<Library> = group.samples.iter().map(Library::new).collect();
        let mut kept: Vec<Library> = group.samples.iter().map(Library::new).collect();
        let keeping = each(group, &mut kept, Library::extract);
        let times = least(effort, each(group, &mut dropped, Library::extract_dropping), Some(keeping));
        table.row(group.name, "extraction", times, group.runs());
        dropped.iter().zip(&kept).for_each(|(dropped, kept)| sides::most_points_went(group.name, dropped, kept));
    }
}

/// Areas and frames of all contours beside a plain loop over the same points.
fn reporting(table: &Table, groups: &[Group], effort: Effort) {
    for group in groups {
        let bound = |sample| {
            let mut bound = Library::new(sample);
            bound.extract();
            bound.bind();
            bound
        };
        let mut ours: Vec<Library> = group.samples.iter().map(bound).collect();
        let mut plain: Vec<Library> = group.samples.iter().map(bound).collect();
        let loops = each(group, &mut plain, Library::measure);
        let times = least(effort, each(group, &mut ours, Library::report), Some(loops));
        table.row(group.name, "reports of all contours", times, group.runs());
        ours.iter().zip(&plain).for_each(|(ours, plain)| sides::report_alike(group.name, ours, plain));
    }
}

/// Polygons to shapes by the patched text, beside the text as it is; then the steps of that. The split and the graph are the
/// same code on both sides.
fn end_to_end(table: &Table, plans: &[Plan], effort: Effort) {
    let mut shares = Vec::new();
    for plan in plans {
        let name = format!("{}, {} links", plan.name, plan.links());
        let sides = plan.patched().into_iter().zip(plan.text());
        let times: Vec<_> = sides.map(|(ours, theirs)| least(effort, ours, Some(theirs))).collect();
        STEPS.into_iter().zip(&times).for_each(|(step, &times)| table.row(&name, step, times, 1));
        shares.push(format!("- {name}: {}", table::share(times[2], times[0])));
    }
    println!("\nThe share of {}: by the patched text, and by the text\n\n{}", STEPS[2], shares.join("\n"));
}

/// A round of a step over all graphs of a group.
fn each<'a, S>(group: &Group, sides: &'a mut [S], step: impl Fn(&mut S) + 'a) -> Round<'a> {
    let repeats = group.repeats;
    let repeated = move |side: &mut S| time(|| (0..repeats).for_each(|_| step(black_box(side))));
    Box::new(move || sides.iter_mut().map(&repeated).collect())
}

/// A round of the text's binding, on contours that it may keep.
fn binds<'a>(group: &Group, unbound: &'a [Unbound]) -> Round<'a> {
    let repeats = group.repeats;
    let repeated = |copies: Vec<Unbound>| time(|| copies.into_iter().map(Unbound::bind).collect::<Vec<_>>());
    Box::new(move || {
        let copies: Vec<Vec<Unbound>> = unbound.iter().map(|unbound| vec![unbound.clone(); repeats]).collect();
        copies.into_iter().map(repeated).collect()
    })
}

#[cfg(test)]
mod tests {
    use super::*;

    /// Every row runs on small graphs, and the two sides agree on them (where there are two).
    #[test]
    fn rows_run_and_sides_agree() {
        let effort = Effort { rounds: 1, ..Effort::QUICK };
        let groups = graphs::small();
        beside_the_text(&Table::in_micros("Small graphs", ["library", "text"]), &groups, effort);
        whole_calls(&Table::in_micros("Small graphs, whole calls", ["whole call", "bare calls"]), &groups, effort);
        let points = Table::in_micros("Few points on a straight line", ["dropped", "kept"]);
        dropping(&points, &graphs::small_jointed(), effort);
        reporting(&Table::in_micros("Few areas and frames", ["library", "plain loop"]), &groups, effort);
        if text::AT_HAND {
            end_to_end(&Table::in_micros("Few polygons", ["patched text", "text"]), &polygons::small(), effort);
        }
    }
}
