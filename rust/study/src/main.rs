//! `study`: shows, draws, dumps and makes studies. `study --help` says how.

use guovdamas::study::Study;
use std::fs;
use std::io::Write;
use std::path::Path;
use std::process::ExitCode;
use study::{draw, show, text};

const HELP: &str = "\
study: shows, draws, dumps and makes studies, the files that the program reads (docs/FORMAT.md)

  study show FILE [--json]     what is in it and what is answered: shapes, rejected patches, dropped holes, or a refusal
  study draw FILE OUT.svg      a picture of it; a study that is refused is drawn too, with the place in red
    --drop-straight            with either: contours without the points on one line with their two neighbours; the
                               picture has a dot for each that is left
  study dump FILE              its text form, on standard output
  study make TEXT OUT.graph    the study of a text
  study --help                 this

The status is 0 if that was done, also for a study that is refused, and 1 if not; then standard error says why.
Coordinates are units of 0.01 mm, and y points upward. Areas are in mm², a shape's less its holes.

JSON is one object: links, skipped, nodes, crosses, direction, minimum, frame_mm (left, bottom, right, top), and
  straight_points              kept or dropped
  uneven_node                  null, or the lowest node round which filled and empty do not come by turns
  refused                      null, or number, place, of (link, node, contour, graph or file), points, reason, walk
  shapes                       each with shape (its number), net_mm2, hull, holes
  rejected, dropped            patches, as hull and holes: number, kind, mm2, points
  net_mm2, rejected_hulls_mm2, rejected_holes_mm2, dropped_mm2

";

const FLAGS: [&str; 2] = ["--json", "--drop-straight"];

fn main() -> ExitCode {
    let arguments: Vec<String> = std::env::args().skip(1).collect();
    let (flags, words): (Vec<&str>, Vec<&str>) =
        arguments.iter().map(String::as_str).partition(|word| FLAGS.contains(word));
    let [json, drop_straight] = FLAGS.map(|flag| flags.contains(&flag));
    let done = match words[..] {
        ["show", file] => show(file, json, drop_straight),
        ["draw", file, out] if !json => picture(file, drop_straight).and_then(|svg| write(out, svg.as_bytes())),
        ["--help" | "-h" | "help"] if flags.is_empty() => say(&format!("{HELP}{}", text::FORM)),
        ["dump", file] if flags.is_empty() => parse(file).and_then(|study| say(&text::dump(&study))),
        ["make", text, out] if flags.is_empty() => make(text).and_then(|bytes| write(out, &bytes)),
        _ => Err("these words are not understood; `study --help` says which are".into()),
    };
    match done {
        Ok(()) => ExitCode::SUCCESS,
        Err(error) => {
            eprintln!("study: {error}");
            ExitCode::FAILURE
        }
    }
}

fn say(words: &str) -> Result<(), String> {
    std::io::stdout().write_all(words.as_bytes()).map_err(|error| format!("standard output: {error}"))
}

fn read(file: &str) -> Result<Vec<u8>, String> {
    fs::read(file).map_err(|error| format!("{file}: {error}"))
}

fn write(file: &str, bytes: &[u8]) -> Result<(), String> {
    fs::write(file, bytes).map_err(|error| format!("{file}: {error}"))
}

fn parse(file: &str) -> Result<Study, String> {
    Study::parse(&read(file)?).map_err(|error| format!("{file}: {error}"))
}

/// The study with straight points kept in its contours, or dropped.
fn asked(mut study: Study, drop_straight: bool) -> Study {
    study.options.preserve_output_collinear = !drop_straight;
    study
}

fn show(file: &str, json: bool, drop_straight: bool) -> Result<(), String> {
    let study = Study::parse(&read(file)?).map(|study| asked(study, drop_straight));
    say(&if json { show::json(&study)? } else { show::words(&study)? })
}

fn picture(file: &str, drop_straight: bool) -> Result<String, String> {
    let title = Path::new(file).file_stem().unwrap_or_default().to_string_lossy();
    draw::study(&title, &asked(parse(file)?, drop_straight))
}

fn make(file: &str) -> Result<Vec<u8>, String> {
    let text = String::from_utf8(read(file)?).map_err(|_| format!("{file}: it is no text"))?;
    let study = text::make(&text).map_err(|error| format!("{file}: {error}"))?;
    study.encode().map_err(|error| format!("{file}: {error}"))
}
