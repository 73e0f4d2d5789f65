//! Draws a study as i_overlay 9.0.1 reads it: `cargo run -p study --example crate_reading -- study.graph out.svg`.
//!
//! The crate's scan moves on after each rejected walk (D1). The crate cannot be built here; the reading with this rule
//! answers what the crate's given text answers (docs/DIFFERENCES.md).

use guovdamas::study::Study;
use reading::bind::{Table, bind};
use reading::report::square_mm;
use reading::walk::{Scan, Walk, walks};
use std::error::Error;
use std::{env, fs};
use study::answer::{Found, Patch, Shape};
use study::{draw, view};

fn main() -> Result<(), Box<dyn Error>> {
    let arguments: Vec<String> = env::args().skip(1).collect();
    let [file, out] = &arguments[..] else { return Err("usage: crate_reading STUDY.graph OUT.svg".into()) };
    fs::write(out, picture(&fs::read(file)?)?)?;
    Ok(())
}

pub fn picture(file: &[u8]) -> Result<String, Box<dyn Error>> {
    let links = view::links(&Study::parse(file)?);
    Ok(draw::found("As i_overlay 9.0.1 reads it", &links, &found(file).map_err(|refusal| format!("{refusal:?}"))?))
}

fn found(file: &[u8]) -> Result<Found, reading::Refusal> {
    let reading::file::Study { settings, graph, state } = reading::file::parse(file)?;
    let walks = walks(&graph, &state, settings, Scan::MovesOn)?;
    let (kept, rejected): (Vec<&Walk>, Vec<&Walk>) = walks.iter().partition(|walk| walk.kept);
    let mut table = Table::default();
    kept.iter().for_each(|walk| table.push(&walk.points, walk.hole));
    let mut owners = vec![u16::MAX; kept.len()];
    // without a hull the crate asks nothing of a hole and drops it
    if table.kind.contains(&0) {
        bind(&table, settings.clockwise, &mut owners)?;
    }

    let patches = |walks: &[&Walk]| walks.iter().enumerate().map(|(number, walk)| patch(number, walk)).collect();
    let mut found = Found { rejected: patches(&rejected), ..Found::default() };
    let kept: Vec<Patch> = patches(&kept);
    let (holes, hulls): (Vec<Patch>, Vec<Patch>) = kept.into_iter().partition(|patch| patch.is_hole);
    found.shapes = hulls.into_iter().map(|hull| Shape { hull, holes: Vec::new(), net_mm2: 0.0 }).collect();
    for hole in holes {
        match found.shapes.get_mut(usize::from(owners[hole.number])) {
            Some(shape) => shape.holes.push(hole),
            None => found.dropped.push(hole),
        }
    }
    found.shapes.iter_mut().for_each(|shape| shape.net_mm2 = square_mm(shape.doubled_net()));
    found.net_mm2 = square_mm(found.doubled_net());
    Ok(found)
}

fn patch(number: usize, walk: &Walk) -> Patch {
    let points = walk.points.iter().map(|point| [point.x, point.y]).collect();
    let doubled_area = walk.doubled_area().abs();
    Patch { number, is_hole: walk.hole, points, doubled_area, area_mm2: square_mm(doubled_area) }
}
