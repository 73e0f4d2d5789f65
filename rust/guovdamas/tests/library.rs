//! The library against the reading of documents 01 and 02: every answer and every byte of every buffer, on generated
//! graphs and tables, good and damaged. Seeds are fixed; the counts are printed (`cargo test -- --nocapture`).

mod both;

use both::{Met, compare_lookups, compare_reports};
use generators::planar::{FAMILIES, Family, sample};
use generators::rng::Rng;
use generators::{Sample, damage, joints, planar, tables, wild};
use lending::LIBRARY;
use reading::bind::Table;
use reading::graph::{Buffers, Graph};
use reading::{Settings, bind, walk};
use std::collections::BTreeMap;

/// How often each number was answered, 0 for done, how many of the holes that were searched pass their anchor point
/// two, three and more times, and what was met by reports.
#[derive(Default)]
struct Tally {
    answers: BTreeMap<u32, usize>,
    again: [usize; 3],
    reports: Met,
}

impl Tally {
    fn count(&mut self, number: u32) {
        *self.answers.entry(number).or_default() += 1;
    }

    /// Counts the holes of a table with two hulls or more that passed checks 10 and 11.
    fn count_holes(&mut self, table: &Table, clockwise: bool) {
        let (holes, hulls): (Vec<usize>, Vec<usize>) =
            (0..table.contours()).partition(|&contour| table.is_hole(contour));
        if hulls.len() < 2 {
            return;
        }
        for hole in holes {
            let visits = bind::anchor_visits(&table.contour(hole), clockwise).count();
            if visits > 1 {
                self.again[visits.min(4) - 2] += 1;
            }
        }
    }

    /// Prints the counts and sees that each number was met often enough to mean something.
    fn report(&self, what: &str, numbers: &[u32]) {
        let Self { answers, again, reports } = self;
        println!("{what}: {} compared; answers by number: {answers:?}", answers.values().sum::<usize>());
        println!("  holes searched that pass their anchor two, three and more times: {again:?}");
        reports.report(
            "  reports",
            &[("found", 100), ("odd areas", 20), ("tables all found", 20), ("tables refused", 20)],
        );
        for number in numbers {
            assert!(answers.get(number).is_some_and(|&met| met >= 20), "{what}: {number} is hardly met");
        }
    }

    /// Sees that holes that pass their anchor again were met so often, by how many times they do.
    fn assert_again(&self, least: [usize; 3]) {
        assert!(self.again.iter().zip(least).all(|(met, least)| *met >= least), "{:?} of {least:?}", self.again);
    }
}

/// Extracts by both, then binds what was found by both; all answers and buffers must be equal. Where straight points are
/// dropped, the same with them too.
fn compare_extraction(graph: &Graph, lent: &Buffers, settings: Settings, tally: &mut Tally) {
    if settings.drop_straight {
        compare_extraction(graph, lent, Settings { drop_straight: false, ..settings }, tally);
    }
    let (mut read, mut ours) = (lent.clone(), lent.clone());
    let due = walk::extract(graph, settings, &mut read);
    let answer = (LIBRARY.extract)(graph, settings, &mut ours);
    assert_eq!(answer, due, "{graph:?} {lent:?} {settings:?}");
    assert_eq!(ours, read, "{graph:?} {lent:?} {settings:?}");
    match due {
        Err(refusal) => tally.count(refusal.number),
        Ok(counts) => {
            compare_binding(&counts.table(&read), counts.contours as usize, settings.clockwise, tally);
        }
    }
}

/// Binds by both, then looks up every contour and one more, and asks for their reports; all answers and buffers must be
/// equal.
fn compare_binding(lent: &Table, room: usize, clockwise: bool, tally: &mut Tally) {
    let soiled: Vec<u16> = (0..room as u16).map(|position| position.wrapping_mul(40_503)).collect();
    let (mut read, mut ours) = (soiled.clone(), soiled);
    let due = bind::bind(lent, clockwise, &mut read);
    assert_eq!((LIBRARY.bind)(lent, clockwise, &mut ours), due, "{lent:?} {clockwise}");
    assert_eq!(ours, read, "{lent:?} {clockwise}");
    let number = due.err().map_or(0, |refusal| refusal.number);
    tally.count(number);
    if matches!(number, 0 | 12) {
        tally.count_holes(lent, clockwise);
    }
    compare_lookups(lent, &read);
    compare_reports(lent, &read, &mut tally.reports);
}

/// A direction, straight points kept or dropped, and a minimum that some of the graph's walks just meet or just miss, or one
/// that no walk meets; doubled in 64 bits, some of these would wrap to what a walk meets.
fn settings(sample: &Sample, rng: &mut Rng) -> Settings {
    let all = Settings { clockwise: rng.chance(50), minimum: 0, drop_straight: rng.chance(30) };
    let walks = walk::walks(&sample.graph, &sample.state, all, walk::Scan::Stays).unwrap_or_default();
    let sizes = walks.iter().map(|walk| walk.doubled_area().unsigned_abs() as u64 / 2);
    let mut minima = vec![0, 0, 1, (1 << 63) - 1, 1 << 63, u64::MAX];
    minima.extend(sizes.clone().flat_map(|size| [size, size + 1]));
    minima.extend(sizes.take(1).map(|size| (1 << 63) + size));
    Settings { minimum: rng.choose(&minima), ..all }
}

#[test]
fn planar_graphs() {
    for family in FAMILIES {
        let mut tally = Tally::default();
        for seed in 0..4000 {
            let mut rng = Rng::new(seed ^ (1 + family as u64) << 40);
            let size = rng.choose(&[2, 3, 4, 5, 6, 8]);
            let sample = sample(family, size, &mut rng);
            let (settings, lent) = (settings(&sample, &mut rng), sample.soiled_buffers(&mut rng));
            compare_extraction(&sample.graph, &lent, settings, &mut tally);
        }
        tally.report(&format!("planar, {family:?}"), &[0]);
        if family == Family::Islands {
            tally.assert_again([300, 50, 10]);
        }
    }
}

/// Joints on straight edges, in graphs of every sort.
#[test]
fn graphs_with_joints() {
    let mut tally = Tally::default();
    for seed in 0..12_000 {
        let mut rng = Rng::new(seed ^ 12 << 40);
        let mut plain = match rng.below(4) {
            0 => wild::sample(9, &mut rng),
            _ => sample(FAMILIES[seed as usize % FAMILIES.len()], 4, &mut rng),
        };
        if rng.chance(20) {
            planar::upset_tops(&mut plain, &mut rng);
        }
        let sample = joints::split(&plain, &mut rng);
        let (settings, mut lent) = (settings(&sample, &mut rng), sample.soiled_buffers(&mut rng));
        let mut graph = sample.graph;
        if rng.chance(20) {
            damage::graph(1 + rng.below(7) as u32, &mut graph, &mut lent, &mut rng);
        }
        compare_extraction(&graph, &lent, Settings { drop_straight: true, ..settings }, &mut tally);
    }
    // 11: without straight points a hole's anchor may stand elsewhere
    tally.report("joints", &[0, 3, 7, 8, 9, 11, 12]);
    tally.assert_again([200, 50, 10]);
}

#[test]
fn large_graphs() {
    let mut tally = Tally::default();
    for seed in 0..60 {
        let mut rng = Rng::new(seed ^ 2 << 40);
        let sample = sample(FAMILIES[seed as usize % FAMILIES.len()], 30, &mut rng);
        let (settings, lent) = (settings(&sample, &mut rng), sample.soiled_buffers(&mut rng));
        compare_extraction(&sample.graph, &lent, settings, &mut tally);
    }
    tally.report("large", &[0]);
}

/// More entries at a node than are laid in the order in which they come.
#[test]
fn nodes_of_many_links() {
    let mut tally = Tally::default();
    let mut graphs_with_many = 0;
    for seed in 0..600 {
        let mut rng = Rng::new(seed ^ 11 << 40);
        let sample = sample(rng.choose(&[Family::Fan, Family::Flower]), 40, &mut rng);
        let (settings, mut lent) = (settings(&sample, &mut rng), sample.soiled_buffers(&mut rng));
        let mut graph = sample.graph;
        graphs_with_many += (0..graph.nodes()).any(|node| graph.entries(node).count() > 32) as usize;
        if rng.chance(50) {
            damage::graph(rng.choose(&[5, 6, 7]), &mut graph, &mut lent, &mut rng);
        }
        compare_extraction(&graph, &lent, settings, &mut tally);
    }
    assert!(graphs_with_many > 200, "only {graphs_with_many} graphs have such a node");
    tally.report("many links at a node", &[0, 5, 6, 7]);
}

#[test]
fn upset_tops_and_wild_graphs() {
    let mut tally = Tally::default();
    for seed in 0..40_000 {
        let mut rng = Rng::new(seed ^ 3 << 40);
        let sample = if rng.chance(60) {
            wild::sample(9, &mut rng)
        } else {
            let mut sample = sample(FAMILIES[seed as usize % FAMILIES.len()], 4, &mut rng);
            planar::upset_tops(&mut sample, &mut rng);
            sample
        };
        let (settings, lent) = (settings(&sample, &mut rng), sample.soiled_buffers(&mut rng));
        compare_extraction(&sample.graph, &lent, settings, &mut tally);
    }
    tally.report("upset tops and wild", &[0, 8, 9, 12]);
    tally.assert_again([200, 50, 10]);
}

#[test]
fn damaged_graphs() {
    let mut tally = Tally::default();
    for seed in 0..40_000 {
        let mut rng = Rng::new(seed ^ 4 << 40);
        let Sample { mut graph, state } = sample(FAMILIES[seed as usize % FAMILIES.len()], 3, &mut rng);
        let mut lent = Sample { graph: graph.clone(), state }.soiled_buffers(&mut rng);
        let settings =
            Settings { clockwise: rng.chance(50), minimum: rng.choose(&[0, 1, 5]), drop_straight: rng.chance(30) };
        // Now and then two faults, so that the order of the checks tells.
        if rng.chance(30) {
            damage::graph(rng.choose(&[4, 6]), &mut graph, &mut lent, &mut rng);
        }
        damage::graph(1 + rng.below(7) as u32, &mut graph, &mut lent, &mut rng);
        compare_extraction(&graph, &lent, settings, &mut tally);
    }
    tally.report("damaged", &[0, 1, 2, 3, 4, 5, 6, 7, 8]);
}

#[test]
fn tables_with_ties() {
    let mut tally = Tally::default();
    for seed in 0..60_000 {
        let mut rng = Rng::new(seed ^ 5 << 40);
        let clockwise = rng.chance(50);
        let table = tables::sample(7, clockwise, &mut rng);
        let room = table.contours() + rng.below(3);
        compare_binding(&table, room, clockwise, &mut tally);
    }
    tally.report("tables", &[0, 12]);
    tally.assert_again([5000, 1000, 100]);
}

#[test]
fn tables_with_anchors_passed_again() {
    for clockwise in [false, true] {
        let mut tally = Tally::default();
        for seed in 0..30_000 {
            let mut rng = Rng::new(seed ^ 13 << 40);
            let table = tables::crowded(6, clockwise, &mut rng);
            let room = table.contours() + rng.below(3);
            compare_binding(&table, room, clockwise, &mut tally);
        }
        tally.report("crowded tables", &[0, 11, 12]);
        tally.assert_again([5000; 3]);
    }
}

#[test]
fn damaged_tables() {
    let mut tally = Tally::default();
    for seed in 0..40_000 {
        let mut rng = Rng::new(seed ^ 6 << 40);
        let clockwise = rng.chance(50);
        let generate = rng.choose(&[tables::sample, tables::crowded]);
        let mut table = generate(6, clockwise, &mut rng);
        let room = damage::table(&mut table, &mut rng);
        compare_binding(&table, room, clockwise != rng.chance(20), &mut tally);
    }
    tally.report("damaged tables", &[0, 10, 11, 12]);
    tally.assert_again([300; 3]);
}

#[test]
fn lookups_of_any_owners() {
    for seed in 0..10_000 {
        let mut rng = Rng::new(seed ^ 7 << 40);
        let table = tables::sample(6, false, &mut rng);
        let owner: Vec<u16> =
            (0..table.contours() + rng.below(2)).map(|_| rng.choose(&[0, 1, 2, 3, 65_534, 65_535])).collect();
        compare_lookups(&table, &owner[rng.below(2).min(owner.len())..]);
        compare_lookups(&table, &owner);
    }
}
