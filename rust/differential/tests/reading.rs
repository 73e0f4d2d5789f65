//! What document 01 and requests a to c of document 02 promise of every run, seen on the reading, generated graphs and tables.

use differential::tally::ALL;
use generators::planar::{FAMILIES, sample};
use generators::rng::Rng;
use generators::{Sample, joints, planar, tables, wild};
use reading::bind::{Table, anchor_visits, bind, contours_under, lookup};
use reading::fill::{area_of_links, sides_alternate};
use reading::graph::{Buffers, check};
use reading::straight::is_straight;
use reading::walk::{Counts, Scan, extract, walks};
use reading::{Refusal, Settings};

/// Extraction into least room, then binding; the links walked are those that were unvisited, what was extracted passes checks
/// 10 and 11, and after binding every contour is found.
fn run(sample: &Sample, settings: Settings) -> Result<i64, Refusal> {
    let mut lent = Buffers::for_states(sample.state.clone());
    let counts = extract(&sample.graph, settings, &mut lent)?;
    let unvisited = sample.state.iter().filter(|&&state| state == 0).count();
    assert_eq!(counts.walked as usize, unvisited);
    assert!(lent.state.iter().all(|&state| state != 0));

    let table = counts.table(&lent);
    let contours = table.contours();
    let mut owner = vec![0; contours];
    match bind(&table, settings.clockwise, &mut owner) {
        Ok(_) => assert!((0..contours).all(|contour| lookup(&table, &owner, contour).is_some())),
        Err(refusal) => assert_eq!(refusal.number, 12, "{table:?}"),
    }
    Ok(counts.kept_area + counts.rejected_area)
}

#[test]
fn planar_graphs_are_walked_whole() {
    for seed in 0..6000 {
        let mut rng = Rng::new(seed ^ 11 << 40);
        let sample = sample(FAMILIES[seed as usize % FAMILIES.len()], 6, &mut rng);
        assert!(sides_alternate(&sample.graph, &sample.state));
        for clockwise in [false, true] {
            let minimum = rng.choose(&[0, 1, 10]);
            let area = area_of_links(&sample.graph, &sample.state, clockwise);
            assert_eq!(run(&sample, Settings { clockwise, minimum, ..ALL }), Ok(area));
        }
    }
}

#[test]
fn other_graphs_are_walked_whole_or_refused() {
    let mut refused = 0;
    for seed in 0..6000 {
        let mut rng = Rng::new(seed ^ 12 << 40);
        let mut graph = sample(FAMILIES[seed as usize % FAMILIES.len()], 4, &mut rng);
        planar::upset_tops(&mut graph, &mut rng);
        for graph in [graph, wild::sample(8, &mut rng)] {
            let settings = Settings { clockwise: rng.chance(50), minimum: rng.choose(&[0, 1]), ..ALL };
            let is_even = sides_alternate(&graph.graph, &graph.state);
            let area = area_of_links(&graph.graph, &graph.state, settings.clockwise);
            match run(&graph, settings) {
                Ok(walked) => assert!(walked == area || !is_even),
                Err(Refusal { number: 8 | 9, .. }) => {
                    assert!(!is_even);
                    refused += 1;
                }
                Err(refusal) => panic!("the generators make graphs that pass checks 1 to 7, but {refusal:?}"),
            }
        }
    }
    println!("{refused} of 12000 refused with 8 or 9");
}

/// A graph with joints on straight edges: planar, with upset tops, or wild.
fn jointed(seed: u64, rng: &mut Rng) -> Sample {
    let plain = match seed % 4 {
        0 => wild::sample(9, rng),
        kind => {
            let mut planar = sample(FAMILIES[seed as usize % FAMILIES.len()], rng.choose(&[2, 4, 6]), rng);
            if kind == 1 {
                planar::upset_tops(&mut planar, rng);
            }
            planar
        }
    };
    let jointed = joints::split(&plain, rng);
    let lent = Buffers::for_states(jointed.state.clone());
    assert_eq!(check(&jointed.graph, &lent), Ok(()), "a graph that passes the checks passes them with joints");
    jointed
}

fn extracted(sample: &Sample, settings: Settings) -> Result<(Counts, Vec<u8>, Table), Refusal> {
    let mut lent = Buffers::for_states(sample.state.clone());
    let counts = extract(&sample.graph, settings, &mut lent)?;
    let table = counts.table(&lent);
    Ok((counts, lent.state, table))
}

/// How many points went, by whether from a hole, the direction, and whether they stood first.
type Gone = [[[usize; 2]; 2]; 2];

/// Sees that each contour is the full one without the points that are straight there, and counts these.
fn see_what_went(full: &Table, dropped: &Table, clockwise: bool, gone: &mut Gone) {
    assert_eq!(dropped.kind, full.kind);
    for contour in 0..full.contours() {
        let points = full.contour(contour);
        let (straight, left): (Vec<usize>, Vec<usize>) =
            (0..points.len()).partition(|&position| is_straight(&points, position));
        assert_eq!(dropped.contour(contour), left.iter().map(|&position| points[position]).collect::<Vec<_>>());
        let ours = &mut gone[full.is_hole(contour) as usize][clockwise as usize];
        straight.iter().for_each(|&position| ours[(position == 0) as usize] += 1);
    }
}

/// Of a graph that passes checks 1 to 7 no contour is left out, the points that go are those that are straight in the full
/// contour, and all else is as it was.
#[test]
fn points_on_a_line_go_and_contours_stay() {
    let mut gone = Gone::default();
    let mut refused = 0;
    for seed in 0..4000 {
        let mut rng = Rng::new(seed ^ 13 << 40);
        let sample = jointed(seed, &mut rng);
        for clockwise in [false, true] {
            let settings = Settings { clockwise, minimum: rng.choose(&[0, 1, 100]), drop_straight: false };
            let dropping = Settings { drop_straight: true, ..settings };
            match (extracted(&sample, settings), extracted(&sample, dropping)) {
                (Ok((full, states, table)), Ok((counts, left, dropped))) => {
                    assert_eq!(counts, Counts { points: counts.points, left_out: 0, ..full });
                    assert_eq!(left, states);
                    see_what_went(&table, &dropped, clockwise, &mut gone);
                }
                (full, dropped) => {
                    assert_eq!(dropped, full);
                    refused += 1;
                }
            }
        }
    }
    println!("points gone, by hull or hole, direction, and whether first: {gone:?}; {refused} refused");
    assert!(gone.as_flattened().iter().all(|[later, _]| *later > 1000) && refused > 100);
    // the least point of a contour is a corner: a walk that begins there begins at no joint
    assert!(gone[0][0][1] > 100 && gone[1][1][1] > 100);
}

/// Minima about an area, and huge ones: in 64 bits, twice the last but one would wrap to twice the area.
fn minima(area: u64) -> [u64; 8] {
    [0, 1, area, area + 1, (1 << 63) - 1, 1 << 63, (1 << 63) + area, u64::MAX]
}

/// Request c: "compare the absolute doubled area with twice the minimum". It is document 01's rule, which the reading has.
#[test]
fn doubled_areas_against_twice_the_minimum() {
    let mut seen = [[0; 2]; 2];
    for seed in 0..3000 {
        let mut rng = Rng::new(seed ^ 15 << 40);
        let sample = sample(FAMILIES[seed as usize % FAMILIES.len()], 5, &mut rng);
        let clockwise = rng.chance(50);
        let walked = |minimum| {
            let settings = Settings { clockwise, minimum, ..ALL };
            walks(&sample.graph, &sample.state, settings, Scan::Stays).unwrap()
        };
        let first = walked(0).first().map_or(0, |walk| walk.doubled_area().unsigned_abs() as u64 / 2);
        for minimum in minima(first) {
            for walk in walked(minimum) {
                let doubled = walk.doubled_area().unsigned_abs();
                assert_eq!(walk.kept, doubled >= 2 * u128::from(minimum), "{doubled} {minimum}");
                seen[(doubled % 2) as usize][walk.kept as usize] += 1;
            }
        }
    }
    println!("walks of even and of odd doubled areas, rejected and kept: {seen:?}");
    assert!(seen.as_flattened().iter().all(|&count| count > 1000));
}

/// A table that passes checks 10 and 11, with two hulls or more; none where the generators give another.
fn searched_table(seed: u64, clockwise: bool) -> Option<(Table, Result<Vec<u16>, Refusal>)> {
    let mut rng = Rng::new(seed ^ 14 << 40);
    let table = match seed % 2 {
        0 => tables::sample(7, clockwise, &mut rng),
        _ => tables::crowded(6, clockwise, &mut rng),
    };
    let mut owner = vec![0; table.contours()];
    let answer = bind(&table, clockwise, &mut owner).map(|_| owner);
    let is_searched = table.kind.iter().filter(|&&kind| kind == 0).count() > 1;
    let is_refused = matches!(answer, Err(Refusal { number: 10 | 11, .. }));
    (is_searched && !is_refused).then_some((table, answer))
}

/// 12 says that no edge lies under the hole, and that alone: under no anchor lies an edge of its own hole.
#[test]
fn orphans_have_no_edge_under_them() {
    for clockwise in [false, true] {
        let (mut orphans, mut bound, mut again) = (0, 0, 0);
        for (table, answer) in (0..60_000).filter_map(|seed| searched_table(seed, clockwise)) {
            let holes = || (0..table.contours()).filter(|&contour| table.is_hole(contour));
            let under = |hole: usize| contours_under(&table, hole, clockwise);
            assert!(holes().all(|hole| !under(hole).contains(&hole)), "{table:?} {clockwise}");
            again += holes().filter(|&hole| anchor_visits(&table.contour(hole), clockwise).count() > 1).count();
            match answer {
                Ok(_) => {
                    assert!(holes().all(|hole| !under(hole).is_empty()), "{table:?} {clockwise}");
                    bound += 1;
                }
                Err(Refusal { number, place }) => {
                    assert_eq!((number, under(place as usize)), (12, Vec::new()), "{table:?} {clockwise}");
                    orphans += 1;
                }
            }
        }
        println!(
            "clockwise {clockwise}: {bound} tables bound, {orphans} refused, {again} holes pass their anchor again"
        );
        assert!(bound > 10_000 && orphans > 5000 && again > 20_000);
    }
}
