//! What this crate adds to the library, on generated graphs and tables: reasons of refusals, alternating sides, shapes
//! without straight points, and the workspace beside calls with buffers of their own. Seeds are fixed.

use generators::planar::{FAMILIES, sample, upset_tops};
use generators::rng::Rng;
use generators::{Sample, damage, joints, tables, wild};
use guovdamas::{ContourDirection, Options, Refusal, RefusalKind, Shapes, Workspace, lent};
use lending::{buffers, lists, table};
use reading::graph::Graph;
use std::collections::BTreeMap;

/// How often each reason was met, by its name.
#[derive(Default)]
struct Reasons(BTreeMap<String, usize>);

impl Reasons {
    fn count(&mut self, refusal: Refusal) {
        let kind = refusal.kind();
        assert!(!matches!(kind, RefusalKind::Unknown { .. }), "{refusal}");
        assert_eq!(kind.number(), refusal.number());
        let words = format!("{kind:?}");
        *self.0.entry(words.split([' ', '{']).next().unwrap_or_default().to_string()).or_default() += 1;
    }

    fn report(&self, least: usize) {
        println!("{:?}", self.0);
        assert!(self.0.len() >= least, "only {} reasons are met", self.0.len());
    }
}

#[test]
fn every_refusal_of_a_graph_has_a_reason() {
    let mut reasons = Reasons::default();
    for seed in 0..20_000 {
        let mut rng = Rng::new(seed ^ 8 << 40);
        let Sample { mut graph, state } = sample(FAMILIES[seed as usize % FAMILIES.len()], 3, &mut rng);
        let mut soiled = Sample { graph: graph.clone(), state }.soiled_buffers(&mut rng);
        damage::graph(1 + rng.below(7) as u32, &mut graph, &mut soiled, &mut rng);
        if let Err(refusal) = lent::extract(lists(&graph), Options::default(), buffers(&mut soiled)) {
            reasons.count(refusal);
        }
    }
    reasons.report(20);
}

#[test]
fn every_refusal_of_a_table_has_a_reason() {
    let mut reasons = Reasons::default();
    for seed in 0..20_000 {
        let mut rng = Rng::new(seed ^ 9 << 40);
        let clockwise = rng.chance(50);
        let generate = rng.choose(&[tables::sample, tables::crowded]);
        let mut soiled = generate(6, clockwise, &mut rng);
        let room = if rng.chance(70) { damage::table(&mut soiled, &mut rng) } else { soiled.contours() };
        let direction = ContourDirection::from_clockwise(clockwise != rng.chance(20));
        if let Err(refusal) = lent::bind(table(&soiled), direction, &mut vec![0; room]) {
            reasons.count(refusal);
        }
    }
    reasons.report(14);
}

#[test]
fn every_refusal_of_reports_has_a_reason() {
    let mut reasons = Reasons::default();
    for seed in 0..20_000 {
        let mut rng = Rng::new(seed ^ 13 << 40);
        let mut soiled = tables::sample(6, false, &mut rng);
        let room = if rng.chance(80) { damage::table(&mut soiled, &mut rng) } else { soiled.contours() };
        let mut lists = [(); 5].map(|()| vec![0.0; (soiled.contours() + rng.below(30)).saturating_sub(1)]);
        let [area, left, bottom, right, top] = lists.each_mut();
        let lists = lent::ReportLists { area, left, bottom, right, top };
        if let Err(refusal) = lent::report_all(table(&soiled), &vec![0; room], lists) {
            reasons.count(refusal);
        }
    }
    reasons.report(12);
}

/// The total over the links that are not skipped, each directed with its filled side on the left.
fn link_total(graph: &Graph, state: &[u8]) -> i64 {
    let unskipped = (0..graph.links()).filter(|&link| state[link] == 0);
    let adds = |link: usize| {
        let (a, b) = (graph.a(link), graph.b(link));
        let forward = a.x as i64 * b.y as i64 - a.y as i64 * b.x as i64;
        if graph.top[link] == 1 { forward } else { -forward }
    };
    unskipped.map(adds).sum()
}

/// Where sides alternate, no walk is refused and the areas add up; where a walk is refused, they do not alternate.
#[test]
fn sides_that_alternate_are_walked_whole() {
    let (mut even, mut uneven, mut refused) = (0, 0, 0);
    for seed in 0..30_000 {
        let mut rng = Rng::new(seed ^ 10 << 40);
        let mut sample = match rng.below(3) {
            0 => wild::sample(9, &mut rng),
            _ => sample(FAMILIES[seed as usize % FAMILIES.len()], 4, &mut rng),
        };
        if rng.chance(50) {
            upset_tops(&mut sample, &mut rng);
        }
        let (lent, clockwise) = (lists(&sample.graph), rng.chance(50));
        let options = Options {
            output_direction: ContourDirection::from_clockwise(clockwise),
            min_output_area: 3,
            preserve_output_collinear: rng.chance(50),
        };
        let walked = lent.extract_contours(&sample.state, options);
        match (lent.sides_alternate(&sample.state), &walked) {
            (Ok(()), Ok(contours)) => {
                let (total, counts) = (link_total(&sample.graph, &sample.state), contours.counts());
                assert_eq!(counts.kept_area + counts.rejected_area, if clockwise { -total } else { total });
                even += 1;
            }
            (Ok(()), Err(refusal)) => panic!("{refusal}: {sample:?}"),
            (Err(_), Ok(_)) => uneven += 1,
            (Err(_), Err(_)) => refused += 1,
        }
    }
    println!("alternating {even}, not and yet walked {uneven}, not and refused {refused}");
    assert!(even > 5000 && uneven > 1000 && refused > 1000);
}

#[test]
fn a_workspace_answers_as_a_fresh_call() {
    let mut workspace = Workspace::new();
    for seed in 0..3000 {
        let mut rng = Rng::new(seed ^ 11 << 40);
        let size = rng.choose(&[2, 4, 8]);
        let mut sample = sample(FAMILIES[seed as usize % FAMILIES.len()], size, &mut rng);
        if rng.chance(30) {
            upset_tops(&mut sample, &mut rng);
        }
        let (lent, state) = (lists(&sample.graph), &sample.state[..]);
        let options = Options {
            min_output_area: rng.choose(&[0, 2]),
            preserve_output_collinear: rng.chance(50),
            ..Options::default()
        };
        let due = lent.extract_shapes(state, options);
        assert_eq!(workspace.extract_shapes((lent, state), options), due.as_ref().map_err(|refusal| *refusal));
    }
}

/// A graph with joints, and options with straight points.
fn jointed(seed: u64) -> (Sample, Options) {
    let mut rng = Rng::new(seed ^ 12 << 40);
    let plain = match seed % 5 {
        0 => wild::sample(12, &mut rng),
        _ => sample(FAMILIES[seed as usize % FAMILIES.len()], rng.choose(&[3, 5, 8]), &mut rng),
    };
    let options = Options {
        output_direction: ContourDirection::from_clockwise(rng.chance(50)),
        min_output_area: rng.choose(&[0, 0, 2, 50]),
        preserve_output_collinear: true,
    };
    (joints::split(&plain, &mut rng), options)
}

/// Holes are bound on all points: without the straight ones shapes have the same contours, with the same areas, kinds and
/// owners, and a refusal is the same. The points are those that extraction alone gives.
#[test]
fn shapes_without_straight_points_are_bound_as_with_them() {
    let (mut points_gone, mut searched, mut refused) = (0, 0, 0);
    for seed in 0..6000 {
        let (sample, options) = jointed(seed);
        let (lent, state) = (lists(&sample.graph), &sample.state[..]);
        let without = Options { preserve_output_collinear: false, ..options };
        match (lent.extract_shapes(state, options), lent.extract_shapes(state, without)) {
            (Ok(full), Ok(dropped)) => {
                assert_eq!((dropped.owners(), dropped.bound()), (full.owners(), full.bound()));
                let told = |shapes: &Shapes| {
                    shapes.contours().iter().map(|contour| (contour.kind(), contour.doubled_area())).collect::<Vec<_>>()
                };
                assert_eq!(told(&dropped), told(&full));
                let contours = lent.extract_contours(state, without).expect("it is walked");
                assert_eq!(contours.to_vec(), dropped.contours().to_vec());
                assert_eq!(contours.bind_holes().as_ref(), Ok(&dropped));
                points_gone += full.contours().counts().points - dropped.contours().counts().points;
                searched += (full.len() > 1 && full.len() < full.contours().len()) as usize;
            }
            (full, dropped) => {
                assert_eq!(dropped.err(), full.err());
                refused += 1;
            }
        }
    }
    println!("{points_gone} points gone, {searched} graphs with holes that are searched, {refused} refused");
    assert!(points_gone > 50_000 && searched > 500 && refused > 100);
}
