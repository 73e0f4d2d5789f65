//! Polygons, and the graphs that the text's own front end makes of them. The program `differential` compares many more.

use differential::compare::{Equal, ask_text, compare};
use differential::front::front;
use differential::sides::{by, by_crate_rules};
use differential::tally::{ALL, Compared, Tally, compare_run};
use generators::polygons::{FAMILIES, Polygons, sample};
use generators::rng::Rng;
use generators::{Numbering, Sample, planar};
use reading::file::Study;
use reading::geometry::Point;
use reading::graph::Graph;
use reading::{MAX_COORDINATE, READING, Settings};
use text::{Front, Run};

#[test]
fn polygons_lie_in_range() {
    let mut at_bounds = 0;
    for seed in 0..3000 {
        let mut rng = Rng::new(seed ^ 21 << 40);
        let Polygons { subject, clip } = sample(FAMILIES[seed as usize % FAMILIES.len()], 6, &mut rng);
        let points = subject.iter().chain(&clip).flatten();
        assert!(points.clone().all(|point| point.in_range()));
        at_bounds += points.filter(|point| point.x.abs() == MAX_COORDINATE).count();
    }
    assert!(at_bounds > 100);
}

#[test]
fn shrinking_keeps_what_is_asked_for() {
    for seed in 0..500 {
        let polygons = sample(FAMILIES[seed as usize % FAMILIES.len()], 6, &mut Rng::new(seed ^ 22 << 40));
        let is_wanted = |polygons: &Polygons| {
            let points = |side: &[Vec<_>]| side.iter().map(Vec::len).sum::<usize>();
            points(&polygons.subject) > 3 && points(&polygons.clip) > 2
        };
        if is_wanted(&polygons) {
            let Polygons { subject, clip } = polygons.shrink(is_wanted);
            assert_eq!([subject.concat().len(), clip.concat().len()], [4, 3]);
        }
    }
}

#[test]
fn made_graphs() {
    if !text::AT_HAND {
        println!("the text is not at hand: no graph was made of polygons");
        return;
    }
    println!("{}", Tally::HEADINGS);
    let mut revisited = 0;
    for family in FAMILIES {
        let (tally, smallest) = front(family, 336);
        println!("| {family:?} |{tally}");
        assert_eq!(tally.findings, 0, "{}", smallest.expect("a finding is kept"));
        revisited += tally.revisited;
    }
    assert!(revisited > 50, "only {revisited} runs have anchors passed again");
}

/// The graph that the generators make of the mesh of some patches, and the one that the text makes of its faces as polygons.
fn generated_and_made(family: planar::Family, rng: &mut Rng) -> [Sample; 2] {
    const NON_ZERO: usize = 1;
    let patch = planar::patches(family, 5, rng);
    let (mesh, subject, clip) = (&patch.mesh, &patch.filled, &planar::clip(&patch, rng));
    let rule = rng.below(Run::RULES);
    let links = planar::overlaid(mesh, subject, clip, planar::RULES[rule]);
    let made = Front::new(&mesh.contours(subject), &mesh.contours(clip), true).view(NON_ZERO, rule);
    let (graph, state) = made.map_or((Graph::of_links(&[]), Vec::new()), |run| run.lent());
    [Sample::from_links(links, Numbering::Sorted, rng), Sample { graph, state }]
}

/// So planar graphs are of the crate's kind, with its numbers and lists. What a skipped link's top says is of no account.
#[test]
fn planar_graphs_are_those_that_the_text_makes() {
    if !text::AT_HAND {
        println!("the text is not at hand: it was not asked for planar graphs");
        return;
    }
    for seed in 0..1400 {
        let family = planar::FAMILIES[seed as usize % planar::FAMILIES.len()];
        let [generated, made] = generated_and_made(family, &mut Rng::new(seed ^ 23 << 40)).map(|mut sample| {
            sample.graph.top.iter_mut().zip(&sample.state).for_each(|(top, state)| *top &= 1 - state);
            sample
        });
        assert_eq!(generated, made, "{family:?} {seed}");
    }
}

/// A graph of the domain whose filled sides contradict one another would come out as a finding: E7, whose link 0 is skipped.
#[test]
fn an_uneven_graph_is_a_finding() {
    let file = include_bytes!("../../../tests/cases/e7.graph");
    let Study { settings, graph, state } = reading::file::parse(file).expect("E7 is well formed");
    let mut tally = Tally::default();
    let compared = Compared::new(Sample { graph, state }, true, &mut tally);
    assert_eq!([tally.graphs, tally.uneven, tally.findings], [1, 1, 1]);
    compare_run(&compared, settings, || unreachable!("the walk is refused"), &mut tally);
    assert_eq!([tally.runs, tally.findings], [1, 2]);
}

/// D1 may upset the holes' order: here the crate's scan has left (0, 0) before the third hole there is walked, and finds the one
/// at (5, 20) first. With one hull the text binds both all the same, in that order.
#[test]
fn the_text_finds_holes_out_of_order() {
    if !text::AT_HAND {
        println!("the text is not at hand: it was not asked for holes out of order");
        return;
    }
    let contour = |points: [(i32, i32); 3]| points.map(|(x, y)| Point::new(x, y)).to_vec();
    let hull = contour([(-10, -100), (100, -100), (-10, 100)]);
    let small = [[(0, 0), (20, 1), (20, 2)], [(0, 0), (20, 5), (20, 6)]].map(contour);
    let large = [[(0, 0), (10, -40), (11, -50)], [(5, 20), (7, 40), (9, 20)]].map(contour);
    let polygons = [&[hull], &small[..], &large[..]].concat();
    let settings = Settings { minimum: 15, ..ALL };
    let mut run = Front::new(&polygons, &[], true).kept(0, 0).expect("edges are left");
    let (graph, state) = run.lent();
    run.set(settings);
    let answer = ask_text(&mut run);

    let sample = Sample { graph, state };
    let starts = |contours: &[Vec<Point>]| contours[1..].iter().map(|hole| hole[0]).collect::<Vec<_>>();
    let ours = by(READING, &sample, settings).expect("it is walked");
    assert_eq!(starts(&ours.contours), [Point::new(0, 0), Point::new(5, 20)]);
    assert_eq!(starts(&answer.contours), [Point::new(5, 20), Point::new(0, 0)]);
    assert_eq!(answer.shapes, Some(vec![answer.contours.clone()]));
    let crates = by_crate_rules(&sample, settings).expect("it is walked");
    assert_eq!(compare(&crates, &answer), Equal { contours: true, shapes: true });
}
