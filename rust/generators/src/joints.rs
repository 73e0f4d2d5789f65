//! Joints on straight edges: graphs whose links are split at whole points within them.

use crate::rng::Rng;
use crate::{Link, Numbering, Sample};
use reading::geometry::Point;
use reading::{MAX_COORDINATE, MAX_LINKS};

/// The same graph with some of its links split, now and then every one that can be. It is made larger first where the bounds
/// allow it, so that short links have whole points within them too. What passed checks 1 to 7 passes them still.
pub fn split(sample: &Sample, rng: &mut Rng) -> Sample {
    let mut links = larger(links(sample), rng);
    let percent = rng.choose(&[10, 50, 90, 100]);
    let most = rng.choose(&[1, 1, 2, 5]);
    let mut nodes = sample.graph.nodes();
    for place in 0..links.len() {
        let room = MAX_LINKS.saturating_sub(links.len());
        if rng.chance(percent) {
            split_link(&mut links, place, &mut nodes, most.min(room), rng);
        }
    }
    let numbering = rng.choose(&[Numbering::Sorted, Numbering::Shuffled]);
    Sample::from_links(links, numbering, rng)
}

/// A graph's links, with its nodes as keys.
fn links(Sample { graph, state }: &Sample) -> Vec<Link> {
    let link = |number: usize| Link {
        a: graph.a(number),
        b: graph.b(number),
        a_key: graph.a_id[number] as usize,
        b_key: graph.b_id[number] as usize,
        top: graph.top[number] == 1,
        skipped: state[number] == 1,
    };
    (0..graph.links()).map(link).collect()
}

/// All points times a small number, if none leaves the bounds.
fn larger(mut links: Vec<Link>, rng: &mut Rng) -> Vec<Link> {
    let times = rng.choose(&[1, 2, 4, 6, 60]);
    let reach = links.iter().flat_map(|link| [link.a.x, link.a.y, link.b.x, link.b.y]).map(i32::abs).max().unwrap_or(0);
    if reach <= MAX_COORDINATE / times {
        let scaled = |point: Point| Point::new(times * point.x, times * point.y);
        links.iter_mut().for_each(|link| (link.a, link.b) = (scaled(link.a), scaled(link.b)));
    }
    links
}

/// Splits a link at up to so many of the whole points within it, each of which becomes a node: the link keeps its first part, and
/// the others are added.
fn split_link(links: &mut Vec<Link>, place: usize, nodes: &mut usize, most: usize, rng: &mut Rng) {
    let Link { a, b, .. } = links[place];
    let (x, y) = (b.x - a.x, b.y - a.y);
    let parts = greatest_divisor(x.abs(), y.abs());
    let mut joints: Vec<i32> = (0..most).filter(|_| parts > 1).map(|_| rng.within(1..=parts - 1)).collect();
    joints.sort();
    joints.dedup();
    let mut last = place;
    for part in joints {
        let joint = Point::new(a.x + x / parts * part, a.y + y / parts * part);
        let rest = Link { a: joint, a_key: *nodes, ..links[last] };
        (links[last].b, links[last].b_key) = (joint, *nodes);
        *nodes += 1;
        last = links.len();
        links.push(rest);
    }
}

pub(crate) fn greatest_divisor(one: i32, other: i32) -> i32 {
    if other == 0 { one } else { greatest_divisor(other, one % other) }
}
