//! Graphs that are no planar map but pass checks 1 to 7: links cross, nodes share points, tops are random.

use crate::planar::prune;
use crate::rng::Rng;
use crate::{Link, Numbering, Sample};
use reading::geometry::Point;

/// A wild graph with up to `size` nodes.
pub fn sample(size: usize, rng: &mut Rng) -> Sample {
    let nodes = 2 + rng.below(size);
    let reach = rng.choose(&[1, 2, 3, 10, 1000]);
    let points: Vec<Point> =
        (0..nodes).map(|_| Point::new(rng.within(-reach..=reach), rng.within(-reach..=reach))).collect();
    let skipped_percent = rng.choose(&[0, 0, 10, 30]);
    let mut links: Vec<Link> = Vec::new();
    for _ in 0..nodes + rng.below(2 * nodes) {
        let (mut a_key, mut b_key) = (rng.below(nodes), rng.below(nodes));
        if points[a_key] == points[b_key] {
            continue;
        }
        if points[a_key] > points[b_key] {
            (a_key, b_key) = (b_key, a_key);
        }
        let (a, b) = (points[a_key], points[b_key]);
        let link = Link { a, b, a_key, b_key, top: rng.chance(50), skipped: rng.chance(skipped_percent) };
        if link.skipped || links.iter().all(|other| other.skipped || !share_a_direction(&link, other)) {
            links.push(link);
        }
    }
    prune(&mut links, nodes);
    let numbering = rng.choose(&[Numbering::Sorted, Numbering::Shuffled]);
    Sample::from_links(links, numbering, rng)
}

/// Both links run from one node in one direction.
fn share_a_direction(link: &Link, other: &Link) -> bool {
    let along = link.a.to(link.b).same_direction(other.a.to(other.b));
    along && (link.a_key == other.a_key || link.b_key == other.b_key)
}
