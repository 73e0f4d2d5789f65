//! The third demand: when filled sides are consistent, and what the areas of all walks then add up to.

use crate::geometry::Point;
use crate::graph::Graph;

/// "Give each unskipped link a direction: the one that has its filled side on the left. Go round each node clockwise, over its
/// unskipped links": whether "at every node, links that arrive and links that leave come by turns, and there are as many of one
/// as of the other". For a graph that passed checks 1 to 7.
pub fn sides_alternate(graph: &Graph, state: &[u8]) -> bool {
    (0..graph.nodes()).all(|node| sides_alternate_at(graph, state, node))
}

fn sides_alternate_at(graph: &Graph, state: &[u8], node: usize) -> bool {
    let downward = Point::new(0, 0).to(Point::new(0, -1));
    let mut links: Vec<usize> = graph.entries(node).filter(|&link| state[link] == 0).collect();
    links.sort_by(|&u, &v| downward.met_first(graph.leaving(u, node), graph.leaving(v, node), true));
    // Fill on the left of a to b is a link from a to b.
    let leaves = |link: usize| (graph.top[link] == 1) == (graph.a_id[link] as usize == node);
    links.iter().zip(links.iter().cycle().skip(1)).all(|(&link, &next)| leaves(link) != leaves(next))
}

/// "The total over the links, to which a link from p to q, in the direction it is walked, adds px·qy - py·qx": it is walked with
/// the fill on its left, or on its right for clockwise output.
pub fn area_of_links(graph: &Graph, state: &[u8], clockwise: bool) -> i64 {
    let unskipped = (0..graph.links()).filter(|&link| state[link] == 0);
    let area = |link: usize| {
        let (a, b) = (graph.a(link), graph.b(link));
        let cross = a.x as i64 * b.y as i64 - a.y as i64 * b.x as i64;
        if (graph.top[link] == 1) != clockwise { cross } else { -cross }
    };
    unskipped.map(area).sum()
}
