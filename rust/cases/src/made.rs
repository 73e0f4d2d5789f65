//! Large graphs and tables, which a table's line names by a word and a count.

use crate::input::Link;
use reading::bind::Table;
use reading::geometry::{Point, Vector};
use reading::graph::Graph;

/// One hull of so many links, an even number: a strip of height 1 from (0, 0), walked over two lines of nodes.
pub fn strip(links: usize) -> Vec<Link> {
    let width = links as i32 / 2 - 1;
    let mut strip = vec![([0, 0], [0, 1], 0)];
    strip.extend((0..width).flat_map(|x| [([x, 0], [x + 1, 0], 1), ([x, 1], [x + 1, 1], 0)]));
    strip.push(([width, 0], [width, 1], 1));
    strip
}

/// So many squares like E2's in a row, 8 apart.
pub fn squares(count: usize) -> Vec<Link> {
    let square = |x: i32| {
        let (left, right) = (8 * x, 8 * x + 4);
        [([left, 0], [right, 0], 1), ([left, 0], [left, 4], 0), ([left, 4], [right, 4], 0), ([right, 0], [right, 4], 1)]
    };
    (0..count as i32).flat_map(square).collect()
}

/// So many triangles round (0, 0), a `Cross` of twice as many, their other corners on the rim of a square.
pub fn star(triangles: usize) -> Vec<Link> {
    const REACH: i32 = 1000;
    let corners = 2 * triangles as i32;
    let corner = |at: i32| {
        let step = 8 * REACH * at / corners;
        match (step / (2 * REACH), step % (2 * REACH) - REACH) {
            (0, along) => [along, -REACH],
            (1, along) => [REACH, along],
            (2, along) => [-along, REACH],
            (_, along) => [-REACH, -along],
        }
    };
    let filled_left = |from: [i32; 2], to: [i32; 2]| if from < to { (from, to, 1) } else { (to, from, 0) };
    let triangle = |at: i32| {
        let (first, second) = (corner(at), corner(at + 1));
        [filled_left([0, 0], first), filled_left(first, second), filled_left(second, [0, 0])]
    };
    let mut links: Vec<Link> = (0..corners).step_by(2).flat_map(triangle).collect();
    links.sort_by_key(|link| link.0);
    links
}

/// The links of every node in falling angular order: as they are met turning clockwise from straight up.
pub fn falling(graph: &mut Graph) {
    let up = Vector { x: 0, y: 1 };
    rearrange(graph, |graph, node, links| {
        let way = |&link: &u32| graph.leaving(link as usize, node);
        links.sort_by(|e, f| up.met_first(way(e), way(f), true));
    });
}

/// The links of every node in no order.
pub fn mixed(graph: &mut Graph) {
    rearrange(graph, |_, _, links| links.sort_by_key(|link| link.wrapping_mul(2654435761)));
}

fn rearrange(graph: &mut Graph, arrange: impl Fn(&Graph, usize, &mut Vec<u32>)) {
    for node in 0..graph.nodes() {
        let part = graph.start[node] as usize..graph.start[node + 1] as usize;
        let mut links = graph.list[part.clone()].to_vec();
        arrange(graph, node, &mut links);
        graph.list[part].copy_from_slice(&links);
    }
}

/// One hull of so many points, (0, 0) and (1, 0) in turn.
pub fn zigzag(table: &mut Table, points: usize) {
    let points: Vec<Point> = (0..points as i32).map(|point| Point::new(point % 2, 0)).collect();
    table.push(&points, false);
}

/// So many hulls side by side, 95 wide and 100 apart, and so many holes, 42 to a hull: six in a column, seven columns.
pub fn boxes(table: &mut Table, hulls: usize, holes: usize) {
    for hull in 0..hulls as i32 {
        let x = 100 * hull;
        table.push(&[[x, 80], [x, 0], [x + 95, 0], [x + 95, 80]].map(|[x, y]| Point::new(x, y)), false);
    }
    for hole in 0..holes as i32 {
        let (x, y) = (hole / 42 * 100 + hole % 42 / 6 * 12 + 5, hole % 42 % 6 * 12 + 5);
        table.push(&[[x, y], [x, y + 6], [x + 6, y + 6], [x + 6, y]].map(|[x, y]| Point::new(x, y)), true);
    }
}

/// A hole that passes (1, 1) so many times, clockwise round a triangle each time; the lowest comes halfway.
pub fn petals(table: &mut Table, visits: usize) {
    let petal = |visit: usize| {
        let low = 1 + 2 * ((visit + visits / 2) % visits) as i32;
        [[1, 1], [30, low + 1], [30, low]].map(|[x, y]| Point::new(x, y))
    };
    table.push(&(0..visits).flat_map(petal).collect::<Vec<_>>(), true);
}
