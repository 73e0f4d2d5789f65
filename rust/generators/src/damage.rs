//! Damage for every check. What comes of it is not promised (one fault may hide another): the tests count what was refused.

use crate::rng::Rng;
use reading::bind::Table;
use reading::graph::{Buffers, Graph};
use reading::{MAX_COORDINATE, MAX_LINKS};

/// Damages a graph or its buffers so that check `number`, from 1 to 7, most likely refuses it.
pub fn graph(number: u32, graph: &mut Graph, lent: &mut Buffers, rng: &mut Rng) {
    if graph.links() == 0 {
        return;
    }
    match number {
        1 => too_many_links(graph, lent),
        2 => wrong_length(graph, lent, rng),
        3 => wrong_link(graph, lent, rng),
        4 => swapped_links(graph, rng),
        5 => wrong_lists(graph, rng),
        6 => moved_end(graph, rng),
        7 => doubled_link(graph, lent, rng),
        _ => unreachable!("checks 1 to 7"),
    }
}

/// Adds or takes one element.
fn resize<T: Copy + Default>(list: &mut Vec<T>, rng: &mut Rng) {
    if rng.chance(50) {
        list.push(T::default());
    } else {
        list.pop();
    }
}

fn too_many_links(graph: &mut Graph, lent: &mut Buffers) {
    let n = MAX_LINKS + 1;
    for list in [&mut graph.ax, &mut graph.ay, &mut graph.bx, &mut graph.by] {
        list.resize(n, 0);
    }
    for list in [&mut graph.a_id, &mut graph.b_id] {
        list.resize(n, 0);
    }
    for list in [&mut graph.top, &mut lent.state] {
        list.resize(n, 0);
    }
}

fn wrong_length(graph: &mut Graph, lent: &mut Buffers, rng: &mut Rng) {
    match rng.below(14) {
        0 => resize(&mut graph.ax, rng),
        1 => resize(&mut graph.ay, rng),
        2 => resize(&mut graph.bx, rng),
        3 => resize(&mut graph.by, rng),
        4 => resize(&mut graph.a_id, rng),
        5 => resize(&mut graph.b_id, rng),
        6 => resize(&mut graph.top, rng),
        7 => graph.start.clear(),
        8 => resize(&mut lent.state, rng),
        9 => lent.points.truncate(2 * graph.links() - 1),
        10 => resize(&mut lent.first, rng),
        11 => resize(&mut lent.len, rng),
        12 => resize(&mut lent.kind, rng),
        _ => {
            let contours = (graph.links() / 3).saturating_sub(1);
            for list in [&mut lent.first, &mut lent.len] {
                list.truncate(contours);
            }
            lent.kind.truncate(contours);
        }
    }
}

fn wrong_link(graph: &mut Graph, lent: &mut Buffers, rng: &mut Rng) {
    let link = rng.below(graph.links());
    let outside = rng.choose(&[MAX_COORDINATE + 1, -MAX_COORDINATE - 1, i32::MAX, i32::MIN]);
    let unknown = rng.choose(&[graph.nodes() as u32, graph.nodes() as u32 + 1, u32::MAX]);
    match rng.below(11) {
        0 => graph.ax[link] = outside,
        1 => graph.ay[link] = outside,
        2 => graph.bx[link] = outside,
        3 => graph.by[link] = outside,
        4 => {
            std::mem::swap(&mut graph.ax[link], &mut graph.bx[link]);
            std::mem::swap(&mut graph.ay[link], &mut graph.by[link]);
        }
        5 => (graph.bx[link], graph.by[link]) = (graph.ax[link], graph.ay[link]),
        6 => graph.a_id[link] = unknown,
        7 => graph.b_id[link] = unknown,
        8 => graph.a_id[link] = graph.b_id[link],
        9 => graph.top[link] = rng.choose(&[2, 3, 255]),
        _ => lent.state[link] = rng.choose(&[2, 3, 255]),
    }
}

/// Swaps two links with all that belongs to them, but for the states, so that at most their order is wrong.
fn swapped_links(graph: &mut Graph, rng: &mut Rng) {
    let (i, j) = (rng.below(graph.links()), rng.below(graph.links()));
    for list in [&mut graph.ax, &mut graph.ay, &mut graph.bx, &mut graph.by] {
        list.swap(i, j);
    }
    for list in [&mut graph.a_id, &mut graph.b_id] {
        list.swap(i, j);
    }
    graph.top.swap(i, j);
    for entry in &mut graph.list {
        let number = *entry as usize;
        *entry = if number == i {
            j
        } else if number == j {
            i
        } else {
            number
        } as u32;
    }
}

fn wrong_lists(graph: &mut Graph, rng: &mut Rng) {
    let (nodes, entries, links) = (graph.nodes(), graph.list.len(), graph.links() as u32);
    let (node, entry) = (rng.below(nodes), rng.below(entries));
    match rng.below(10) {
        0 => graph.start[0] = 1,
        1 => graph.start[node + 1] = rng.below(entries + 2) as u32,
        2 => graph.start[nodes] = u32::MAX,
        3 => graph.start.push(entries as u32),
        4 => graph.start[node] = u32::MAX,
        5 => resize(&mut graph.list, rng),
        6 => graph.list[entry] = rng.choose(&[links, links + 1, u32::MAX]),
        7 => graph.list[entry] = rng.below(links as usize) as u32,
        8 => graph.list.swap(entry, rng.below(entries)),
        _ => {
            graph.start.remove(node + 1);
        }
    }
}

fn moved_end(graph: &mut Graph, rng: &mut Rng) {
    let link = rng.below(graph.links());
    match rng.below(3) {
        0 => graph.bx[link] = (graph.bx[link] + 1).min(MAX_COORDINATE),
        1 => graph.by[link] = (graph.by[link] + 1).min(MAX_COORDINATE),
        _ => graph.ay[link] = (graph.ay[link] - 1).max(-MAX_COORDINATE),
    }
}

/// A link twice, between the same nodes; now and then the second is skipped, which is no fault.
fn doubled_link(graph: &mut Graph, lent: &mut Buffers, rng: &mut Rng) {
    let link = rng.below(graph.links());
    let at = link + 1;
    for list in [&mut graph.ax, &mut graph.ay, &mut graph.bx, &mut graph.by] {
        list.insert(at, list[link]);
    }
    for list in [&mut graph.a_id, &mut graph.b_id] {
        list.insert(at, list[link]);
    }
    graph.top.insert(at, rng.below(2) as u8);
    lent.state.insert(at, rng.chance(20) as u8);
    graph.list.iter_mut().filter(|entry| **entry as usize >= at).for_each(|entry| *entry += 1);
    for node in [graph.a_id[at] as usize, graph.b_id[at] as usize] {
        graph.list.insert(graph.start[node + 1] as usize, at as u32);
        graph.start[node + 1..].iter_mut().for_each(|start| *start += 1);
    }
    let n = graph.links();
    lent.points.resize(lent.points.len().max(2 * n), 7);
    let contours = lent.first.len().max(n / 3);
    for list in [&mut lent.first, &mut lent.len] {
        list.resize(contours, 7);
    }
    lent.kind.resize(contours, 7);
}

/// Damages a contour table so that check 10 or 11 most likely refuses it; returns the room for owners that is lent with it.
pub fn table(table: &mut Table, rng: &mut Rng) -> usize {
    let contours = table.contours();
    if contours == 0 {
        table.points.push(0);
        return 0;
    }
    let contour = rng.below(contours);
    let point = rng.below(table.points.len() / 2);
    match rng.below(15) {
        0 => resize(&mut table.first, rng),
        1 => resize(&mut table.len, rng),
        2 => resize(&mut table.kind, rng),
        3 => resize(&mut table.points, rng),
        4 => return contours - 1,
        5 => table.points.extend([0, 0]),
        6 => table.first[contour] = rng.choose(&[0, 1, u32::MAX, u32::MAX - 2]),
        7 => table.len[contour] = rng.choose(&[0, 1, 2, 3, u32::MAX]),
        8 => table.kind[contour] = rng.choose(&[2, 3, 255]),
        9 => table.points[2 * point] = rng.choose(&[MAX_COORDINATE + 1, i32::MIN]),
        10 => table.points[2 * point + 1] = rng.choose(&[-MAX_COORDINATE - 1, i32::MAX]),
        11 => {
            let other = (point + 1) % (table.points.len() / 2);
            table.points[2 * other] = table.points[2 * point];
            table.points[2 * other + 1] = table.points[2 * point + 1];
        }
        12 => table.points[2 * point] -= 1,
        13 => {
            // A range that is too long by as much as the next is too short.
            if contour + 1 < contours {
                table.len[contour] += 1;
                table.first[contour + 1] += 1;
                table.len[contour + 1] -= 1;
            }
        }
        _ => {
            table.points.resize(2 * (MAX_LINKS + 1), 0);
            let end = table.points.len() as u32 / 2;
            table.len[contours - 1] = end.wrapping_sub(table.first[contours - 1]);
        }
    }
    contours
}
