//! Graphs of document 01's domain: the edges between the filled and the empty faces of a mesh. The filled sides alternate
//! round every node, as its third demand asks.

use crate::mesh::Mesh;
use crate::patch::Patch;
use crate::rng::Rng;
use crate::{Link, Numbering, Sample};
use reading::geometry::Point;
use std::collections::BTreeMap;

/// The families of planar graphs. `differential --look` tells how they look beside those that the crate makes of polygons: most
/// nodes have two links there, crossings four, and more than eight hardly come up. Boards, Rings and Bands stand for those, and
/// Triangles for outlines that touch in a point; Fan, Flower and Islands are extremes that find the odd cases.
#[derive(Clone, Copy, Debug, PartialEq, Eq, PartialOrd, Ord)]
pub enum Family {
    /// Cells between random lines, some from bound to bound: touching corners, holes, islands, several hulls.
    Board,
    /// A board turned and sheared.
    Sheared,
    /// Triangles with points moved off the grid: up to eight links at a node.
    Triangles,
    /// Rings in rings with gaps: holes, islands in holes, holes in islands.
    Rings,
    /// A star: triangles round one node.
    Fan,
    /// A star in rings of cells: holes whose anchor is a node of many links, touched by islands.
    Flower,
    /// A level of dose round a centre, with its holes and islands: long outlines, nodes of two links.
    Bands,
    /// Holes to the right of a centre, which is the least point of each: islands touch it, have holes there themselves, or part one
    /// hole from the next.
    Islands,
}

pub const FAMILIES: [Family; 8] = [
    Family::Board,
    Family::Sheared,
    Family::Triangles,
    Family::Rings,
    Family::Fan,
    Family::Flower,
    Family::Bands,
    Family::Islands,
];

/// A graph of the family's patches. Without skipped links, as the crate's `overlay` makes its graphs; with the outlines of a
/// second set of faces, as its view of all links has them; or with any.
pub fn sample(family: Family, size: usize, rng: &mut Rng) -> Sample {
    let patch = patches(family, size, rng);
    let numbering = rng.choose(&[Numbering::Sorted, Numbering::Shuffled]);
    let links = match rng.below(10) {
        0..4 => links(&patch.mesh, &patch.filled, 0, rng),
        4..8 => overlaid(&patch.mesh, &patch.filled, &clip(&patch, rng), rng.choose(&RULES)),
        8 => links(&patch.mesh, &patch.filled, 20, rng),
        _ => links(&patch.mesh, &patch.filled, 100, rng),
    };
    Sample::from_links(links, numbering, rng)
}

/// A patch of the family, with about `size` cells a side, or that many pairs of spokes. Often patches of other families stand
/// beside it, or in its empty faces.
pub fn patches(family: Family, size: usize, rng: &mut Rng) -> Patch {
    let mut whole = patch(family, size, rng);
    if rng.chance(30) {
        let unit = rng.choose(&[10, 25, 60]);
        whole.mesh.transform([[unit, 0], [0, unit]]);
        for face in 0..whole.mesh.faces.len() {
            if rng.chance(50) {
                let inner = patch(rng.choose(&FAMILIES), 3, rng);
                whole.put_into(inner, face);
            }
        }
    }
    for _ in 0..rng.choose(&[0, 0, 1, 2]) {
        let other = patch(rng.choose(&FAMILIES), size.min(4), rng);
        whole.put_beside(other, rng);
    }
    if whole.mesh.in_range() { whole } else { patch(family, size, rng) }
}

fn patch(family: Family, size: usize, rng: &mut Rng) -> Patch {
    let mesh = mesh(family, size, rng);
    let filled = match family {
        Family::Rings => rings(&mesh, rng),
        Family::Flower if rng.chance(70) => petals(&mesh, rng),
        Family::Bands => levels(&mesh, rng),
        Family::Islands => islands(&mesh, rng),
        Family::Fan if rng.chance(50) => (0..mesh.faces.len()).map(|face| face % 2 == 0).collect(),
        _ => fill(&mesh, rng),
    };
    Patch::new(mesh, filled)
}

fn mesh(family: Family, size: usize, rng: &mut Rng) -> Mesh {
    let (columns, rows) = (1 + rng.below(size), 1 + rng.below(size));
    match family {
        Family::Board => Mesh::board(&Mesh::lines(columns + 1, rng), &Mesh::lines(rows + 1, rng)),
        Family::Sheared => {
            let mut mesh = Mesh::unit_board(columns, rows);
            let matrices =
                [[[1, 1], [-1, 1]], [[1, 0], [3, 1]], [[0, 1], [1, 0]], [[2, 1], [1, -1]], [[-1, 0], [0, 1]]];
            mesh.transform(rng.choose(&matrices));
            mesh
        }
        Family::Triangles => {
            let mut mesh = Mesh::unit_board(columns, rows);
            let unit = rng.choose(&[1, 4, 10, 1000]);
            mesh.transform([[unit, 0], [0, unit]]);
            mesh.split_cells(rng);
            mesh.jitter(unit / 2, rng);
            mesh
        }
        Family::Rings => Mesh::unit_board(columns + rows, columns + rows),
        Family::Fan => {
            let spokes = 2 * size + rng.below(4 * size);
            Mesh::fan(centre(rng), spokes, 1, rng.chance(50), rng)
        }
        Family::Flower => {
            let spokes = 8 + rng.below(2 * size);
            Mesh::fan(centre(rng), spokes, 2 + rng.below(3), rng.chance(20), rng)
        }
        Family::Bands => Mesh::fan(centre(rng), 8 + rng.below(4 * size), 2 + rng.below(3), false, rng),
        Family::Islands => Mesh::fan(centre(rng), 12 + rng.below(2 * size), 4, false, rng),
    }
}

fn centre(rng: &mut Rng) -> Point {
    Point::new(rng.within(-9..=9), rng.within(-9..=9))
}

/// Faces filled at random, thinly, evenly or densely, or by turns.
fn fill(mesh: &Mesh, rng: &mut Rng) -> Vec<bool> {
    let percent = rng.choose(&[25, 50, 50, 75, 85, 95]);
    let by_turns = rng.chance(10);
    let is_filled = |face: usize| {
        if by_turns { (face % mesh.columns + face / mesh.columns).is_multiple_of(2) } else { rng.chance(percent) }
    };
    (0..mesh.faces.len()).map(is_filled).collect()
}

/// Every other ring filled, of the whole board or of blocks on it, with now and then a cell changed.
fn rings(mesh: &Mesh, rng: &mut Rng) -> Vec<bool> {
    let (columns, rows) = (mesh.columns, mesh.faces.len() / mesh.columns);
    let changed = rng.choose(&[0, 5, 15]);
    let block = rng.choose(&[columns.max(rows), 4, 5, 6, 8]);
    let outermost = rng.below(2);
    let inward = |place: usize, size: usize| {
        let (place, size) = (place % block, size.min(block));
        place.min((size - 1).saturating_sub(place))
    };
    let depth = |face: usize| inward(face % columns, columns).min(inward(face / columns, rows));
    (0..mesh.faces.len()).map(|face| (depth(face) % 2 == outermost) != rng.chance(changed)).collect()
}

/// A flower empty to the right of its middle, with islands that touch it, and filled elsewhere; now and then a face changed.
fn petals(mesh: &Mesh, rng: &mut Rng) -> Vec<bool> {
    let changed = rng.choose(&[0, 2, 10, 25]);
    let empty_rings = rng.choose(&[1, 2, 2, 2]);
    let is_filled = |face: usize| {
        let (ring, sector) = (face / mesh.columns, face % mesh.columns);
        let is_island = ring == 0 && sector % 2 == 1;
        (ring >= empty_rings || !is_right(mesh, face) || is_island) != rng.chance(changed)
    };
    (0..mesh.faces.len()).map(is_filled).collect()
}

/// Filled to the left of the middle and in the outermost ring; within, each ring at random to a percentage. Where the third is
/// empty, an island may have a hole of its own at the middle, and the hole round it still passes there again.
fn islands(mesh: &Mesh, rng: &mut Rng) -> Vec<bool> {
    let percents = rng.choose(&[[50, 0, 100], [50, 20, 100], [30, 40, 100], [50, 50, 0], [60, 70, 0]]);
    let is_filled = |face: usize| match percents.get(face / mesh.columns) {
        Some(&percent) if is_right(mesh, face) => rng.chance(percent),
        _ => true,
    };
    (0..mesh.faces.len()).map(is_filled).collect()
}

/// No corner of the face is before the middle of the fan.
fn is_right(mesh: &Mesh, face: usize) -> bool {
    mesh.faces[face].iter().all(|&corner| mesh.points[corner] >= mesh.points[0])
}

/// Filled from one ring to another, which go up and down from sector to sector.
fn levels(mesh: &Mesh, rng: &mut Rng) -> Vec<bool> {
    let rings = mesh.faces.len() / mesh.columns;
    let mut step = |level: &mut usize| {
        *level = (*level + rng.choose(&[0, 1, 1, 1, 1, 1, 1, 2])).saturating_sub(1).min(rings);
        *level
    };
    let (mut inner, mut outer) = (0, rings);
    let reaches: Vec<(usize, usize)> = (0..mesh.columns).map(|_| (step(&mut inner), step(&mut outer))).collect();
    (0..mesh.faces.len())
        .map(|face| {
            let (inner, outer) = reaches[face % mesh.columns];
            (inner..outer).contains(&(face / mesh.columns))
        })
        .collect()
}

/// The faces of a clip: some at random, or all between two points. Those that host a patch stay empty.
pub fn clip(patch: &Patch, rng: &mut Rng) -> Vec<bool> {
    let Patch { mesh, hosts, .. } = patch;
    let (one, other) = (rng.choose(&mesh.points), rng.choose(&mesh.points));
    let is_between = |&corner: &usize| (one.min(other)..=one.max(other)).contains(&mesh.points[corner]);
    let faces = match rng.below(2) {
        0 => fill(mesh, rng),
        _ => mesh.faces.iter().map(|face| face.iter().all(is_between)).collect(),
    };
    faces.into_iter().zip(hosts).map(|(is_covered, hosts)| is_covered && !hosts).collect()
}

/// What is filled, by whether the subject and the clip cover it.
pub type Rule = fn(bool, bool) -> bool;

/// In the crate's order: subject, clip, intersect, union, difference, inverse difference, xor.
pub const RULES: [Rule; 7] =
    [|s, _| s, |_, c| c, |s, c| s && c, |s, c| s || c, |s, c| s && !c, |s, c| c && !s, |s, c| s != c];

/// By the two points of an edge, the lower first: filled on the left, and on the right.
fn sides(mesh: &Mesh, filled: &[bool]) -> BTreeMap<(usize, usize), (bool, bool)> {
    let mut sides: BTreeMap<(usize, usize), (bool, bool)> = BTreeMap::new();
    for (face, &is_filled) in mesh.faces.iter().zip(filled) {
        for (&from, &to) in face.iter().zip(face.iter().cycle().skip(1)) {
            if mesh.points[from] < mesh.points[to] {
                sides.entry((from, to)).or_default().0 = is_filled;
            } else {
                sides.entry((to, from)).or_default().1 = is_filled;
            }
        }
    }
    sides
}

fn link(mesh: &Mesh, (a_key, b_key): (usize, usize), left: bool, right: bool) -> Link {
    Link { a: mesh.points[a_key], b: mesh.points[b_key], a_key, b_key, top: left, skipped: left == right }
}

/// The links between filled and empty faces; of the others, that percentage as skipped links, but for loose ends.
pub fn links(mesh: &Mesh, filled: &[bool], skipped_percent: usize, rng: &mut Rng) -> Vec<Link> {
    let links = sides(mesh, filled).into_iter().map(|(edge, (left, right))| link(mesh, edge, left, right));
    let mut links: Vec<Link> = links.filter(|link| !link.skipped || rng.chance(skipped_percent)).collect();
    prune(&mut links, mesh.points.len());
    links
}

/// The outlines of two sets of faces; those between two faces that the rule fills, or leaves empty, are skipped.
pub fn overlaid(mesh: &Mesh, subject: &[bool], clip: &[bool], rule: Rule) -> Vec<Link> {
    let (subject, clip) = (sides(mesh, subject), sides(mesh, clip));
    let outlines = subject.into_iter().zip(clip.into_values());
    let outlines = outlines.filter(|((_, subject), clip)| subject.0 != subject.1 || clip.0 != clip.1);
    outlines.map(|((edge, subject), clip)| link(mesh, edge, rule(subject.0, clip.0), rule(subject.1, clip.1))).collect()
}

/// Takes away links with an end at a node of their own, until there is none.
pub fn prune(links: &mut Vec<Link>, keys: usize) {
    loop {
        let mut ends = vec![0; keys];
        links.iter().for_each(|link| {
            ends[link.a_key] += 1;
            ends[link.b_key] += 1;
        });
        let before = links.len();
        links.retain(|link| ends[link.a_key] > 1 && ends[link.b_key] > 1);
        if links.len() == before {
            return;
        }
    }
}

/// Turns some tops round, so that the filled sides no longer alternate.
pub fn upset_tops(sample: &mut Sample, rng: &mut Rng) {
    let percent = rng.choose(&[5, 20, 50]);
    sample.graph.top.iter_mut().filter(|_| rng.chance(percent)).for_each(|top| *top = 1 - *top);
}
