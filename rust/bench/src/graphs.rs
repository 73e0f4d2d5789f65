//! The graphs that are timed.

use generators::mesh::Mesh;
use generators::rng::Rng;
use generators::{Link, Numbering, Sample, planar};
use reading::geometry::Point;
use reading::graph::Graph;

/// Graphs that are run in turn, each so many times.
pub struct Group {
    pub name: &'static str,
    pub samples: Vec<Sample>,
    pub repeats: usize,
}

impl Group {
    fn of_one(name: &'static str, sample: Sample) -> Self {
        Self { name, samples: vec![sample], repeats: 1 }
    }

    /// How many runs one round takes.
    pub fn runs(&self) -> usize {
        self.samples.len() * self.repeats
    }
}

/// How many different meshes are run in turn.
const MANY: u64 = 48;
/// Blocks along each side of a mesh.
const BLOCKS: usize = 20;

/// Graphs near the most links: each by itself, then many different ones in turn.
pub fn large() -> Vec<Group> {
    vec![
        Group::of_one("checkerboard of 1,024 touching squares", checkerboard(64, 32)),
        Group::of_one("one contour of 4,094 links", one_contour(2046)),
        Group::of_one("board with 930 holes", holes(63, 61)),
        Group::of_one("two hulls, 7 holes of 500 links", long_holes(7, 249)),
        Group::of_one("random mesh, 200 holes, 400 hulls", blocks(BLOCKS, 1)),
        Group::of_one("another such mesh", blocks(BLOCKS, 2)),
        Group::of_one("star of 2,730 links at one node", star(2730, Numbering::Sorted)),
        Group::of_one("such a star, its entries shuffled", star(2730, Numbering::Shuffled)),
        Group {
            name: "48 different such meshes in turn, each",
            samples: (1..=MANY).map(|seed| blocks(BLOCKS, seed)).collect(),
            repeats: 1,
        },
    ]
}

/// Graphs of 4,096 links of which most meet in a joint on a straight edge: many short edges, and two long ones.
pub fn jointed() -> Vec<Group> {
    vec![
        Group::of_one("checkerboard of 256 squares, 16 links each", large_squares(32, 16)),
        Group::of_one("one strip of 4,096 links, two sides of 2,047 each", strip(2047)),
    ]
}

/// Graphs of a few links, each so many times that a run can be timed.
pub fn tiny() -> Vec<Group> {
    let repeated = |name, sample| Group { name, samples: vec![sample], repeats: 1000 };
    vec![
        repeated("triangle", triangle()),
        repeated("square (E2)", of_links(rectangle(0, 4, 1).to_vec())),
        repeated("square with a hole", of_links([rectangle(0, 10, 1), rectangle(2, 8, 0)].concat())),
    ]
}

/// The same, small.
#[cfg(test)]
pub fn small_jointed() -> Vec<Group> {
    vec![Group::of_one("few squares", large_squares(3, 2)), Group::of_one("short strip", strip(9))]
}

/// The same kinds of graphs as the large ones, small.
#[cfg(test)]
pub fn small() -> Vec<Group> {
    let mut groups = tiny();
    groups.iter_mut().for_each(|group| group.repeats = 2);
    groups.extend([
        Group::of_one("small checkerboard", checkerboard(4, 3)),
        Group::of_one("short contour", one_contour(6)),
        Group::of_one("small board with holes", holes(7, 5)),
        Group::of_one("two hulls, few holes", long_holes(2, 5)),
        Group::of_one("small star", star(10, Numbering::Sorted)),
        Group::of_one("star of 40, its entries shuffled", star(40, Numbering::Shuffled)),
        Group { name: "small meshes", samples: (1..=3).map(|seed| blocks(3, seed)).collect(), repeats: 2 },
    ]);
    groups
}

type Ends = ([i32; 2], [i32; 2], u8);

fn of_links(mut links: Vec<Ends>) -> Sample {
    links.sort_by_key(|link| link.0);
    Sample { graph: Graph::of_links(&links), state: vec![0; links.len()] }
}

/// The sides of a square from (low, low) to (high, high), filled inside or, if `inside` is 0, outside.
fn rectangle(low: i32, high: i32, inside: u8) -> [Ends; 4] {
    [
        ([low, low], [high, low], inside),
        ([low, low], [low, high], 1 - inside),
        ([low, high], [high, high], 1 - inside),
        ([high, low], [high, high], inside),
    ]
}

fn triangle() -> Sample {
    of_links(vec![([0, 0], [0, 4], 0), ([0, 0], [4, 0], 1), ([0, 4], [4, 0], 0)])
}

fn sample(mesh: &Mesh, filled: &[bool], numbering: Numbering) -> Sample {
    let mut rng = Rng::new(1);
    let links = planar::links(mesh, filled, 0, &mut rng);
    Sample::from_links(links, numbering, &mut rng)
}

/// Which cells of a board are filled, by column and row.
fn board(columns: usize, rows: usize, is_filled: impl Fn(usize, usize) -> bool) -> Sample {
    let mesh = Mesh::unit_board(columns, rows);
    let filled: Vec<bool> = (0..mesh.faces.len()).map(|face| is_filled(face % columns, face / columns)).collect();
    sample(&mesh, &filled, Numbering::Sorted)
}

fn checkerboard(columns: usize, rows: usize) -> Sample {
    board(columns, rows, |column, row| (column + row).is_multiple_of(2))
}

/// A checkerboard of squares of four by four cells.
fn large_squares(columns: usize, rows: usize) -> Sample {
    board(4 * columns, 4 * rows, |column, row| (column / 4 + row / 4).is_multiple_of(2))
}

fn strip(columns: usize) -> Sample {
    board(columns, 1, |_, _| true)
}

fn holes(columns: usize, rows: usize) -> Sample {
    board(columns, rows, |column, row| column % 2 == 0 || row % 2 == 0)
}

/// So many holes above one another, each one cell high and so many wide, and a filled cell beside them: so the holes are searched.
fn long_holes(count: usize, width: usize) -> Sample {
    board(width + 4, 2 * count + 1, |column, row| {
        let is_hole = row % 2 == 1 && (1..=width).contains(&column);
        let is_beside = (column, row) == (width + 3, 0);
        is_beside || column < width + 2 && !is_hole
    })
}

/// A band with a toothed upper and a toothed lower rim.
fn one_contour(teeth: i32) -> Sample {
    let upper = |tooth: i32| Point::new(tooth, 10 + tooth % 2);
    let lower = |tooth: i32| Point::new(tooth, -(tooth % 2));
    let key = |point: Point| 2 * point.x as usize + (point.y > 5) as usize;
    let link = |a: Point, b: Point, top| Link { a, b, a_key: key(a), b_key: key(b), top, skipped: false };
    let mut links = vec![link(lower(0), upper(0), false), link(lower(teeth), upper(teeth), true)];
    for tooth in 0..teeth {
        links.push(link(upper(tooth), upper(tooth + 1), false));
        links.push(link(lower(tooth), lower(tooth + 1), true));
    }
    Sample::from_links(links, Numbering::Sorted, &mut Rng::new(1))
}

/// So many by so many blocks on an uneven grid: half of them rings with a hole, half of them single cells.
fn blocks(side: usize, seed: u64) -> Sample {
    const PITCH: usize = 4;
    let mut rng = Rng::new(seed);
    let mut mesh = Mesh::unit_board(side * PITCH, side * PITCH);
    mesh.transform([[20, 0], [0, 20]]);
    mesh.jitter(7, &mut rng);
    let mut is_ring: Vec<bool> = (0..side * side).map(|block| block % 2 == 0).collect();
    rng.shuffle(&mut is_ring);
    let is_filled = |face: usize| {
        let (column, row) = (face % mesh.columns, face / mesh.columns);
        let is_middle = column % PITCH == 1 && row % PITCH == 1;
        let is_gap = column % PITCH == 3 || row % PITCH == 3;
        if is_ring[row / PITCH * side + column / PITCH] { !is_gap && !is_middle } else { is_middle }
    };
    let filled: Vec<bool> = (0..mesh.faces.len()).map(is_filled).collect();
    sample(&mesh, &filled, Numbering::Sorted)
}

/// Triangles round one node, their tips on the rim of a square.
fn star(spokes: i32, numbering: Numbering) -> Sample {
    const REACH: i32 = 1000;
    let rim = |step: i32| match (step / (2 * REACH), step % (2 * REACH) - REACH) {
        (0, along) => Point::new(along, -REACH),
        (1, along) => Point::new(REACH, along),
        (2, along) => Point::new(-along, REACH),
        (_, along) => Point::new(-REACH, -along),
    };
    let tips = (0..spokes).map(|spoke| rim(8 * REACH * spoke / spokes));
    let points: Vec<Point> = std::iter::once(Point::new(0, 0)).chain(tips).collect();
    let faces: Vec<Vec<usize>> = (0..spokes as usize / 2).map(|pair| vec![0, 2 * pair + 1, 2 * pair + 2]).collect();
    let filled = vec![true; faces.len()];
    sample(&Mesh { points, faces, columns: 1 }, &filled, numbering)
}
