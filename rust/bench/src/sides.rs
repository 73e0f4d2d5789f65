//! The two that are timed, the library and the text, on the graphs of a group.

use crate::graphs::Group;
use generators::Sample;
use guovdamas::{ContourDirection, Graph, Link, Options, Shapes, Workspace, lent};
use lending::{buffers, lists};
use reading::Settings;
use reading::graph::Buffers;
use text::{Run, Unbound};

/// Counterclockwise, and everything kept: what `Options::default()` says.
pub const SETTINGS: Settings = Settings { clockwise: false, minimum: 0, drop_straight: false };

/// The library on one graph, with buffers that are lent again and again.
pub struct Library<'a> {
    sample: &'a Sample,
    lent: Buffers,
    counts: lent::Counts,
    owner: Vec<u16>,
    /// Areas, lefts, bottoms, rights and tops.
    reports: [Vec<f64>; 5],
    graph: Graph,
    workspace: Workspace,
}

impl<'a> Library<'a> {
    pub fn new(sample: &'a Sample) -> Self {
        let lent = Buffers::for_states(sample.state.clone());
        let owner = vec![0; lent.first.len()];
        let reports = [(); 5].map(|()| vec![0.0; owner.len()]);
        let (graph, workspace) = (owned(sample), Workspace::new());
        Self { sample, lent, counts: lent::Counts::default(), owner, reports, graph, workspace }
    }

    /// Extraction with every link skipped: all checks run, and nothing is walked.
    pub fn check(&mut self) {
        self.lent.state.fill(1);
        self.walk(Options::default());
    }

    /// Extraction with all its checks; the states are set as the text's link filter sets its own.
    pub fn extract(&mut self) {
        self.lent.state.copy_from_slice(&self.sample.state);
        self.walk(Options::default());
    }

    /// The same without the points on a straight line.
    pub fn extract_dropping(&mut self) {
        self.lent.state.copy_from_slice(&self.sample.state);
        self.walk(Options { preserve_output_collinear: false, ..Options::default() });
    }

    fn walk(&mut self, options: Options) {
        let lent = buffers(&mut self.lent);
        self.counts = lent::extract(lists(&self.sample.graph), options, lent).expect("the graphs are walked");
    }

    /// Binding with all its checks, of what was extracted last.
    pub fn bind(&mut self) {
        let table = table(&self.lent, self.counts);
        lent::bind(table, ContourDirection::CounterClockwise, &mut self.owner).expect("the holes are bound");
    }

    /// Areas and frames, with check 10 and the owners', of what was bound last.
    pub fn report(&mut self) {
        let [area, left, bottom, right, top] = self.reports.each_mut();
        let lists = lent::ReportLists { area, left, bottom, right, top };
        lent::report_all(table(&self.lent, self.counts), &self.owner, lists).expect("the contours are reported");
    }

    /// The same by a plain loop that checks nothing.
    pub fn measure(&mut self) {
        let table = table(&self.lent, self.counts);
        for (contour, (&first, &len)) in table.first.iter().zip(table.len).enumerate() {
            let points = &table.points[2 * first as usize..][..2 * len as usize];
            let numbers = measured(points);
            self.reports.iter_mut().zip(numbers).for_each(|(list, number)| list[contour] = number);
        }
    }

    /// The whole call of the safe interface: graph to shapes, in buffers that it allocates.
    pub fn shapes(&self) -> Shapes {
        self.graph.extract_shapes(Options::default()).expect("the graphs are walked")
    }

    /// The same in a workspace, whose buffers are kept.
    pub fn shapes_in_workspace(&mut self) -> &Shapes {
        self.workspace.extract_shapes(&self.graph, Options::default()).expect("the graphs are walked")
    }

    pub fn kinds(&self) -> &[u8] {
        &self.lent.kind[..self.counts.contours as usize]
    }

    fn points(&self) -> &[i32] {
        &self.lent.points[..2 * self.counts.points as usize]
    }

    /// How many holes each shape has.
    fn holes(&self) -> Vec<usize> {
        let mut holes = vec![0; self.kinds().iter().filter(|&&kind| kind == 0).count()];
        let owned = self.owner.iter().zip(self.kinds()).filter(|(_, kind)| **kind == 1);
        owned.for_each(|(&owner, _)| holes[owner as usize] += 1);
        holes
    }
}

/// What was extracted, without the room past it.
fn table(lent: &Buffers, counts: lent::Counts) -> lent::Table<'_> {
    let contours = counts.contours as usize;
    lent::Table {
        points: &lent.points[..2 * counts.points as usize],
        first: &lent.first[..contours],
        len: &lent.len[..contours],
        kind: &lent.kind[..contours],
    }
}

/// Area, left, bottom, right and top of points, x and y in turn.
fn measured(points: &[i32]) -> [f64; 5] {
    let mut doubled = 0;
    let (mut low, mut high) = ([i32::MAX; 2], [i32::MIN; 2]);
    let mut before = [points[points.len() - 2], points[points.len() - 1]];
    for point in points.chunks_exact(2) {
        let point = [point[0], point[1]];
        doubled += before[0] as i64 * point[1] as i64 - before[1] as i64 * point[0] as i64;
        low = [low[0].min(point[0]), low[1].min(point[1])];
        high = [high[0].max(point[0]), high[1].max(point[1])];
        before = point;
    }
    let [left, bottom, right, top] = [low[0], low[1], high[0], high[1]].map(|edge| f64::from(edge) / 100.0);
    [doubled as f64 / 20_000.0, left, bottom, right, top]
}

/// The sample as a graph of the safe interface.
fn owned(sample: &Sample) -> Graph {
    let mut graph = Graph::new();
    for link in 0..sample.graph.links() {
        let (a, b) = (sample.graph.a(link), sample.graph.b(link));
        graph.push_link(Link {
            a: [a.x, a.y],
            b: [b.x, b.y],
            a_id: sample.graph.a_id[link],
            b_id: sample.graph.b_id[link],
            fill_top: sample.graph.top[link] == 1,
            skipped: sample.state[link] == 1,
        });
    }
    for node in 0..sample.graph.nodes() {
        graph.push_node(sample.graph.entries(node).map(|link| link as u32));
    }
    graph
}

/// The text on the graphs of a group, where it is at hand.
pub fn texts(group: &Group) -> Option<Vec<Run>> {
    let run = |sample: &Sample| Run::new(&sample.graph, &sample.state, SETTINGS, 0);
    text::AT_HAND.then(|| group.samples.iter().map(run).collect())
}

/// What the text binds of each graph.
pub fn unbound(ours: &[Library], theirs: &[Run]) -> Vec<Unbound> {
    ours.iter().zip(theirs).map(|(ours, theirs)| theirs.unbound(ours.kinds())).collect()
}

/// Panics unless the first has the contours of the second, without most of their points, as they ran last.
pub fn most_points_went(name: &str, dropped: &Library, kept: &Library) {
    assert_eq!(dropped.kinds(), kept.kinds(), "{name}: no contour goes");
    assert!(2 * dropped.points().len() < kept.points().len(), "{name}: most points go");
}

/// Panics unless both have the same reports, to the last bit, as they ran last.
pub fn report_alike(name: &str, ours: &Library, plain: &Library) {
    let bits =
        |side: &Library| side.reports.each_ref().map(|list| list.iter().map(|n| n.to_bits()).collect::<Vec<_>>());
    assert_eq!(bits(ours), bits(plain), "{name}: both report alike");
}

/// Panics unless the safe interface says what the bare calls say.
pub fn agree_with_safe_interface(name: &str, ours: &mut Library) {
    let shapes = ours.shapes();
    assert_eq!(*ours.shapes_in_workspace(), shapes, "{name}: a workspace changes nothing");
    let points: Vec<i32> =
        shapes.contours().iter().flat_map(|contour| contour.points().as_flattened().to_vec()).collect();
    assert_eq!(points, ours.points(), "{name}: the whole call finds the same points");
    let holes: Vec<usize> = shapes.iter().map(|shape| shape.holes().count()).collect();
    assert_eq!(holes, ours.holes(), "{name}: the whole call binds alike");
}

/// Panics unless both found and bound the same, as they ran last.
pub fn agree(name: &str, ours: &Library, theirs: &Run) {
    let points: Vec<i32> = theirs.contours().concat().iter().flat_map(|point| [point.x, point.y]).collect();
    assert_eq!(points, ours.points(), "{name}: both find the same points");
    assert_eq!(ours.holes(), theirs.unbound(ours.kinds()).bind().holes(), "{name}: both bind alike");
}
