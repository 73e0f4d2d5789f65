//! The safe interface on document 01's examples.

use guovdamas::lent::Role;
use guovdamas::{
    ContourDirection, ContourKind, Frame, Graph, Link, Lists, Options, Reports, Segment, Shapes, UnevenNode, Workspace,
    lent,
};

/// A box of four sides, filled inside or outside.
fn frame([x, y]: [i32; 2], size: i32, filled: bool) -> [Segment; 4] {
    let side = |a, b, top| Segment { a, b, fill_top: top == filled, skipped: false };
    let (low, high) = ([x, y], [x + size, y + size]);
    [
        side(low, [high[0], y], true),
        side(low, [x, high[1]], false),
        side([x, high[1]], high, false),
        side([high[0], y], high, true),
    ]
}

#[test]
fn nothing_is_found_in_nothing() {
    let shapes = Graph::new().extract_shapes(Options::default()).unwrap();
    assert!(shapes.is_empty() && shapes.contours().is_empty());
    assert_eq!(Graph::new(), Graph::default());
    assert_eq!(Graph::from_segments([]), Graph::new());
}

#[test]
fn links_and_nodes_one_by_one() {
    let mut graph = Graph::new();
    let mut link = |a, b, a_id, b_id, fill_top| graph.push_link(Link { a, b, a_id, b_id, fill_top, skipped: false });
    link([0, 0], [4, 0], 0, 2, true);
    link([0, 0], [0, 4], 0, 1, false);
    link([0, 4], [4, 4], 1, 3, false);
    link([4, 0], [4, 4], 2, 3, true);
    for links in [[0, 1], [1, 2], [0, 3], [2, 3]] {
        graph.push_node(links);
    }

    let options = Options { output_direction: ContourDirection::Clockwise, min_output_area: 16, ..Options::default() };
    let contours = graph.extract_contours(options).unwrap();
    assert_eq!(contours.len(), 1);
    assert_eq!(contours.get(0).unwrap().points(), [[0, 0], [0, 4], [4, 4], [4, 0]]);
    assert_eq!(contours.get(0).unwrap().doubled_area(), -32);
    assert_eq!(contours.counts().kept_area, -32);
    assert_eq!(contours.states(), [3; 4]);
    assert!(contours.get(1).is_none());

    let rejected = graph.extract_contours(Options { min_output_area: 17, ..options }).unwrap();
    assert!(rejected.is_empty());
    assert_eq!((rejected.counts().rejected, rejected.counts().walked), (1, 4));
}

#[test]
fn links_and_nodes_all_at_once() {
    let mut one_by_one = Graph::new();
    let links = [(0, true, false), (1, false, true), (2, false, false)].map(|(number, fill_top, skipped)| {
        let [x, y] = [number as i32, 10 + number as i32];
        Link { a: [x, y], b: [x + 20, y + 30], a_id: number, b_id: 5 - number, fill_top, skipped }
    });
    let nodes = [vec![0, 1], vec![2], vec![], vec![2, 1, 0]];
    links.into_iter().for_each(|link| one_by_one.push_link(link));
    nodes.iter().for_each(|links| one_by_one.push_node(links.iter().copied()));
    assert_eq!(Graph::from_links(links.into_iter(), nodes), one_by_one);
}

fn two_boxes_with_a_hole() -> Shapes {
    let segments = [frame([0, 0], 10, true), frame([20, 0], 10, true), frame([22, 2], 4, false)].concat();
    Graph::from_segments(segments).extract_shapes(Options::default()).unwrap()
}

#[test]
fn shapes_and_their_holes() {
    let shapes = two_boxes_with_a_hole();
    assert_eq!((shapes.len(), shapes.bound().shapes, shapes.bound().dropped), (2, 2, 0));
    assert_eq!(shapes.owners(), [0, 1, 1]);
    assert_eq!(shapes.role(2), Some(Role::Hole(1)));
    assert_eq!(shapes.role(3), None);
    let holes: Vec<usize> = shapes.iter().map(|shape| shape.holes().count()).collect();
    assert_eq!(holes, [0, 1]);
    let second = shapes.shape(1).unwrap();
    assert_eq!(second.doubled_area(), 200 - 32);
    assert_eq!(second.hull().kind(), ContourKind::Hull);
    assert_eq!(second.holes().next().unwrap().points(), [[22, 2], [22, 6], [26, 6], [26, 2]]);
    assert_eq!(shapes.dropped_holes().count(), 0);
    assert!(shapes.shape(2).is_none());
}

#[test]
fn areas_and_frames_in_millimetres() {
    let shapes = two_boxes_with_a_hole();
    let areas: Vec<f64> = shapes.contours().iter().map(|contour| contour.area_mm2()).collect();
    assert_eq!(areas, [0.01, 0.01, -0.0016]);
    let hole = shapes.contours().get(2).unwrap();
    assert_eq!(hole.frame_mm(), Frame { left: 0.22, bottom: 0.02, right: 0.26, top: 0.06 });
    let nets: Vec<f64> = shapes.iter().map(|shape| shape.area_mm2()).collect();
    assert_eq!((nets, shapes.area_mm2()), (vec![0.01, 0.0084], 0.0184));
    let Reports { area, left, bottom, right, top } = shapes.reports();
    assert_eq!((area, left, bottom), (areas, vec![0.0, 0.2, 0.22], vec![0.0, 0.0, 0.02]));
    assert_eq!((right, top), (vec![0.1, 0.3, 0.26], vec![0.1, 0.1, 0.06]));
    let nothing = Graph::new().extract_shapes(Options::default()).unwrap();
    assert_eq!((nothing.area_mm2().to_bits(), nothing.reports()), (0, Reports::default()));
}

/// A doubled area of 17 and edges of 47 and 57 are of those that would be other floats if they were rounded twice.
#[test]
fn areas_and_frames_are_rounded_once() {
    let side = |a, b| Segment { a, b, fill_top: true, skipped: false };
    let sides = [side([47, 57], [64, 57]), side([64, 57], [47, 58]), side([47, 58], [47, 57])];
    let shapes = Graph::from_segments(sides).extract_shapes(Options::default()).unwrap();
    assert_eq!((shapes.area_mm2(), shapes.reports().area), (0.00085, vec![0.00085]));
    let frame = Frame { left: 0.47, bottom: 0.57, right: 0.64, top: 0.58 };
    assert_eq!(shapes.shape(0).unwrap().hull().frame_mm(), frame);
}

/// From bound to bound: 2^40 square units.
#[test]
fn the_largest_square_in_millimetres() {
    let shapes = Graph::from_segments(frame([-524_288; 2], 1 << 20, true)).extract_shapes(Options::default()).unwrap();
    assert_eq!(shapes.area_mm2(), 109_951_162.777_6);
    let frame = Frame { left: -5242.88, bottom: -5242.88, right: 5242.88, top: 5242.88 };
    assert_eq!(shapes.shape(0).unwrap().hull().frame_mm(), frame);
}

#[test]
fn holes_without_a_hull_are_dropped() {
    let shapes = Graph::from_segments(frame([0, 0], 4, false)).extract_shapes(Options::default()).unwrap();
    assert!(shapes.is_empty());
    assert_eq!((shapes.bound().dropped, shapes.owners()), (1, &[65_535][..]));
    assert_eq!(shapes.role(0), Some(Role::Dropped));
    assert_eq!(shapes.dropped_holes().count(), 1);
    // it has a report, and belongs to no shape
    assert_eq!((shapes.area_mm2(), shapes.reports().area), (0.0, vec![-0.0016]));
}

#[test]
fn refusals_say_what_they_mean() {
    let mut segments = frame([0, 0], 4, true);
    segments[3].b = [524_289, 4];
    let refusal = Graph::from_segments(segments).extract_shapes(Options::default()).unwrap_err();
    assert_eq!((refusal.number(), refusal.place()), (3, 3));
    assert!(refusal.to_string().starts_with("refused 3 at 3: link 3 has a coordinate out of range"));
    let _: &dyn std::error::Error = &refusal;
}

#[test]
fn iterators_have_exact_sizes() {
    let shapes = two_boxes_with_a_hole();
    assert_eq!((shapes.iter().len(), shapes.contours().iter().len(), shapes.dropped_holes().len()), (2, 3, 0));
    let numbers: Vec<usize> = (&shapes).into_iter().map(|shape| shape.number()).collect();
    assert_eq!(numbers, [0, 1]);
    let backwards: Vec<usize> = shapes.contours().into_iter().rev().map(|contour| contour.number()).collect();
    assert_eq!(backwards, [2, 1, 0]);
    assert_eq!(shapes.contours().iter().nth(1), shapes.contours().get(1));
    let mut rest = shapes.iter();
    rest.next();
    assert_eq!((rest.len(), rest.size_hint()), (1, (1, Some(1))));
}

#[test]
fn shapes_nest_as_in_i_overlay() {
    let shapes = two_boxes_with_a_hole();
    let hull = |x| vec![[x, 10], [x, 0], [x + 10, 0], [x + 10, 10]];
    let hole = vec![[22, 2], [22, 6], [26, 6], [26, 2]];
    assert_eq!(shapes.to_vec(), vec![vec![hull(0)], vec![hull(20), hole.clone()]]);
    assert_eq!(shapes.contours().to_vec(), [hull(0), hull(20), hole]);
}

#[test]
fn roles_are_those_of_lookup() {
    let shapes = two_boxes_with_a_hole();
    let contours = shapes.contours().to_vec();
    let (points, len) = (contours.concat(), [4; 3]);
    let table = lent::Table { points: points.as_flattened(), first: &[0, 4, 8], len: &len, kind: &[0, 0, 1] };
    for contour in 0..4 {
        let found = lent::lookup(table, shapes.owners(), contour).map(|record| record.role);
        assert_eq!(shapes.role(contour), found);
    }
}

#[test]
fn segments_may_come_either_way_round() {
    let frames = [frame([0, 0], 10, true), frame([2, 2], 4, false)].concat();
    let turned = frames.iter().map(|segment| Segment {
        a: segment.b,
        b: segment.a,
        fill_top: !segment.fill_top,
        skipped: segment.skipped,
    });
    assert_eq!(Graph::from_segments(turned), Graph::from_segments(frames.iter().copied()));
}

#[test]
fn links_and_their_segments() {
    let mut graph = Graph::from_segments(frame([0, 0], 4, true));
    let link = Link { a: [0, 0], b: [0, 4], a_id: 0, b_id: 1, fill_top: false, skipped: false };
    assert_eq!((graph.link(0), graph.segment_of(0)), (Some(link), Some(1)));
    assert_eq!((graph.link(1).unwrap().b, graph.segment_of(1)), ([4, 0], Some(0)));
    assert_eq!((graph.link(4), graph.segment_of(4)), (None, None));
    graph.push_link(Link { skipped: true, ..link });
    assert_eq!((graph.link(4).unwrap().skipped, graph.segment_of(4)), (true, Some(4)));
}

/// A box with a joint in the middle of each of its four sides, filled inside or outside.
fn jointed_frame(low: [i32; 2], size: i32, filled: bool) -> Vec<Segment> {
    let halves = |side: Segment| {
        let middle = [0, 1].map(|axis| (side.a[axis] + side.b[axis]) / 2);
        [Segment { b: middle, ..side }, Segment { a: middle, ..side }]
    };
    frame(low, size, filled).into_iter().flat_map(halves).collect()
}

const WITHOUT_STRAIGHT_POINTS: Options =
    Options { output_direction: ContourDirection::Clockwise, min_output_area: 0, preserve_output_collinear: false };

/// Clockwise the walk round a hole begins at a joint: without it, the hole's least point is not where binding seeks it.
#[test]
fn straight_points_are_left_out() {
    let (options, all) =
        (WITHOUT_STRAIGHT_POINTS, Options { preserve_output_collinear: true, ..WITHOUT_STRAIGHT_POINTS });
    assert_eq!(Options { output_direction: ContourDirection::Clockwise, ..Options::default() }, all);
    let frames = [jointed_frame([0, 0], 20, true), jointed_frame([30, 0], 20, true), jointed_frame([32, 2], 4, false)];
    let graph = Graph::from_segments(frames.concat());
    let full = graph.extract_shapes(all).unwrap();
    assert_eq!(full.contours().iter().map(|contour| contour.points().len()).collect::<Vec<_>>(), [8; 3]);
    let hull = |x| vec![[x, 0], [x, 20], [x + 20, 20], [x + 20, 0]];
    let hole = vec![[32, 2], [36, 2], [36, 6], [32, 6]];
    let shapes = graph.extract_shapes(options).unwrap();
    assert_eq!(shapes.to_vec(), vec![vec![hull(0)], vec![hull(30), hole.clone()]]);
    assert_eq!((shapes.owners(), shapes.role(2)), (&[0, 1, 1][..], Some(Role::Hole(1))));
    assert_eq!((shapes.bound(), shapes.contours().states()), (full.bound(), full.contours().states()));
    assert_eq!(shapes.contours().counts(), lent::Counts { points: 12, left_out: 0, ..full.contours().counts() });

    let contours = graph.extract_contours(options).unwrap();
    assert_eq!(contours.to_vec(), [hull(0), hull(30), hole]);
    assert_eq!(contours.bind_holes(), Ok(shapes));
}

/// A refusal is the same with all points and without some, in number, place and reason.
#[test]
fn refusals_without_straight_points() {
    let all = Options { preserve_output_collinear: true, ..WITHOUT_STRAIGHT_POINTS };
    let frames = [jointed_frame([0, 0], 8, true), jointed_frame([30, 0], 8, true), jointed_frame([50, 2], 4, false)];
    let mut segments = frames.concat();
    let refusal = |segments: &[Segment], options| {
        Graph::from_segments(segments.iter().copied()).extract_shapes(options).unwrap_err()
    };
    let orphan = refusal(&segments, WITHOUT_STRAIGHT_POINTS);
    assert_eq!((orphan.number(), orphan.place()), (12, 2));
    assert_eq!(orphan, refusal(&segments, all));
    segments[0].skipped = true;
    let torn = refusal(&segments, WITHOUT_STRAIGHT_POINTS);
    assert_eq!(torn.number(), 8);
    assert_eq!(torn, refusal(&segments, all));
}

#[test]
fn a_workspace_is_used_again() {
    let large = Graph::from_segments([frame([0, 0], 10, true), frame([2, 2], 4, false)].concat());
    let small = Graph::from_segments(frame([0, 0], 4, true));
    let mut open = small.clone();
    open.push_node([]);
    let mut workspace = Workspace::new();
    let turns = [&small, &large, &open, &small].into_iter().flat_map(|graph| {
        [Options::default(), WITHOUT_STRAIGHT_POINTS, Options::default()].map(|options| (graph, options))
    });
    for (graph, options) in turns {
        let (due, found) = (graph.extract_shapes(options), workspace.extract_shapes(graph, options).cloned());
        assert_eq!(found, due);
        let lent: (Lists<'_>, &[u8]) = (graph.lists(), graph.skipped());
        assert_eq!(workspace.extract_contours(lent, options).cloned(), graph.extract_contours(options));
    }
}

#[test]
fn filled_sides_alternate() {
    let mut segments = [frame([0, 0], 4, true), frame([4, 4], 4, true)].concat();
    assert_eq!(Graph::from_segments(segments.iter().copied()).sides_alternate(), Ok(()));
    segments[1].fill_top = true;
    let uneven = Graph::from_segments(segments.iter().copied()).sides_alternate().unwrap_err();
    assert_eq!(uneven, UnevenNode { node: 0, point: [0, 0] });
    assert_eq!(uneven.to_string(), "filled and empty do not come by turns round node 0 at (0, 0)");
    // what is skipped does not count, and a cross of two filled corners does not alternate if one of them is turned
    // round
    segments[1].fill_top = false;
    segments[4..].iter_mut().for_each(|segment| segment.skipped = true);
    assert_eq!(Graph::from_segments(segments.iter().copied()).sides_alternate(), Ok(()));
}

#[test]
fn interfaces_cross_threads() {
    fn is_send_and_sync<T: Send + Sync>() {}
    is_send_and_sync::<(Graph, Shapes, Workspace, guovdamas::Refusal, Reports)>();
    let graph = Graph::from_segments(frame([0, 0], 4, true));
    let find = || graph.extract_shapes(Options::default());
    // binding and extraction fit the stack that is promised, with room for the thread itself
    let found = std::thread::scope(|scope| {
        let small = std::thread::Builder::new().stack_size(256 * 1024);
        small.spawn_scoped(scope, find).expect("a thread is made").join().expect("it ends")
    });
    assert_eq!(found, find());
}
