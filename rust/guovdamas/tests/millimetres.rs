//! Areas and frames in millimetres by the safe interface, on generated shapes, beside whole numbers: of contours, of
//! shapes and of all shapes, and of all contours at once; with straight points and without. Seeds are fixed.

use generators::planar::{FAMILIES, sample};
use generators::rng::Rng;
use generators::{joints, wild};
use guovdamas::{Contour, ContourDirection, Frame, Options, Reports, Shapes};
use lending::lists;

/// How often what was met.
#[derive(Debug, Default)]
struct Met {
    contours: usize,
    odd_areas: usize,
    shapes_with_holes: usize,
    dropped_holes: usize,
    /// Graphs of which the contours' areas, summed as floats, are not what the whole numbers say.
    roundings_added_up: usize,
}

fn in_square_mm(doubled: i64) -> f64 {
    doubled as f64 / 20_000.0
}

fn assert_same(ours: f64, due: f64, of: &Shapes) {
    assert_eq!(ours.to_bits(), due.to_bits(), "{ours} {due} {of:?}");
}

/// The frame by whole numbers.
fn frame(contour: &Contour<'_>) -> Frame {
    let edge = |axis: usize, pick: fn(i32, i32) -> i32| {
        let coordinates = contour.points().iter().map(|point| point[axis]);
        f64::from(coordinates.reduce(pick).expect("a contour has points")) / 100.0
    };
    Frame { left: edge(0, i32::min), bottom: edge(1, i32::min), right: edge(0, i32::max), top: edge(1, i32::max) }
}

fn edges(frame: Frame) -> [f64; 4] {
    [frame.left, frame.bottom, frame.right, frame.top]
}

/// Each contour's own answers, and its entries among those of all.
fn hold_contours(shapes: &Shapes, met: &mut Met) {
    let Reports { area, left, bottom, right, top } = shapes.reports();
    assert_eq!([&area, &left, &bottom, &right, &top].map(Vec::len), [shapes.contours().len(); 5]);
    for contour in shapes.contours() {
        let number = contour.number();
        assert_same(contour.area_mm2(), in_square_mm(contour.doubled_area()), shapes);
        assert_same(area[number], contour.area_mm2(), shapes);
        let listed = [left[number], bottom[number], right[number], top[number]];
        for ours in [listed, edges(contour.frame_mm())] {
            ours.into_iter().zip(edges(frame(&contour))).for_each(|(ours, due)| assert_same(ours, due, shapes));
        }
        met.contours += 1;
        met.odd_areas += (contour.doubled_area() % 2 != 0) as usize;
    }
}

/// Whole sums: of each shape, and of all.
fn hold_sums(shapes: &Shapes, met: &mut Met) {
    let kept_area = shapes.contours().counts().kept_area;
    assert_eq!(shapes.contours().iter().map(|contour| contour.doubled_area()).sum::<i64>(), kept_area, "{shapes:?}");
    for shape in shapes {
        assert_same(shape.area_mm2(), in_square_mm(shape.doubled_area()), shapes);
        met.shapes_with_holes += (shape.holes().count() > 0) as usize;
    }
    let dropped: i64 = shapes.dropped_holes().map(|hole| hole.doubled_area()).sum();
    assert_eq!(shapes.iter().map(|shape| shape.doubled_area()).sum::<i64>() + dropped, kept_area, "{shapes:?}");
    assert_same(shapes.area_mm2(), in_square_mm(kept_area - dropped), shapes);
    met.dropped_holes += shapes.bound().dropped as usize;
    if shapes.bound().dropped == 0 {
        let floats: f64 = shapes.contours().iter().map(|contour| contour.area_mm2()).sum();
        met.roundings_added_up += (floats != shapes.area_mm2()) as usize;
    }
}

#[test]
fn generated_shapes() {
    let (mut met, mut refused) = (Met::default(), 0);
    for seed in 0..6000 {
        let mut rng = Rng::new(seed ^ 19 << 40);
        let plain = match seed % 5 {
            0 => wild::sample(12, &mut rng),
            _ => sample(FAMILIES[seed as usize % FAMILIES.len()], rng.choose(&[3, 5, 8]), &mut rng),
        };
        let jointed = joints::split(&plain, &mut rng);
        let (lent, state) = (lists(&jointed.graph), &jointed.state[..]);
        let options = Options {
            output_direction: ContourDirection::from_clockwise(rng.chance(50)),
            min_output_area: rng.choose(&[0, 0, 2, 50]),
            preserve_output_collinear: true,
        };
        let without = Options { preserve_output_collinear: false, ..options };
        match (lent.extract_shapes(state, options), lent.extract_shapes(state, without)) {
            (Ok(full), Ok(dropped)) => {
                for shapes in [&full, &dropped] {
                    hold_contours(shapes, &mut met);
                    hold_sums(shapes, &mut met);
                }
                assert_eq!(dropped.reports(), full.reports());
                assert_same(dropped.area_mm2(), full.area_mm2(), &full);
            }
            (full, dropped) => {
                assert_eq!(dropped.err(), full.err());
                refused += 1;
            }
        }
    }
    println!("{met:?}, {refused} refused");
    assert!(met.contours > 50_000 && met.odd_areas > 2000 && met.shapes_with_holes > 2000, "{met:?}");
    assert!(met.dropped_holes > 100 && met.roundings_added_up > 500 && refused < 3000, "{met:?}");
}
