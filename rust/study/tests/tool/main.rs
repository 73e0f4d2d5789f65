//! The tool over every case of tests/cases, and its pictures as they are stored.

#[path = "../../examples/crate_reading.rs"]
#[allow(dead_code)]
mod crate_reading;
mod look;
mod program;

use generators::planar::FAMILIES;
use generators::rng::Rng;
use generators::{planar, wild};
use guovdamas::study::Study;
use look::{bytes, cases, path, tags, texts};
use reading::Settings;
use reading::file::{self, encode};
use study::answer::{Answer, Patch, Shape, answer};
use study::units::square_mm;
use study::{draw, show, text};

fn case(name: &str) -> Vec<u8> {
    bytes(&format!("cases/{name}.graph"))
}

/// What is shown of a file.
fn words(file: &[u8]) -> String {
    show::words(&Study::parse(file)).expect("it is shown")
}

/// What the program answers to a case.
fn out(name: &str) -> String {
    String::from_utf8(bytes(&format!("cases/{name}.out"))).expect("an answer is text")
}

/// Every case of right form.
fn studies() -> Vec<(String, Study)> {
    cases().into_iter().filter_map(|name| Study::parse(&case(&name)).ok().map(|study| (name, study))).collect()
}

#[test]
fn shown_as_the_program_answers() {
    for name in cases() {
        let (words, due) = (words(&case(&name)), out(&name));
        let first = due.lines().next().expect("an answer has a line");
        if first.starts_with("refused") {
            assert!(words.lines().any(|line| line.starts_with(&format!("{first}: "))), "{name}: {words}");
            continue;
        }
        let counts: Vec<&str> = first.split(' ').collect();
        assert!(words.contains(&format!("\nshapes     {}, net ", counts[3])), "{name}: {words}");
        let dropped = words.lines().filter(|line| line.contains(" dropped hole: ")).count();
        assert_eq!(dropped.to_string(), counts[7], "{name}: {words}");
        let contours = ["  shape ", " hole: "].map(|word| words.lines().filter(|line| line.contains(word)).count());
        assert_eq!((contours[0] + contours[1]).to_string(), counts[1], "{name}: {words}");
    }
}

#[test]
fn json_is_well_formed() {
    for name in cases() {
        let json = show::json(&Study::parse(&case(&name))).expect("it is shown");
        let mut rest = json.as_str();
        skip_value(&mut rest);
        assert_eq!(rest, "\n", "{name}: {json}");
        assert_eq!(json.contains("\"refused\": null"), !out(&name).starts_with("refused"), "{name}: {json}");
    }
}

/// Takes one JSON value off the front.
fn skip_value(rest: &mut &str) {
    let closes = match rest.chars().next().expect("a value") {
        '{' => '}',
        '[' => ']',
        '"' => return skip_text(rest),
        _ => {
            let end = rest.find([',', '}', ']', '\n']).expect("a number ends");
            let is_number = rest[..end].parse::<f64>().is_ok();
            assert!(is_number || &rest[..end] == "null", "{}", &rest[..end]);
            return *rest = &rest[end..];
        }
    };
    *rest = &rest[1..];
    while !rest.starts_with(closes) {
        if closes == '}' {
            skip_text(rest);
            *rest = rest.strip_prefix(": ").expect("a name has a value");
        }
        skip_value(rest);
        let more = rest.strip_prefix(", ");
        assert!(more.is_some() || rest.starts_with(closes), "{rest}");
        *rest = more.unwrap_or(rest);
    }
    *rest = &rest[1..];
}

fn skip_text(rest: &mut &str) {
    let inner = rest.strip_prefix('"').expect("a text");
    *rest = &inner[inner.find('"').expect("a text ends") + 1..];
}

#[test]
fn what_is_dumped_is_made_again() {
    for (name, study) in studies() {
        let dumped = text::dump(&study);
        let made = text::make(&dumped).unwrap_or_else(|error| panic!("{name}: {error}"));
        assert_eq!(made, study, "{name}: {dumped}");
        assert_eq!(made.encode().expect("it is written"), case(&name), "{name}: {dumped}");
    }
}

#[test]
fn a_text_by_hand() {
    let square = "# E2\nlink 0 0 4 0 1\n  link 0 0 0 4 0\nlink 0 4 4 4 0\n\nlink 4 0 4 4 1\n";
    assert_eq!(text::make(square).expect("it is right").encode().expect("it is written"), case("e2"));
    let with =
        |line: &str| text::make(&format!("{square}{line}\n")).map(|study| study.encode().expect("it is written"));
    assert_eq!(with("skip 0"), Ok(case("e7")));
    assert_eq!(with("direction clockwise"), Ok(case("e3")));
    assert_eq!(with("minimum 17"), Ok(case("e5")));
    assert_eq!(with("minimum -1"), Err("line 7: -1 is no such number as is wanted there".into()));
    assert_eq!(with("link 1 2 3 4"), Err("line 7: this is no line of a study: link 1 2 3 4".into()));
    assert_eq!(with("skip 4"), Err("line 7: there is no link 4".into()));
    assert_eq!(with("set state 0 256"), Err("line 7: a state is one byte".into()));
}

#[test]
fn pictures_are_well_formed_and_labels_apart() {
    for (name, study) in studies() {
        let svg = draw::study(&name, &study).unwrap_or_else(|error| panic!("{name}: {error}"));
        let texts = texts(&svg);
        assert!(texts.iter().any(|(words, _)| words.starts_with(&format!("{name}: "))), "{name}");
        if let Some(refused) = out(&name).strip_suffix('\n').filter(|answer| answer.starts_with("refused")) {
            assert!(texts.iter().any(|(words, _)| words.contains(refused)), "{name}: {refused}");
        }
    }
}

/// Sees that each area as it is shown, exact, reads as the float that the library reports, and is drawn in the same
/// digits; how many there are.
fn hold_areas(study: &Study) -> usize {
    let Answer::Found(found) = answer(study).expect("it is answered") else { return 0 };
    let patch = |patch: &Patch| (patch.doubled_area, patch.area_mm2);
    let shape = |shape: &Shape| (shape.doubled_net(), shape.net_mm2);
    let mut areas: Vec<(i128, f64)> = found.contours().chain(&found.rejected).map(patch).collect();
    areas.extend(found.shapes.iter().map(shape));
    areas.push((found.doubled_net(), found.net_mm2));
    for (doubled, reported) in &areas {
        let shown = square_mm(*doubled);
        assert_eq!(shown.parse::<f64>().map(f64::to_bits), Ok(reported.to_bits()), "{shown}");
        assert_eq!(reported.to_string(), shown);
    }
    areas.len()
}

#[test]
fn areas_are_those_that_the_library_reports() {
    let areas: usize = studies().iter().map(|(_, study)| hold_areas(study)).sum();
    let study = Study::parse(&bytes("rust-data/study.graph")).expect("it is right");
    assert!(areas > 200 && hold_areas(&study) > 5, "{areas}");
}

/// Graphs with crosses, holes, islands, skipped links, rejected patches, and walks that are refused.
#[test]
fn generated_studies() {
    let (mut refused, mut areas) = (0, 0);
    for seed in 0..240 {
        let mut rng = Rng::new(seed ^ 9 << 40);
        let sample = match seed % 3 {
            0 => wild::sample(9, &mut rng),
            _ => planar::sample(FAMILIES[seed as usize % FAMILIES.len()], rng.choose(&[2, 4, 7]), &mut rng),
        };
        let settings =
            Settings { clockwise: rng.chance(50), minimum: rng.choose(&[0, 1, 20, 2000]), drop_straight: false };
        let bytes = encode(&file::Study { settings, graph: sample.graph, state: sample.state });
        let mut study = Study::parse(&bytes).expect("it is right");
        study.options.preserve_output_collinear = seed % 2 == 0;
        assert_eq!(text::make(&text::dump(&study)).expect("it is right").encode().as_ref(), Ok(&bytes));
        let svg = draw::study("generated", &study).unwrap_or_else(|error| panic!("{seed}: {error}"));
        texts(&svg);
        areas += hold_areas(&study);
        refused += usize::from(words(&bytes).contains("\nrefused "));
    }
    assert!((10..230).contains(&refused) && areas > 1000, "{refused} are refused, {areas} areas");
}

/// The square of seven links: three of its points are straight. With all of them no point is drawn, without them the others.
#[test]
fn straight_points_are_dropped_if_asked_for() {
    let kept = Study::parse(&case("straight")).expect("it is right");
    let mut dropped = kept.clone();
    dropped.options.preserve_output_collinear = false;
    let drawn = |study: &Study| {
        let svg = draw::study("straight", study).expect("it is drawn");
        let square =
            tags(&svg).iter().find_map(|tag| tag.attribute("d").map(|path| path.split(['M', 'L']).count() - 1));
        let dots = tags(&svg).iter().filter(|tag| tag.name == "circle").count();
        (square, dots, texts(&svg).iter().any(|(words, _)| words == "4 points left, straight ones dropped"))
    };
    assert_eq!((drawn(&kept), drawn(&dropped)), ((Some(7), 0, false), (Some(4), 4, true)));
    let [with, without] = [kept, dropped].map(|study| show::words(&Ok(study)).expect("it is shown"));
    assert!(with.contains("straight   points kept\n") && with.contains(", 7 points from (0, 2)\n"), "{with}");
    assert!(
        without.contains("straight   points dropped\n") && without.contains(", 4 points from (0, 0)\n"),
        "{without}"
    );
}

/// 1,365 triangles in 35 rows: more than can be labelled or listed.
#[test]
fn many_shapes_are_drawn() {
    let mut links: Vec<[i32; 5]> = (0..1365).flat_map(|at| triangle(at % 40 * 10, at / 40 * 10)).collect();
    links.sort();
    let lines = links.iter().map(|[ax, ay, bx, by, top]| format!("link {ax} {ay} {bx} {by} {top}\n"));
    let study = text::make(&lines.collect::<String>()).expect("it is right");
    let svg = draw::study("many", &study).expect("it is drawn");
    let texts = texts(&svg);
    assert!(texts.iter().any(|(words, _)| words == "1325 more shapes: 4.24 mm² in all"), "{texts:?}");
}

fn triangle(x: i32, y: i32) -> [[i32; 5]; 3] {
    [[x, y, x, y + 8, 0], [x, y, x + 8, y, 1], [x, y + 8, x + 8, y, 0]]
}

#[test]
fn the_incident_shows_both_rejected_patches() {
    let words = words(&case("e8"));
    assert!(
        words.contains("rejected   2 patches of 0.0002 mm²\n    0 hull, rejected: 0.0001 mm², 3 points from (2, 2)\n"),
        "{words}"
    );
    assert!(words.contains("    1 hull, rejected: 0.0001 mm², 3 points from (2, 0)\n"), "{words}");
    assert!(words.contains("  shape 0: 0.005 mm², contour 0, 3 points from (10, -10)\n"), "{words}");
    let svg = draw::study("e8", &Study::parse(&case("e8")).expect("it is right")).expect("it is drawn");
    let texts: Vec<String> = texts(&svg).into_iter().map(|(words, _)| words).collect();
    for number in 0..2 {
        let name = format!("rejected {number}");
        let named = texts.iter().filter(|words| words.starts_with(&name)).count();
        assert_eq!(named, 2, "{name}, beside itself and in the legend: {texts:?}");
    }
    let patches = tags(&svg).iter().filter(|tag| tag.attribute("fill") == Some("#ffcd96")).count();
    assert_eq!(patches, 4, "each as itself and as the legend's key");
}

#[test]
fn a_refused_walk_is_drawn_as_far_as_it_came() {
    let words = words(&case("e7"));
    assert!(words.ends_with("\n  the walk of a hull, links 1: (0, 4) (0, 0), and no farther\n"), "{words}");
    for (name, points) in [("e7", 2), ("9", 5)] {
        let svg = draw::study(name, &Study::parse(&case(name)).expect("it is right")).expect("it is drawn");
        let tags = tags(&svg);
        let walk = tags.iter().find(|tag| tag.attribute("stroke-width") == Some("6")).expect("a walk");
        assert_eq!(walk.attribute("d").expect("a path").split(['M', 'L']).count() - 1, points, "{name}");
    }
}

/// Stored pictures are made anew by `study draw`, and that of the crate's reading by the example `crate_reading`.
#[test]
fn pictures_are_as_stored() {
    let drawn = |title: &str, file: &[u8]| draw::study(title, &Study::parse(file).expect("it is right"));
    let pictures = [
        ("study", drawn("study", &bytes("rust-data/study.graph")).expect("it is drawn")),
        ("e8", drawn("e8", &case("e8")).expect("it is drawn")),
        ("e8-crate", crate_reading::picture(&case("e8")).expect("it is drawn")),
    ];
    for (name, svg) in pictures {
        let stored = String::from_utf8(bytes(&format!("rust-data/{name}.svg"))).expect("a picture is text");
        texts(&svg);
        for (at, (ours, due)) in (1..).zip(svg.lines().zip(stored.lines())) {
            assert_eq!(ours, due, "{name}.svg, line {at}");
        }
        assert_eq!(svg, stored, "{}", path(&format!("rust-data/{name}.svg")).display());
    }
}
