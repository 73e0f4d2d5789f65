//! `study show`: what is in a study and what is answered, in words or as JSON.

use crate::answer::{Answer, Found, Patch, Place, Point, Refused, Shape, answer};
use crate::json::Json;
use crate::stuck::stuck_walk;
use crate::units::{count, mm, square_mm};
use crate::view::{Frame, Link, links, nodes, points_at};
use guovdamas::study::{Study, StudyError};

/// So many nodes that a refusal speaks of are told.
pub const NODES: usize = 6;

/// The words for a study, or for a file that is none.
pub fn words(read: &Result<Study, StudyError>) -> Result<String, String> {
    match read {
        Ok(study) => Ok(content(study) + &answered(study, &answer(study)?)?),
        Err(error) => Ok(format!("{error}\n")),
    }
}

/// One line of JSON for a study, or for a file that is none.
pub fn json(read: &Result<Study, StudyError>) -> Result<String, String> {
    let json = match read {
        Ok(study) => {
            let mut members = content_json(study);
            members.extend(answer_json(study, &answer(study)?)?);
            Json::Object(members)
        }
        Err(error) => Json::Object(vec![("refused", form_json(error))]),
    };
    Ok(format!("{json}\n"))
}

pub fn direction(study: &Study) -> &'static str {
    if study.options.output_direction.is_clockwise() { "clockwise" } else { "counterclockwise" }
}

fn straight(study: &Study) -> &'static str {
    if study.options.preserve_output_collinear { "kept" } else { "dropped" }
}

fn crosses(study: &Study) -> usize {
    nodes(study).iter().filter(|list| list.len() != 2).count()
}

fn skipped(links: &[Link]) -> usize {
    links.iter().filter(|link| link.is_skipped()).count()
}

/// The lines about what is in it.
fn content(study: &Study) -> String {
    let links = links(study);
    let minimum = study.options.min_output_area;
    let frame = match Frame::of_links(&links) {
        None => "none".into(),
        Some(frame) => {
            let axis = |at: usize| format!("{} to {}", mm(frame.least[at].into()), mm(frame.greatest[at].into()));
            let size = format!("{} by {} mm", mm(frame.extent(0)), mm(frame.extent(1)));
            format!("x {}, y {} mm: {size}", axis(0), axis(1))
        }
    };
    let lines = [
        format!("links      {}, {} skipped", links.len(), skipped(&links)),
        format!("nodes      {}, {}", nodes(study).len(), count(crosses(study), "cross")),
        format!("direction  {}", direction(study)),
        format!("minimum    {minimum} units² ({} mm²)", square_mm(i128::from(minimum) * 2)),
        format!("straight   points {}", straight(study)),
        format!("frame      {frame}"),
        format!("sides      {}", sides(study)),
    ];
    lines.join("\n") + "\n"
}

/// Whether filled sides are consistent: if so no walk is refused once the checks have passed.
fn sides(study: &Study) -> String {
    let even = || "filled and empty come by turns round every node".into();
    study.graph.sides_alternate().map_or_else(|uneven| uneven.to_string(), |()| even())
}

fn answered(study: &Study, answer: &Answer) -> Result<String, String> {
    let refused = match answer {
        Answer::Found(found) => return Ok(found_words(found)),
        Answer::Refused(refused) => refused,
    };
    let walk = stuck_walk(study, refused)?.map_or(String::new(), |walk| {
        let points: Vec<String> = walk.points.iter().map(|&point| point_words(point)).collect();
        let links = joined(&walk.links);
        format!("  the walk of a {}, links {links}: {}, and no farther\n", walk.kind(), points.join(" "))
    });
    Ok(format!("{}\n{}{walk}", refused.refusal, place_words(study, &refused.place)))
}

fn joined(numbers: &[impl ToString]) -> String {
    numbers.iter().map(ToString::to_string).collect::<Vec<_>>().join(" ")
}

fn found_words(found: &Found) -> String {
    let mut lines = vec![format!("shapes     {}, net {} mm²", found.shapes.len(), square_mm(found.doubled_net()))];
    for (number, shape) in found.shapes.iter().enumerate() {
        lines.push(shape_words(number, shape));
        lines.extend(shape.holes.iter().map(|hole| patch_words("hole", hole)));
    }
    lines.push(format!("rejected   {}{}", count(found.rejected.len(), "patch"), rejected_words(found)));
    lines.extend(found.rejected.iter().map(|patch| patch_words(&format!("{}, rejected", patch.kind()), patch)));
    let dropped = square_mm(found.doubled_dropped());
    lines.push(format!("dropped    {} of {dropped} mm²", count(found.dropped.len(), "hole")));
    lines.extend(found.dropped.iter().map(|hole| patch_words("dropped hole", hole)));
    lines.join("\n") + "\n"
}

/// How much was rejected, hulls and holes by themselves.
pub fn rejected_words(found: &Found) -> String {
    let [hulls, holes] = found.doubled_rejected().map(|doubled| format!("{} mm²", square_mm(doubled)));
    let is_there = |is_hole: bool| found.rejected.iter().any(|patch| patch.is_hole == is_hole);
    match (is_there(false), is_there(true)) {
        (false, false) => String::new(),
        (true, false) => format!(" of {hulls}"),
        (false, true) => format!(" of {holes} (holes)"),
        (true, true) => format!(" of {hulls} (hulls) and {holes} (holes)"),
    }
}

fn shape_words(number: usize, shape: &Shape) -> String {
    let Shape { hull, holes, .. } = shape;
    let less = match holes.len() {
        0 => String::new(),
        some => format!(" (hull {} less {})", square_mm(hull.doubled_area), count(some, "hole")),
    };
    let points = points_words(&hull.points);
    format!("  shape {number}: {} mm²{less}, contour {}, {points}", square_mm(shape.doubled_net()), hull.number)
}

fn patch_words(what: &str, patch: &Patch) -> String {
    format!("    {} {what}: {} mm², {}", patch.number, square_mm(patch.doubled_area), points_words(&patch.points))
}

fn points_words(points: &[Point]) -> String {
    let first = points.first().map_or(String::new(), |point| format!(" from {}", point_words(*point)));
    format!("{}{first}", count(points.len(), "point"))
}

fn point_words([x, y]: Point) -> String {
    format!("({x}, {y})")
}

/// The lines that say where a refusal's place lies.
pub fn place_words(study: &Study, place: &Place) -> String {
    match place {
        Place::Whole => String::new(),
        Place::Link(k) => links(study).get(*k).map_or(String::new(), |link| {
            let [a, b] = link.ends.map(point_words);
            let [a_id, b_id] = link.ids;
            format!("  link {k}: {a} to {b}, nodes {a_id} and {b_id}, top {}, state {}\n", link.top, link.state)
        }),
        Place::Nodes(at) => at.iter().take(NODES).map(|&node| node_words(study, node)).collect(),
        Place::Contour(patch) => patch_words(&format!("{} without a shape", patch.kind()), patch) + "\n",
    }
}

fn node_words(study: &Study, node: usize) -> String {
    let points: Vec<String> = points_at(&links(study), node).into_iter().map(point_words).collect();
    let at = if points.is_empty() { "no link's end".into() } else { points.join(" and ") };
    let list = joined(nodes(study)[node]);
    format!("  node {node}: at {at}, links {}\n", if list.is_empty() { "none" } else { &list })
}

fn content_json(study: &Study) -> Vec<(&'static str, Json)> {
    let links = links(study);
    let frame = Frame::of_links(&links).map_or(Json::Null, |frame| {
        let [left, bottom] = frame.least.map(|c| Json::Number(mm(c.into())));
        let [right, top] = frame.greatest.map(|c| Json::Number(mm(c.into())));
        Json::Object(vec![("left", left), ("bottom", bottom), ("right", right), ("top", top)])
    });
    vec![
        ("links", Json::number(links.len())),
        ("skipped", Json::number(skipped(&links))),
        ("nodes", Json::number(nodes(study).len())),
        ("crosses", Json::number(crosses(study))),
        ("direction", Json::Text(direction(study).into())),
        ("minimum", Json::number(study.options.min_output_area)),
        ("straight_points", Json::Text(straight(study).into())),
        ("frame_mm", frame),
        ("uneven_node", study.graph.sides_alternate().map_or_else(|uneven| Json::number(uneven.node), |()| Json::Null)),
    ]
}

fn answer_json(study: &Study, answer: &Answer) -> Result<Vec<(&'static str, Json)>, String> {
    let found = match answer {
        Answer::Refused(refused) => return Ok(vec![("refused", refused_json(study, refused)?)]),
        Answer::Found(found) => found,
    };
    let area = |doubled| Json::Number(square_mm(doubled));
    Ok(vec![
        ("refused", Json::Null),
        ("shapes", Json::list(found.shapes.iter().enumerate(), |(number, shape)| shape_json(number, shape))),
        ("rejected", Json::list(&found.rejected, patch_json)),
        ("dropped", Json::list(&found.dropped, patch_json)),
        ("net_mm2", area(found.doubled_net())),
        ("rejected_hulls_mm2", area(found.doubled_rejected()[0])),
        ("rejected_holes_mm2", area(found.doubled_rejected()[1])),
        ("dropped_mm2", area(found.doubled_dropped())),
    ])
}

fn shape_json(number: usize, shape: &Shape) -> Json {
    Json::Object(vec![
        ("shape", Json::number(number)),
        ("net_mm2", Json::Number(square_mm(shape.doubled_net()))),
        ("hull", patch_json(&shape.hull)),
        ("holes", Json::list(&shape.holes, patch_json)),
    ])
}

fn patch_json(patch: &Patch) -> Json {
    Json::Object(vec![
        ("number", Json::number(patch.number)),
        ("kind", Json::Text(patch.kind().into())),
        ("mm2", Json::Number(square_mm(patch.doubled_area))),
        ("points", points_json(&patch.points)),
    ])
}

fn points_json(points: &[Point]) -> Json {
    Json::list(points, |point| Json::list(point, Json::number))
}

fn refused_json(study: &Study, refused: &Refused) -> Result<Json, String> {
    let refusal = refused.refusal;
    let walk = stuck_walk(study, refused)?;
    let (what, points) = match &refused.place {
        Place::Whole => ("graph", Vec::new()),
        Place::Link(k) => ("link", links(study).get(*k).map_or(Vec::new(), |link| link.ends.to_vec())),
        Place::Nodes(at) => ("node", at.iter().flat_map(|&node| points_at(&links(study), node)).collect()),
        Place::Contour(patch) => ("contour", patch.points.clone()),
    };
    Ok(Json::Object(vec![
        ("number", Json::number(refusal.number())),
        ("place", Json::number(refusal.place())),
        ("of", Json::Text(what.into())),
        ("points", points_json(&points)),
        ("reason", Json::Text(refusal.to_string())),
        ("walk", walk.map_or(Json::Null, |walk| points_json(&walk.points))),
    ]))
}

/// A file that is not of the right form, or passes its limits.
fn form_json(error: &StudyError) -> Json {
    Json::Object(vec![
        ("number", error.number().map_or(Json::Null, Json::number)),
        ("place", Json::number(error.place())),
        ("of", Json::Text("file".into())),
        ("points", Json::List(Vec::new())),
        ("reason", Json::Text(error.to_string())),
        ("walk", Json::Null),
    ])
}
