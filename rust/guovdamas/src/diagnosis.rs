//! The reason of a refusal, worked out from what was lent. Nothing of it runs unless the library has refused; that it
//! did, with which number and where, is the library's answer alone.

use crate::lists::{Buffers, Lists, ReportLists, Table, in_range, turn};
use crate::refusal::RefusalKind::{self, *};
use crate::{ContourDirection, MAX_LINKS};

/// Why extraction refused; the states are as before the call.
pub(crate) fn of_graph(number: u32, place: u32, lists: &Lists<'_>, lent: &Buffers<'_>) -> RefusalKind {
    let place = place as usize;
    let reason = match number {
        1 => Some(TooManyLinks),
        2 => wrong_length(lists, lent),
        3 => wrong_link(lists, lent.state, place),
        4 => Some(OutOfOrder),
        5 => wrong_starts(lists).or_else(|| wrong_nodes(lists)).or_else(|| missing_link(lists)),
        6 => ends_apart(lists, place),
        7 => same_direction(lists, lent.state, place),
        8 => Some(NoLinkToTake),
        9 => Some(EndsElsewhere),
        _ => None,
    };
    reason.unwrap_or(Unknown { number })
}

/// Why binding refused, given room for so many owners.
pub(crate) fn of_table(
    number: u32,
    place: u32,
    table: &Table<'_>,
    direction: ContourDirection,
    owners: usize,
) -> RefusalKind {
    let (place, clockwise) = (place as usize, direction.is_clockwise());
    let reason = match number {
        10 => wrong_table(table, owners, &[]).or_else(|| wrong_contour(table, place)),
        11 => wrong_anchor(table, place, clockwise),
        12 => Some(NothingUnder),
        _ => None,
    };
    reason.unwrap_or(Unknown { number })
}

/// Why the reports of a table were refused, given these owners and these lists to fill.
pub(crate) fn of_reports(
    number: u32,
    place: u32,
    table: &Table<'_>,
    owners: usize,
    lists: &ReportLists<'_>,
) -> RefusalKind {
    let reason = match number {
        10 => wrong_table(table, owners, &lists.lengths()).or_else(|| wrong_contour(table, place as usize)),
        _ => None,
    };
    reason.unwrap_or(Unknown { number })
}

fn wrong_length(lists: &Lists<'_>, lent: &Buffers<'_>) -> Option<RefusalKind> {
    let links = lists.links();
    let lengths = [
        ("ax", lists.ax.len()),
        ("ay", lists.ay.len()),
        ("bx", lists.bx.len()),
        ("by", lists.by.len()),
        ("b_id", lists.b_id.len()),
        ("top", lists.top.len()),
        ("state", lent.state.len()),
    ];
    let (first, rest) = (lent.first.len(), [lent.len.len(), lent.kind.len()]);
    if let Some((list, _)) = lengths.into_iter().find(|(_, length)| *length != links) {
        Some(WrongLength { list })
    } else if lists.start.is_empty() {
        Some(NoStart)
    } else if lent.points.len() / 2 < links {
        Some(LittleRoomForPoints)
    } else if rest != [first; 2] {
        Some(UnevenTable)
    } else {
        (first < links / 3).then_some(LittleRoomForContours)
    }
}

fn wrong_link(lists: &Lists<'_>, state: &[u8], link: usize) -> Option<RefusalKind> {
    let ([a, b], ids) = (lists.ends(link)?, lists.ids(link)?);
    if !in_range(a) || !in_range(b) {
        Some(OutOfRange)
    } else if a == b {
        Some(NoLength)
    } else if a > b {
        Some(WrongWayRound)
    } else if let Some(node) = ids.into_iter().find(|&node| node as usize >= lists.nodes()) {
        Some(UnknownNode { node })
    } else if ids[0] == ids[1] {
        Some(OneNodeTwice)
    } else if *lists.top.get(link)? > 1 {
        Some(WrongTop)
    } else {
        (*state.get(link)? > 1).then_some(WrongState)
    }
}

fn wrong_starts(lists: &Lists<'_>) -> Option<RefusalKind> {
    let start = lists.start;
    if *start.first()? != 0 {
        Some(FirstStart)
    } else if *start.last()? as usize != lists.list.len() {
        Some(LastStart)
    } else {
        let falls = start.windows(2).position(|pair| pair[1] < pair[0]);
        falls.map(|node| FallingStarts { node: node as u32 })
    }
}

/// The first node whose list has too few links, or one that does not belong there.
fn wrong_nodes(lists: &Lists<'_>) -> Option<RefusalKind> {
    let mut held_last_by = vec![None; lists.links()];
    (0..lists.nodes()).find_map(|node| {
        let entries = lists.entries(node)?;
        let few = if entries.len() < 2 { few_entries(lists, node as u32) } else { None };
        few.or_else(|| entries.iter().find_map(|&entry| wrong_entry(lists, node as u32, entry, &mut held_last_by)))
    })
}

/// Of a node with fewer than two entries: a loose end if really one link ends there alone. Where more do, its list
/// lacks one.
fn few_entries(lists: &Lists<'_>, node: u32) -> Option<RefusalKind> {
    let ending = |link: &usize| lists.ids(*link).is_some_and(|ids| ids.contains(&node));
    match (0..lists.links()).filter(ending).take(2).collect::<Vec<_>>()[..] {
        [] => Some(FewEntries { node }),
        [link] => Some(LooseEnd { node, point: lists.run_from(link, node as usize)?[0] }),
        _ => None,
    }
}

fn wrong_entry(lists: &Lists<'_>, node: u32, entry: u32, held_last_by: &mut [Option<u32>]) -> Option<RefusalKind> {
    let Some(ids) = lists.ids(entry as usize) else { return Some(UnknownLink { node, entry }) };
    if !ids.contains(&node) {
        return Some(StrangeLink { node, link: entry });
    }
    let before = held_last_by.get_mut(entry as usize)?.replace(node);
    (before == Some(node)).then_some(RepeatedLink { node, link: entry })
}

fn missing_link(lists: &Lists<'_>) -> Option<RefusalKind> {
    (0..lists.links()).find_map(|link| {
        let lacks = |node: &u32| lists.entries(*node as usize).is_some_and(|held| !held.contains(&(link as u32)));
        let node = lists.ids(link)?.into_iter().find(lacks)?;
        Some(MissingLink { node, link: link as u32 })
    })
}

fn ends_apart(lists: &Lists<'_>, node: usize) -> Option<RefusalKind> {
    let mut points = lists.entries(node)?.iter().filter_map(|&link| Some(lists.run_from(link as usize, node)?[0]));
    let first = points.next()?;
    Some(EndsApart { points: [first, points.find(|point| *point != first)?] })
}

fn same_direction(lists: &Lists<'_>, state: &[u8], node: usize) -> Option<RefusalKind> {
    let unskipped = |link: &u32| state.get(*link as usize) == Some(&0);
    let links: Vec<u32> = lists.entries(node)?.iter().copied().filter(unskipped).collect();
    let run = |link: u32| lists.run_from(link as usize, node);
    (1..links.len()).find_map(|at| {
        let [point, to] = run(links[at])?;
        let alike = |link: &&u32| run(**link).is_some_and(|[_, other]| is_one_direction(point, to, other));
        let other = *links[..at].iter().find(alike)?;
        Some(SameDirection { point, links: [other, links[at]] })
    })
}

/// Whether the vectors from `o` to both points have one direction. The two points are not `o`, and lie on one side of
/// it exactly if they are both before it or both after it.
fn is_one_direction(o: [i32; 2], p: [i32; 2], q: [i32; 2]) -> bool {
    turn(o, p, q) == 0 && (p > o) == (q > o)
}

/// What is wrong with the whole table, its owners, or one of the lists to fill, each with its name.
fn wrong_table(table: &Table<'_>, owners: usize, lists: &[(&'static str, usize)]) -> Option<RefusalKind> {
    let (contours, points) = (table.first.len(), table.points.len() / 2);
    let short = lists.iter().find(|(_, length)| *length < contours);
    if [table.len.len(), table.kind.len()] != [contours; 2] {
        Some(UnevenColumns)
    } else if owners < contours {
        Some(LittleRoomForOwners)
    } else if let Some(&(list, _)) = short {
        Some(LittleRoomForReports { list })
    } else if points > MAX_LINKS {
        Some(TooManyPoints)
    } else if table.points.len() % 2 == 1 {
        Some(HalfAPoint)
    } else {
        (end_before(table, contours) != points as u64).then_some(PointsLeft)
    }
}

/// Where the contour before this one ends; 0 if there is none.
fn end_before(table: &Table<'_>, contour: usize) -> u64 {
    let range = |before: usize| Some(*table.first.get(before)? as u64 + *table.len.get(before)? as u64);
    contour.checked_sub(1).and_then(range).unwrap_or(0)
}

fn wrong_contour(table: &Table<'_>, contour: usize) -> Option<RefusalKind> {
    if *table.first.get(contour)? as u64 != end_before(table, contour) {
        return Some(NotAdjoining);
    }
    let Some(points) = table.contour(contour) else { return Some(PastThePoints) };
    if points.len() < 3 {
        Some(FewPoints)
    } else if edges_round(&points).any(|[from, to]| from == to) {
        Some(EqualNeighbours)
    } else if points.iter().any(|point| !in_range(*point)) {
        Some(PointOutOfRange)
    } else {
        (*table.kind.get(contour)? > 1).then_some(WrongKind)
    }
}

/// The edges of a contour, the last one back to its first point.
fn edges_round(points: &[[i32; 2]]) -> impl Iterator<Item = [[i32; 2]; 2]> {
    points.iter().zip(points.iter().cycle().skip(1)).map(|(from, to)| [*from, *to])
}

/// Where a hole's anchor stands among its points.
fn anchor_position(clockwise: bool) -> usize {
    clockwise as usize
}

fn wrong_anchor(table: &Table<'_>, hole: usize, clockwise: bool) -> Option<RefusalKind> {
    let points = table.contour(hole)?;
    let anchor = *points.get(anchor_position(clockwise))?;
    Some(if points.iter().any(|point| *point < anchor) { AnchorNotLeast } else { HolesOutOfOrder })
}
