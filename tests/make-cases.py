#!/usr/bin/env python3
"""The program's cases: what it reads, what it must print, and where that comes from.

    tests/make-cases.py               writes tests/cases anew: NAME.graph, NAME.out and README.md
    tests/make-cases.py --check       compares tests/cases with what would be written, and every expected output with the reading
    tests/make-cases.py --large DIR   writes into DIR the cases that are not stored: large files, and every cut of E2's file

An expected output comes from document 01, from hand, or from the independent reading of document 01 in Rust
(rust/reading), never from the program. Only the reading's outputs are asked for; those of the other two are written
here, and `--check` has the reading confirm them.
"""

import functools
import json
import pathlib
import struct
import subprocess
import sys

HERE = pathlib.Path(__file__).resolve().parent
CASES = HERE / "cases"
MAX_COORDINATE = 524288
MAX_MINIMUM = 2**64 - 1

# ---- files


def record(kind, body, length=None):
    """A record whose length field says its body's length, or another one."""
    return struct.pack("<IH", len(body) if length is None else length, kind) + body


def settings(clockwise=0, minimum=0):
    return record(3, struct.pack("<BQ", clockwise, minimum))


def link_record(link):
    return record(1, struct.pack("<4i2H2B", *link))


def node_record(entries):
    return record(2, struct.pack("<%dH" % len(entries), *entries))


class Graph:
    """Links [ax, ay, bx, by, a's node, b's node, top, state] and the nodes' lists, to be changed by hand."""

    def __init__(self, links=()):
        """Links (a, b, top) as they come; nodes in point order, their lists rising."""
        points = sorted({point for a, b, _ in links for point in (a, b)})
        number = {point: node for node, point in enumerate(points)}
        self.links = [[*a, *b, number[a], number[b], top, 0] for a, b, top in links]
        self.nodes = [[] for _ in points]
        for k, (a, b, _) in enumerate(links):
            self.nodes[number[a]].append(k)
            self.nodes[number[b]].append(k)

    def file(self, clockwise=0, minimum=0):
        return b"".join([settings(clockwise, minimum), *map(link_record, self.links), *map(node_record, self.nodes)])

    def offset_of_link(self, k):
        return 15 + 28 * k

    def offset_of_node(self, v):
        return 15 + 28 * len(self.links) + sum(6 + 2 * len(entries) for entries in self.nodes[:v])


def edges(*loops):
    """The graph of closed loops, each walked with its filled side on the left; links sorted by a, then b."""
    links = []
    for loop in loops:
        for p, q in zip(loop, loop[1:] + loop[:1]):
            links.append((p, q, 1) if p < q else (q, p, 0))
    return Graph(sorted(links))


def filled(x0, y0, x1, y1):
    """A box that is filled inside, and `empty` one that is filled outside."""
    return [(x0, y0), (x1, y0), (x1, y1), (x0, y1)]


def empty(x0, y0, x1, y1):
    return filled(x0, y0, x1, y1)[::-1]


def square():
    """E2's graph."""
    return Graph([((0, 0), (4, 0), 1), ((0, 0), (0, 4), 0), ((0, 4), (4, 4), 0), ((4, 0), (4, 4), 1)])


def changed(graph, link, **fields):
    """The graph with fields of one link changed."""
    places = {name: i for i, name in enumerate(["ax", "ay", "bx", "by", "a", "b", "top", "state"])}
    for name, value in fields.items():
        graph.links[link][places[name]] = value
    return graph


# ---- answers


def says(*contours):
    """The whole answer, from (role, owner, points) of each contour."""
    roles = [role for role, _, _ in contours]
    count = sum(len(points) for _, _, points in contours)
    lines = [f"contours {len(roles)} shapes {roles.count('hull')} points {count} dropped {roles.count('dropped')}"]
    for number, (role, owner, points) in enumerate(contours):
        lines.append(f"{number} {role} {owner} {len(points)}")
        lines += [f"{x} {y}" for x, y in points]
    return "\n".join(lines) + "\n"


def refused(number, place):
    return f"refused {number} at {place}\n"


NOTHING = says()


def hull(owner, box, clockwise=0):
    """A box's contour: it begins with the first link, up from the box's least point. A hull's begins at b, but at a for clockwise output."""
    x0, y0, x1, y1 = box
    points = [(x0, y0), (x0, y1), (x1, y1), (x1, y0)] if clockwise else [(x0, y1), (x0, y0), (x1, y0), (x1, y1)]
    return ("hull", owner, points)


def hole(owner, box, clockwise=0):
    """A hole's contour is the hull's for the other direction."""
    return ("hole", owner, hull(owner, box, 1 - clockwise)[2])


def dropped(box, clockwise=0):
    return ("dropped", 65535, hole(0, box, clockwise)[2])


# ---- the cases

DOCUMENT, HAND, READING = "document 01", "by hand", "the reading"
stored = []


def case(name, what, data, expected=None, source=None):
    if isinstance(data, Graph):
        data = data.file()
    stored.append((name, what, data, expected, source or (READING if expected is None else HAND)))


def examples():
    triangle = Graph([((0, 0), (0, 1), 0), ((0, 0), (1, 0), 1), ((0, 1), (1, 0), 0)])
    spokes = zip([(10, -20), (10, -10), (2, -1), (2, 0), (2, 1), (2, 2)], [1, 0, 1, 0, 1, 0])
    chords = [((2, -1), (2, 0), 1), ((2, 1), (2, 2), 1), ((10, -20), (10, -10), 1)]
    fan = Graph([((0, 0), b, top) for b, top in spokes] + chords)
    kept = says(hull(0, (0, 0, 4, 4)))
    corner = says(("hull", 0, [(0, 1), (0, 0), (1, 0)]))
    wedge = says(("hull", 0, [(10, -10), (0, 0), (10, -20)]))
    case("e1", "no links, no nodes", settings(), NOTHING, DOCUMENT + ", E1")
    case("e2", "the square", square(), kept, DOCUMENT + ", E2")
    case("e3", "E2 clockwise", square().file(clockwise=1), says(hull(0, (0, 0, 4, 4), 1)), DOCUMENT + ", E3")
    case("e4", "E2 with minimum 16: kept", square().file(minimum=16), kept, DOCUMENT + ", E4")
    case("e5", "E2 with minimum 17: rejected", square().file(minimum=17), NOTHING, DOCUMENT + ", E5")
    case("e6-kept", "a triangle of doubled area 1, minimum 0", triangle, corner, DOCUMENT + ", E6; the points by hand")
    case("e6-rejected", "the same, minimum 1", triangle.file(minimum=1), NOTHING, DOCUMENT + ", E6")
    case("e7", "E2 with link 0 skipped", changed(square(), 0, state=1), refused(8, 1), DOCUMENT + ", E7")
    case("e8", "D1: after two rejected walks the scan stays at its link", fan.file(minimum=2), wedge, DOCUMENT + ", E8")

    first, second = (0, 0, 10, 10), (20, 0, 30, 20)
    inner, through, orphan = (22, 2, 28, 8), (23, 10, 27, 14), (40, 2, 46, 8)
    hulls = [filled(*first), filled(*second)]
    e9 = says(hull(0, first), hull(1, second), hole(1, inner), hole(1, through))
    alone = says(hull(0, first), hole(0, inner), hole(0, orphan))
    case("e9", "a graph with E9's contours", edges(*hulls, empty(*inner), empty(*through)), e9, DOCUMENT + ", E9")
    case("e10", "a graph with E10's contours: a hole over no edge", edges(*hulls, empty(*inner), empty(*orphan)), refused(12, 3), DOCUMENT + ", E10")
    case("e10-one-hull", "the same with the first hull alone", edges(hulls[0], empty(*inner), empty(*orphan)), alone, DOCUMENT + ", E10")


def both_ways(name, what, graph, expected=None):
    """A case for each direction; `expected` says what is printed for one."""
    for suffix, clockwise in [("", 0), ("-clockwise", 1)]:
        case(name + suffix, what, graph.file(clockwise), expected and expected(clockwise))


def contours():
    outer, inner, island, pond = (0, 0, 20, 20), (2, 2, 18, 18), (4, 4, 16, 16), (6, 6, 14, 14)
    rings = [filled(*outer), empty(*inner), filled(*island), empty(*pond)]
    answers = lambda cw: [hull(0, outer, cw), hole(0, inner, cw), hull(1, island, cw), hole(1, pond, cw)]
    both_ways("hole", "a hole in a hull", edges(*rings[:2]), lambda cw: says(*answers(cw)[:2]))
    both_ways("island", "an island in a hole", edges(*rings[:3]), lambda cw: says(*answers(cw)[:3]))
    both_ways("nested", "a hole in an island in a hole", edges(*rings), lambda cw: says(*answers(cw)))
    both_ways("dropped", "a hole and no hull", edges(empty(*outer)), lambda cw: says(dropped(outer, cw)))

    # Touching points: filled squares that touch in a corner are hulls apart, both ways.
    squares = [(4 * i, 4 * j, 4 * i + 4, 4 * j + 4) for i in range(4) for j in range(4) if (i + j) % 2 == 0]
    board = edges(*[filled(*box) for box in squares])
    both_ways("board", "eight squares of a checkerboard, which touch in corners", board, lambda cw: says(*[hull(i, box, cw) for i, box in enumerate(squares)]))
    other = filled(30, 0, 40, 10)
    corners = edges(filled(*outer), other, empty(2, 2, 8, 8), empty(8, 8, 14, 14))
    both_ways("holes-touch", "two holes that touch in a corner, and two hulls", corners)
    wall = edges([(0, 0), (20, 0), (20, 20), (0, 20), (0, 10)], [(0, 10), (5, 15), (10, 10), (5, 5)])
    both_ways("hole-at-wall", "an empty part that touches the hull's side: the hull passes that point twice", wall)
    near = edges(filled(*outer), other, [(10, 10), (14, 14), (18, 10), (14, 6)])
    both_ways("hole-searched", "a hole that is no box, and two hulls", near)
    far_ends = [((9, -3), (9, -1)), ((8, 2), (7, 4)), ((-1, 9), (-4, 8)), ((-9, -1), (-8, -3))]
    both_ways("star", "four triangles at one node of degree 8", edges(*[[(0, 0), p, q] for p, q in far_ends]))

    bounds = (-MAX_COORDINATE, -MAX_COORDINATE, MAX_COORDINATE, MAX_COORDINATE)
    within = (1 - MAX_COORDINATE, 1 - MAX_COORDINATE, MAX_COORDINATE - 1, MAX_COORDINATE - 1)
    rim = edges(filled(*bounds), empty(*within))
    both_ways("bounds", "coordinates at both bounds, and a hole one unit inside", rim, lambda cw: says(hull(0, bounds, cw), hole(0, within, cw)))

    boxes = [(0, 0, 10, 10), (20, 0, 40, 40), (22, 2, 30, 10), (24, 4, 28, 8), (24, 12, 26, 14), (28, 20, 36, 30)]
    shapes = [box(*corners) for box, corners in zip([filled, filled, empty, filled, empty, empty], boxes)]
    owned = [hull(0, boxes[0]), hull(1, boxes[1]), hole(1, boxes[2]), hull(2, boxes[3]), hole(1, boxes[4]), hole(1, boxes[5])]
    case("owners", "three hulls; holes over a hull's edge and over holes", edges(*shapes), says(*owned))


def hole_from(owner, points, clockwise=0):
    """A hole that begins at its least point. For clockwise output it is walked the other way, and that point comes second."""
    return ("hole", owner, points[1::-1] + points[:1:-1] if clockwise else points)


def anchors():
    """A hole passes its least point once more for each island that touches it. The lowest edge there is before the second visit; for clockwise
    output, after the last one."""
    outer, left, right = (0, 0, 20, 20), (-20, 0, -10, 10), (30, 0, 40, 10)
    outline = [(4, 10), (10, 16), (16, 10), (10, 4)]

    def touched(name, what, beside, islands, others=()):
        """`others`: holes at the same point, in the order in which the scan finds them after the one touched."""
        shape = 1 if beside < outer else 0
        graph = edges(filled(*outer), filled(*beside), outline, *islands, *others)
        holes = [sum([outline, *islands], []), *others]

        def answer(cw):
            owned = [hull(shape, outer, cw), *(hole_from(shape, points, cw) for points in holes)]
            other = [hull(1 - shape, beside, cw)]
            return says(*(other + owned if shape else owned + other))

        both_ways(name, what, graph, answer)

    touched("d2", "an island touches a hole's least point, and two hulls", right, [[(4, 10), (8, 9), (8, 11)]])
    two = [[(4, 10), (8, 8), (8, 9)], [(4, 10), (8, 11), (8, 12)]]
    touched("anchor-thrice", "two islands touch a hole's least point, which it passes three times, and two hulls", left, two)
    three = [[(4, 10), (8, 7), (8, 8)], [(4, 10), (8, 9), (8, 11)], [(4, 10), (8, 12), (8, 13)]]
    touched("anchor-four-times", "three islands touch a hole's least point, which it passes four times, and two hulls", left, three)
    inside, below = [(4, 10), (10, 11), (10, 9)], [(4, 10), (8, 4), (6, 4)]
    stacked = "holes at one point, below a hole and in an island that touches that: each is bound through the one below it"
    touched("anchor-order", stacked, left, [[(4, 10), (12, 7), (12, 13)]], [inside, below])


def forms_of_a_graph():
    kept = says(hull(0, (0, 0, 4, 4)))
    straight = [(0, 0), (2, 0), (4, 0), (4, 4), (2, 4), (0, 4), (0, 2)]
    case("straight", "points on a straight line are kept", edges(straight), says(("hull", 0, straight[-1:] + straight[:-1])))
    digits = edges(filled(0, 0, 4, 4), [(10, 9), (0, -1), (-MAX_COORDINATE, MAX_COORDINATE)])
    case("digits", "coordinates of one digit and of six, below 0 and above it, of a hull and a hole", digits)
    case("digits-dropped", "coordinates of one digit, of three and of five, of a dropped hole", edges([(7, 7), (100, 65535), (8, 9)]))
    falling = Graph([((0, 0), (4, 4), 0), ((0, 0), (4, 0), 1), ((4, 0), (4, 4), 1)])
    case("equal-a", "links with equal a, the higher b first", falling, says(("hull", 0, [(4, 4), (0, 0), (4, 0)])))
    case("skipped", "a skipped diagonal makes two crosses and no more", changed(diagonal(), 2, state=1), kept)
    idle = square()
    for link in idle.links:
        link[7] = 1
    case("all-skipped", "every link is skipped", idle, NOTHING)
    turned = square()
    turned.nodes = [entries[::-1] for entries in turned.nodes]
    case("falling-lists", "node lists in falling order", turned, kept)
    renamed = square()
    renamed.nodes.reverse()
    for link in renamed.links:
        link[4], link[5] = 3 - link[4], 3 - link[5]
    case("other-node-numbers", "nodes numbered from the right", renamed, kept)


def diagonal():
    """The square with a link across it."""
    return Graph([((0, 0), (0, 4), 0), ((0, 0), (4, 0), 1), ((0, 0), (4, 4), 0), ((0, 4), (4, 4), 0), ((4, 0), (4, 4), 1)])


def minima():
    outer, inner = (0, 0, 10, 10), (2, 2, 8, 8)
    one = edges(filled(*outer), empty(*inner))
    both = says(hull(0, outer), hole(0, inner))
    for minimum, expected in [(36, both), (37, says(hull(0, outer))), (100, says(hull(0, outer))), (101, NOTHING), (MAX_MINIMUM, NOTHING)]:
        case(f"minimum-{minimum}", "areas 100 (hull) and 36 (hole)", one.file(minimum=minimum), expected)
    case("minimum-doubled", "the hull's minimum read against its doubled area would keep it", one.file(minimum=150), NOTHING)
    case("minimum-clockwise", "signed areas are the opposite, sizes the same", one.file(1, 37), says(hull(0, outer, 1)))
    odd = edges([(0, 0), (3, 0), (0, 11)])
    case("minimum-high", "clockwise, and a minimum that its highest byte alone makes", square().file(1, 2**63), NOTHING)
    case("minimum-odd-kept", "doubled area 33, minimum 16", odd.file(minimum=16), says(("hull", 0, [(0, 11), (0, 0), (3, 0)])))
    case("minimum-odd-rejected", "doubled area 33, minimum 17: the half is rounded down", odd.file(minimum=17), NOTHING)
    thick = edges(empty(0, 0, 10, 10), filled(2, 2, 4, 4))
    case("minimum-drops", "the only hull is rejected, so the hole is dropped", thick.file(minimum=5), says(dropped((0, 0, 10, 10))))


def link_faults():
    past = MAX_COORDINATE + 1
    for name, fields in {"ax": {"ax": -past}, "ay": {"ay": -past}, "bx": {"bx": past}, "by": {"by": past}}.items():
        k = {"ax": 0, "ay": 0, "bx": 3, "by": 3}[name]
        case(f"3-{name}", "a coordinate one past its bound", changed(square(), k, **fields), refused(3, k))
    case("3-far", "the least coordinate of 32 bits", changed(square(), 2, ay=-(2**31)), refused(3, 2))
    case("3-a-is-b", "a equals b", changed(square(), 1, bx=0, by=0), refused(3, 1))
    case("3-a-after-b", "a after b, by y alone", changed(square(), 3, ay=4, by=0), refused(3, 3))
    case("3-a-id", "a's node id not below m", changed(square(), 2, a=4), refused(3, 2))
    case("3-b-id", "b's node id not below m", changed(square(), 2, b=65535), refused(3, 2))
    case("3-equal-ids", "both ids equal", changed(square(), 1, b=0), refused(3, 1))
    case("3-top", "top 2", changed(square(), 3, top=2), refused(3, 3))
    case("3-state", "state 2, a mark that only extraction makes", changed(square(), 0, state=2), refused(3, 0))
    case("3-lowest", "faults of several sorts: the lowest link", changed(changed(square(), 1, top=255), 2, ax=past), refused(3, 1))
    case("3-before-4", "a late fault of 3 before an early one of 4", changed(changed(square(), 3, state=9), 2, ax=-1), refused(3, 3))
    case("4", "a link's a is before the previous link's", swapped(square(), 1, 2), refused(4, 2))
    case("4-by-y", "the same by y alone", Graph([((0, 1), (4, 0), 0), ((0, 0), (4, 0), 1), ((0, 0), (0, 1), 0)]), refused(4, 1))


def swapped(graph, j, k):
    graph.links[j], graph.links[k] = graph.links[k], graph.links[j]
    graph.nodes = [[{j: k, k: j}.get(entry, entry) for entry in entries] for entries in graph.nodes]
    return graph


def node_faults():
    def with_nodes(*nodes):
        graph = square()
        graph.nodes = [list(entries) for entries in nodes]
        return graph

    case("5-one-entry", "a node with one entry", with_nodes([0, 1], [1, 2], [0, 3], [2]), refused(5, 0))
    case("5-no-entry", "a node with none", with_nodes([0, 1], [1, 2], [0, 3], [2, 3], []), refused(5, 0))
    case("5-missing", "a link missing at one node, twice at another", with_nodes([0, 1], [1, 2], [0, 3], [3, 3]), refused(5, 0))
    case("5-twice", "a link twice at its node", with_nodes([0, 1], [1, 2], [0, 3], [2, 3, 2]), refused(5, 0))
    case("5-elsewhere", "a link at a node that is not its own", with_nodes([0, 1], [1, 2], [0, 3], [2, 3, 0]), refused(5, 0))
    case("5-no-link", "an entry that is no link", with_nodes([0, 1], [1, 2], [0, 3], [2, 3, 4]), refused(5, 0))
    case("5-swapped", "two nodes' lists swapped", with_nodes([1, 2], [0, 1], [0, 3], [2, 3]), refused(5, 0))
    case("5-nodes-alone", "a node, and no link", settings() + node_record([]), refused(5, 0))
    case("5-entries-alone", "a node with two entries, and no link", settings() + node_record([0, 1]), refused(5, 0))
    case("3-no-nodes", "links, and no node: their ids are not below 0", settings() + b"".join(map(link_record, square().links)), refused(3, 0))
    case("6", "two ends at node 1 have different points", changed(square(), 2, ay=3), refused(6, 1))
    case("6-b-end", "two ends at node 3 have different points", changed(square(), 3, by=5), refused(6, 3))
    case("6-lowest", "nodes 1 and 2 are wrong: the lowest", changed(changed(square(), 2, ay=3), 3, ay=1), refused(6, 1))
    case("6-skipped", "skipped links count", changed(square(), 2, ay=3, state=1), refused(6, 1))
    same = Graph([((0, 0), (2, 2), 0), ((0, 0), (4, 4), 1), ((2, 2), (4, 4), 0)])
    case("7", "two links from node 0 run in one direction", same, refused(7, 0))
    ahead = Graph([((0, 0), (2, 2), 0), ((0, 0), (4, 0), 1), ((2, 2), (4, 4), 1), ((2, 2), (8, 8), 0), ((4, 0), (4, 4), 1), ((4, 0), (8, 8), 1)])
    case("7-later-node", "the same at node 1, towards b", ahead, refused(7, 1))
    back = Graph([((0, 0), (6, 0), 1), ((0, 0), (6, 6), 0), ((3, 0), (6, 0), 0), ((3, 0), (6, 6), 1)])
    case("7-at-b", "two links reach node 2 from one direction", back, refused(7, 2))
    case("7-one-skipped", "one of the two is skipped: the walk is then refused", changed(same, 1, state=1), refused(8, 0))


def walk_faults():
    for k, name in [(1, "first"), (2, "last"), (3, "next")]:
        case(f"8-{name}", f"the {name} link that the rule names is skipped", changed(square(), k, state=1), refused(8, 0))
    case("8-none", "two links are left over, and no other unvisited link at their first node", diagonal(), refused(8, 1))
    late = edges(filled(0, 0, 4, 4), filled(10, 0, 14, 4))
    case("8-second-walk", "one walk is done and the next refused: nothing is printed of the first", changed(late, 4, state=1), refused(8, 5))
    crossing = [((0, 0), (4, 3), 1), ((0, 0), (5, -1), 0), ((0, 0), (5, 1), 1), ((0, 0), (4, -3), 0), ((4, -3), (5, 1), 0), ((4, 3), (5, -1), 1)]
    case("9", "two triangles that cross: as many links leave as arrive, but not by turns", Graph(crossing), refused(9, 0))


def file_faults():
    good = square()
    data = good.file()
    case("13-empty", "no byte at all", b"", refused(13, 0))
    case("13-head", "a head of five bytes", data[:5], refused(13, 0))
    case("13-settings-cut", "the settings' last byte is missing", data[:14], refused(13, 0))
    case("13-settings-8", "settings of 8 bytes", record(3, bytes(8)), refused(13, 0))
    case("13-settings-10", "settings of 10 bytes", record(3, bytes(10)), refused(13, 0))
    case("13-direction-2", "direction 2", settings(2), refused(13, 0))
    case("13-direction-2-whole", "direction 2, and a whole file after it", data[:6] + b"\2" + data[7:], refused(13, 0))
    case("13-direction-255", "direction 255", settings(255), refused(13, 0))
    case("13-links-first", "a link before the settings", data[15:43] + data[:15], refused(13, 0))
    case("13-nodes-first", "a node before the settings", node_record([0, 1]) + data, refused(13, 0))
    case("13-settings-twice", "settings twice", settings() + data, refused(13, 15))
    case("13-settings-late", "settings again after the links", data[:127] + settings() + data[127:], refused(13, 127))
    case("13-settings-last", "settings again at the end", data + settings(), refused(13, len(data)))
    case("13-link-after-node", "a link after a node", data + link_record(good.links[3]), refused(13, len(data)))
    case("13-link-between", "a link between the nodes", data[:137] + link_record(good.links[3]) + data[137:], refused(13, 137))
    for kind in [0, 4, 16, 257, 259, 65535]:
        case(f"13-kind-{kind}", "a record of this kind after the second link", data[:71] + record(kind, bytes(22)) + data[71:], refused(13, 71))
    case("13-kind-4-in-place", "the third link's kind is 4", data[:75] + b"\4" + data[76:], refused(13, 71))
    case("13-link-as-node", "the third link's kind is 2: it is a node, and a link follows", data[:75] + b"\2" + data[76:], refused(13, 99))
    case("13-link-21", "a link of 21 bytes", data[:43] + record(1, data[49:70]) + data[71:], refused(13, 43))
    case("13-link-23", "a link of 23 bytes", data[:43] + record(1, data[49:71] + b"\0") + data[71:], refused(13, 43))
    case("13-link-23-in-place", "a link whose length alone says 23", data[:15] + b"\x17" + data[16:], refused(13, 15))
    case("13-link-long", "a link's length with its highest byte set", data[:43] + record(1, data[49:71], 22 + 2**24) + data[71:], refused(13, 43))
    case("13-node-odd", "a node of three bytes", data[:127] + record(2, bytes(3)) + data[137:], refused(13, 127))
    case("13-node-huge-odd", "a node whose length is the greatest number", data[:127] + record(2, b"", 2**32 - 1), refused(13, 127))
    case("13-link-cut", "the file ends in the fourth link", data[:120], refused(13, 99))
    case("13-link-head-cut", "the file ends in the fourth link's head", data[:104], refused(13, 99))
    case("13-node-cut", "the last node's last byte is missing", data[:-1], refused(13, 157))
    case("13-node-head-cut", "the file ends in the last node's head", data[:160], refused(13, 157))
    case("13-byte-after", "one byte after the last record", data + b"\0", refused(13, len(data)))
    case("13-before-3", "a wrong link, and a cut at the end of the file", changed(square(), 0, top=7).file()[:-1], refused(13, 157))
    case("13-first-fault", "an odd node, then a cut one: the first", data[:127] + record(2, bytes(3)) + data[137:-1], refused(13, 127))
    case("5-node-huge", "a node whose length passes 8,192 entries, cut", data[:127] + record(2, b"", 2**32 - 2), refused(5, 0))


for part in [examples, contours, anchors, forms_of_a_graph, minima, link_faults, node_faults, walk_faults, file_faults]:
    part()

# ---- the cases that are not stored


def strip(links):
    """One hull with so many links and nodes, most on two lines; and its points."""
    lower = [(x, 0) for x in range((links + 1) // 2)]
    upper = [(x, 1) for x in range(links // 2)]
    return edges(lower + upper[::-1]), [(0, 1), *lower, *upper[:0:-1]]


def large():
    """Yields (name, data, expected); all expected outputs are by hand, from how the input is made."""
    for links in [4095, 4096]:
        graph, points = strip(links)
        yield f"limit-{links}-links", graph.file(), says(("hull", 0, points))
    over = strip(4097)[0]
    at = over.offset_of_link(4096)
    data = over.file()
    yield "limit-4097-links", data, refused(1, 0)
    yield "limit-4097-links-end", data[: at + 28], refused(1, 0)
    yield "limit-4097-links-cut", data[: at + 20], refused(1, 0)
    yield "limit-4097-links-head", data[: at + 6], refused(1, 0)
    yield "limit-4097-links-head-cut", data[: at + 5], refused(13, at)
    yield "limit-4097-links-length", data[:at] + record(1, bytes(21)), refused(13, at)
    yield "limit-4097-links-then-anything", data[: at + 28] + b"anything", refused(1, 0)
    yield "limit-4096-links-then-kind-3", data[:at] + settings(), refused(13, at)

    # Node id 4,096 of link 0 is below m only with 4,097 nodes, so that 3 shows that the reading went to the end.
    fault = settings() + link_record([0, 0, 1, 0, 4096, 1, 0, 0])
    nodes = fault + node_record([]) * 4096
    yield "limit-4096-nodes", nodes, refused(3, 0)
    yield "limit-4097-nodes", nodes + node_record([]), refused(5, 0)
    yield "limit-4097-nodes-cut", nodes + node_record([0, 0])[:7], refused(5, 0)
    yield "limit-4097-nodes-head-cut", nodes + node_record([])[:5], refused(13, len(nodes))
    yield "limit-4097-nodes-odd", nodes + record(2, bytes(1)), refused(13, len(nodes))
    yield "limit-4097-nodes-then-anything", nodes + node_record([]) + b"anything", refused(5, 0)
    yield "limit-8192-entries", fault + node_record([0] * 8192), refused(3, 0)
    yield "limit-8193-entries", fault + node_record([0] * 8193), refused(5, 0)
    yield "limit-8192-entries-in-two", fault + node_record([0] * 8190) + node_record([0, 0]), refused(3, 0)
    yield "limit-8193-entries-in-two", fault + node_record([0] * 8190) + node_record([0, 0, 0]), refused(5, 0)
    yield "limit-8193-entries-cut", fault + node_record([0] * 8190) + node_record([0, 0, 0])[:8], refused(5, 0)
    yield "limit-8192-entries-cut", fault + node_record([0] * 8190) + node_record([0, 0])[:9], refused(13, len(fault) + 6 + 2 * 8190)

    triangles = [[(10 * i, 0), (10 * i + 4, 0), (10 * i, 4)] for i in range(1365)]
    yield "limit-1365-triangles", edges(*triangles).file(), says(*[("hull", i, [c, a, b]) for i, (a, b, c) in enumerate(triangles)])
    boxes = [(10 * i, 0, 10 * i + 4, 4) for i in range(1024)]
    yield "limit-1024-squares-clockwise", edges(*[filled(*box) for box in boxes]).file(1), says(*[hull(i, box, 1) for i, box in enumerate(boxes)])
    whole = (-5, -5, 20000, 20)
    yield "limit-1023-holes", edges(filled(*whole), *[empty(*box) for box in boxes[1:]]).file(), says(hull(0, whole), *[hole(0, box) for box in boxes[1:]])
    first, second = (-5, -5, 5108, 20), (5109, -5, 20000, 20)
    searched = [hole(0 if box[0] < 5108 else 1, box) for box in boxes[:1022]]
    parts = [hull(0, first), *searched[:511], hull(1, second), *searched[511:]]
    yield "limit-1022-holes-searched", edges(filled(*first), filled(*second), *[empty(*box) for box in boxes[:1022]]).file(), says(*parts)
    # The most contours that a table can have, all but two of them holes, so that the arrays of the search are used to their ends.
    left, right = [(-5, -5), (6815, -5), (-5, 400000)], [(6816, -5), (30000, -5), (6816, 400000)]
    holes = triangles[:681] + [[(x + 10, y) for x, y in triangle] for triangle in triangles[681:1363]]
    found = [("hole", 0 if i < 681 else 1, [a, c, b]) for i, (a, b, c) in enumerate(holes)]
    outer = [("hull", owner, [c, a, b]) for owner, (a, b, c) in enumerate([left, right])]
    yield "limit-1363-holes-searched", edges(left, right, *[loop[::-1] for loop in holes]).file(), says(outer[0], *found[:681], outer[1], *found[681:])
    # The first link of every walk is the topmost that is left, so the triangles come from the top; the scan stays at link 0 up to the last walk.
    spokes = [[(0, 0), (5000, 2 * i), (5000, 2 * i + 1)] for i in range(-682, 683)]
    yield "limit-star", edges(*spokes).file(), says(*[("hull", i, [c, a, b]) for i, (a, b, c) in enumerate(spokes[::-1])])

    # Every cut of E2's file: in a record it is 13 there; at a record's end there are too few nodes for the links' ids.
    graph = square()
    data = graph.file()
    starts = [0] + [graph.offset_of_link(k) for k in range(4)] + [graph.offset_of_node(v) for v in range(4)]
    for cut in range(len(data)):
        if cut == 15:
            expected = NOTHING
        elif cut == 0 or cut not in starts:
            expected = refused(13, max(start for start in starts if start <= cut))
        else:
            expected = refused(3, 2 if cut == starts[-1] else 0)
        yield f"cut-{cut:03}", data[:cut], expected


# ---- writing and comparing


@functools.cache
def reading_program():
    """Builds the reading and says where it stands."""
    cargo = functools.partial(subprocess.run, cwd=HERE.parent / "rust", check=True, stdout=subprocess.PIPE)
    cargo(["cargo", "build", "--quiet", "--offline", "-p", "reading"])
    about = cargo(["cargo", "metadata", "--offline", "--no-deps", "--format-version", "1"]).stdout
    return pathlib.Path(json.loads(about)["target_directory"]) / "debug" / "reading"


def reading(data):
    return subprocess.run([reading_program()], input=data, stdout=subprocess.PIPE, check=True).stdout.decode()


def files():
    """What tests/cases holds, by name. The reading gives the outputs that are its own."""
    made = {}
    rows = []
    for name, what, data, expected, source in stored:
        assert f"{name}.graph" not in made, name
        made[f"{name}.graph"] = data
        made[f"{name}.out"] = (reading(data) if expected is None else expected).encode()
        rows.append(f"| {name} | {what} | {source} |")
    made["README.md"] = "\n".join([TABLE, *rows, ""]).encode()
    return made


TABLE = """# The program's cases

`tests/run-cases` runs the program on each NAME.graph and compares what it prints with NAME.out. `tests/make-cases.py`
writes this folder: the inputs are described there, and so are the outputs that come from document 01 or from hand. *The
reading* is the independent reading of document 01 in Rust, `rust/reading`; it also confirms every other output. No
output comes from the program.

Numbers that the program cannot give: 2, since it lends lists of right length and room for the largest file; 10 and 11,
since what extraction writes passes them (docs/THEOREMS.md). 1 comes from the file alone: a 4,097th link ends the
reading.

Not stored, but made at test time (`make-cases.py --large`): files at the limits of 4,096 links, 4,096 nodes and 8,192
entries and one past them, whole, cut and with more after them; 1,365 triangles, 1,024 squares, 1,023 holes, 1,022 and
1,363 holes that are searched, a star of 2,730 links at one node; and every cut of E2's file. Their outputs are by hand.

| case | what it shows | expected output from |
|---|---|---|"""


def check():
    faults = []
    made = files()
    there = {path.name for path in CASES.iterdir()}
    faults += [f"{name} is not in tests/cases" for name in sorted(set(made) - there)]
    faults += [f"{name} in tests/cases is nobody's" for name in sorted(there - set(made))]
    faults += [f"{name} is not what make-cases.py writes" for name in sorted(there & set(made)) if (CASES / name).read_bytes() != made[name]]
    for name, data, expected in [*((name, data, made[f"{name}.out"].decode()) for name, _, data, _, _ in stored), *large()]:
        if reading(data) != expected:
            faults.append(f"{name}: the reading says otherwise:\n{reading(data)[:300]}")
    print("\n".join(faults) if faults else f"{len(stored)} stored cases stand as described, and the reading agrees with them and with those that are not stored")
    return 1 if faults else 0


def write(folder, made):
    folder.mkdir(parents=True, exist_ok=True)
    for name, data in made.items():
        (folder / name).write_bytes(data)


def main(words):
    if words == ["--check"]:
        return check()
    if len(words) == 2 and words[0] == "--large":
        for name, data, expected in large():
            write(pathlib.Path(words[1]), {f"{name}.graph": data, f"{name}.out": expected.encode()})
        return 0
    if words:
        print(__doc__, file=sys.stderr)
        return 2
    made = files()
    if CASES.is_dir():
        for path in CASES.iterdir():
            if path.name not in made:
                path.unlink()
    write(CASES, made)
    return 0


if __name__ == "__main__":
    sys.exit(main(sys.argv[1:]))
