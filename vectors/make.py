#!/usr/bin/env python3
"""Writes the example sheet and the record vectors, with the output expected.

Run from the repository root:

    python3 vectors/make.py

It rewrites, the same bytes each time,

    crates/sheet_records/data/    an example sheet and a file of points
    crates/sheet_records/args     the words of one run on it, one per line
    crates/sheet_records/stdout   what that run prints
    crates/record_vectors/data/   small files, whole and damaged, and `cases`
    crates/record_vectors/stdout  what the cases print

There are two halves that share no code. The first writes files from the
description of the format (docs/FORMAT.md). The second is a plain reader, with
Python's unbounded integers, that works out what `sheet_records` prints.
"""

import math
import os
import struct

# ---------------------------------------------------------------------------
# Writing: numbers and headers
# ---------------------------------------------------------------------------

NAN = struct.pack("<Q", 0x7FF8000000000000)
NEG_NAN = struct.pack("<Q", 0xFFF8000000000001)
SIGNALLING_NAN = struct.pack("<Q", 0x7FF0000000000001)
INF = float("inf")
TINY = 5e-324  # the smallest denormal

VERIFIED = 1  # flag of a file whose links are known to be right

M32 = 2**32
M64 = 2**64


def width(version):
    """Bytes of a number in a file of this version."""
    return 8 if version.endswith("2.0") else 4


def num(size, value):
    return value.to_bytes(size, "little")


def dbl(value):
    """A double; a NaN is given as its eight bytes, so that its bits are known."""
    return value if isinstance(value, bytes) else struct.pack("<d", value)


def dbls(values):
    return b"".join(dbl(v) for v in values)


def header(kind, version, count, box=(0.0, 0.0, 0.0, 0.0), flags=0, reserved=0):
    w = width(version)
    out = kind.encode() + version.encode() + bytes([flags]) + dbls(box)
    return out + num(w, count) + num(w, reserved)


def laid_out(place, lists):
    """Offsets of the lists, and their bytes from `place` to the last one's end.

    Each begins at the next multiple of 8; an empty one takes no place.
    """
    offsets, out = [], b""
    for entries in lists:
        if entries:
            out += bytes(-(place + len(out)) % 8)
        offsets.append(place + len(out) if entries else 0)
        out += entries
    return offsets, out


# Records alone, for files whose numbers are chosen one by one.


def arc_record(w, count, offset, box=(0.0, 1.0, 0.0, 1.0), nodes=(0, 1), length=1.0):
    out = dbls(box) + num(w, count) + num(w, offset)
    return out + num(w, nodes[0]) + num(w, nodes[1]) + dbl(length)


def nod_record(w, count, offset, kind=0):
    return num(2, count) + bytes([kind, 0]) + num(w, offset)


def pol_record(
    w, count, offset, box=(0.0, 1.0, 0.0, 1.0), outer=0, rings=1, perimeter=4.0, area=1.0
):
    out = dbls(box) + num(w, count) + num(w, outer) + num(w, rings) + num(w, offset)
    return out + dbl(perimeter) + dbl(area)


# ---------------------------------------------------------------------------
# Writing: whole files
# ---------------------------------------------------------------------------


def box_of(places):
    xs = [x for x, _ in places]
    ys = [y for _, y in places]
    return (min(xs), max(xs), min(ys), max(ys))


def length_of(vertices):
    total = 0.0
    for (ax, ay), (bx, by) in zip(vertices, vertices[1:]):
        total += math.sqrt((bx - ax) * (bx - ax) + (by - ay) * (by - ay))
    return total


def clockwise_area(vertices):
    """Area of a closed ring: positive when it is walked clockwise."""
    x0, y0 = vertices[0]
    total = 0.0
    for (ax, ay), (bx, by) in zip(vertices, vertices[1:]):
        total += (bx - x0) * (ay - y0) - (ax - x0) * (by - y0)
    return total / 2.0


class Sheet:
    """Zones, their borders and the nodes where the borders meet.

    nodes   a place for each node
    arcs    (first node, last node, places between them)
    sides   (left polygon, right polygon) for each arc
    rings   for each polygon a list of rings, (outer?, arcs in order of walk);
            polygon 0 is all that lies outside. Every ring is walked with its
            polygon on the right hand, so an arc that has the polygon on its
            left is walked backward. A ring begins with its lowest arc.
    """

    def __init__(self, nodes, arcs, sides, rings):
        self.nodes, self.sides, self.rings = nodes, sides, rings
        self.ends = [(first, last) for first, last, _ in arcs]
        self.arcs = [[nodes[f]] + between + [nodes[l]] for f, l, between in arcs]
        self.box = box_of([v for vertices in self.arcs for v in vertices])
        self.check()

    def walk(self, polygon, ring):
        """The places of a ring, and for each of its arcs (number, turned?)."""
        places, steps = [], []
        for arc in ring:
            left, right = self.sides[arc]
            assert (left == polygon) != (right == polygon)
            turned = left == polygon
            run = self.arcs[arc][::-1] if turned else self.arcs[arc]
            assert not places or places[-1] == run[0], "ring is broken"
            places += run[1:] if places else run
            steps.append((arc, turned))
        assert places[0] == places[-1], "ring is not closed"
        return places, steps

    def check(self):
        seen = []
        for polygon, rings in enumerate(self.rings):
            for outer, ring in rings:
                places, steps = self.walk(polygon, ring)
                assert (clockwise_area(places) > 0) == outer
                assert ring[0] == min(ring)
                seen += steps
        both = [(a, b) for a in range(len(self.arcs)) for b in (False, True)]
        assert sorted(seen) == both, "each side of each arc bounds one polygon"


def pnt_file(version, points, flags=0, reserved=0):
    finite = [p for p in points if not any(isinstance(v, bytes) for v in p)]
    head = header("PNT", version, len(points), box_of(finite), flags, reserved)
    return head + b"".join(dbls(p) for p in points)


def arc_file(version, sheet, tail=b""):
    w = width(version)
    head = header("ARC", version, len(sheet.arcs), sheet.box, VERIFIED)
    lists = [b"".join(dbls(v) for v in vertices) for vertices in sheet.arcs]
    offsets, list_bytes = laid_out(len(head) + len(lists) * (40 + 4 * w), lists)
    records = b""
    for vertices, ends, offset in zip(sheet.arcs, sheet.ends, offsets):
        box, length = box_of(vertices), length_of(vertices)
        records += arc_record(w, len(vertices), offset, box, ends, length)
    return head + records + list_bytes + tail


def nod_file(version, sheet):
    w = width(version)
    head = header("NOD", version, len(sheet.nodes), sheet.box, VERIFIED)
    at = [
        [a for a, ends in enumerate(sheet.ends) if node in ends]
        for node in range(len(sheet.nodes))
    ]
    lists = [b"".join(num(w, a) for a in arcs) for arcs in at]
    offsets, list_bytes = laid_out(len(head) + len(lists) * (4 + w), lists)
    records = b""
    for node, (arcs, offset) in enumerate(zip(at, offsets)):
        ends = sum(sheet.ends[a].count(node) for a in arcs)
        if ends == 1:
            kind = 3  # end
        elif ends == 2:
            kind = 2 if len(arcs) == 1 else 1  # ring, line
        else:
            kind = 0  # typical
        records += nod_record(w, len(arcs), offset, kind)
    return head + records + list_bytes


def pol_file(version, sheet):
    w = width(version)
    head = header("POL", version, len(sheet.rings), sheet.box, VERIFIED)
    sides = b"".join(num(w, left) + num(w, right) for left, right in sheet.sides)
    lists, measures = [], []
    for polygon, rings in enumerate(sheet.rings):
        entries, outer_arcs, perimeter, area, all_places = [], 0, 0.0, 0.0, []
        for outer, ring in rings:
            places, steps = sheet.walk(polygon, ring)
            all_places += places
            perimeter += length_of(places)
            area += clockwise_area(places)
            for i, (arc, turned) in enumerate(steps):
                last = i + 1 == len(steps)
                outer_arcs += 1 if outer else 0
                vfg = (1 if outer else 0) | (2 if last else 0) | (4 if turned else 0)
                entries.append(bytes([vfg]) + num(w, arc))
        lists.append(b"".join(entries))
        measures.append((len(entries), box_of(all_places), outer_arcs, len(rings), perimeter, area))
    first_list = len(head) + len(sides) + len(lists) * (48 + 4 * w)
    offsets, list_bytes = laid_out(first_list, lists)
    records = b""
    for (count, *rest), offset in zip(measures, offsets):
        records += pol_record(w, count, offset, *rest)
    return head + sides + records + list_bytes


# ---------------------------------------------------------------------------
# The example: a zoning sheet, edition 1.1
# ---------------------------------------------------------------------------
#
#            2
#        .---o----------.        four zones inside one boundary: 1 south-west,
#       /    |   3      |        2 south-east, 3 north-east, 4 north-west; and
#      |  4  |    (5)   |        zone 5, an island in zone 3. Nodes 0 to 3 are
#      |     o 5--------o 1      on the boundary, 4 and 5 are inside it, and
#      3 o--o 4      2  |        node 6 is where the island's border closes.
#      |  1  |          |
#       `----o---------'
#            0


def moved(x, y):
    """Metres from the sheet's corner, put where the sheet lies."""
    return (430000.0 + x, 4580000.0 + y)


def zoning():
    nodes = [
        moved(400.0, -8.0),
        moved(960.0, 360.0),
        moved(480.0, 700.0),
        moved(10.0, 340.0),
        moved(440.0, 310.0),
        moved(520.0, 370.0),
        moved(640.0, 480.0),
    ]
    arcs = [
        (0, 1, [moved(700.0, -20.0), moved(905.5, -14.25), moved(930.0, 180.0)]),
        (1, 2, [moved(1000.0, 640.0), moved(760.0, 688.5)]),
        (2, 3, [moved(250.0, 671.0), moved(22.5, 618.0)]),
        (3, 0, [moved(0.0, 0.0), moved(180.0, -4.5)]),
        (0, 4, [moved(412.0, 120.0), moved(436.25, 215.0)]),
        (4, 3, [moved(300.0, 322.0), moved(150.75, 318.0)]),
        (4, 5, []),
        (5, 1, [moved(700.0, 382.0), moved(840.0, 351.0)]),
        (5, 2, [moved(511.0, 500.5), moved(490.0, 610.0)]),
        (
            6,
            6,
            [
                moved(735.0, 455.0),
                moved(790.5, 520.0),
                moved(718.0, 590.0),
                moved(655.0, 560.0),
            ],
        ),
    ]
    sides = [(2, 0), (3, 0), (4, 0), (1, 0), (1, 2), (1, 4), (4, 2), (3, 2), (4, 3), (5, 3)]
    rings = [
        [(False, [0, 1, 2, 3])],
        [(True, [3, 5, 4])],
        [(True, [0, 4, 6, 7])],
        [(True, [1, 7, 8]), (False, [9])],
        [(True, [2, 8, 6, 5])],
        [(True, [9])],
    ]
    return Sheet(nodes, arcs, sides, rings)


def marks():
    places = [
        (35.0, 28.5),
        (402.0, 4.0),
        (615.25, 150.0),
        (705.0, 522.0),
        (880.0, 610.5),
        (120.0, 480.0),
    ]
    return [moved(x, y) for x, y in places]


EXAMPLE_FILES = {
    "sheet.arc": arc_file(" 1.1", zoning()),
    "sheet.nod": nod_file(" 1.1", zoning()),
    "sheet.pol": pol_file(" 1.1", zoning()),
    "marks.pnt": pnt_file(" 1.1", marks()),
}

# The window lies about the island and the middle of the sheet.
EXAMPLE_ARGS = ["A", "sheet.arc", "--window", "430500.5", "430800", "4580350", "4580560.25"]

# ---------------------------------------------------------------------------
# The vectors: files
# ---------------------------------------------------------------------------


def twins():
    """Two squares of side 10 that share the border x = 0: left 1, right 2."""
    nodes = [(0.0, 0.0), (0.0, 10.0)]
    arcs = [
        (0, 1, []),
        (1, 0, [(-10.0, 10.0), (-10.0, 0.0)]),
        (0, 1, [(10.0, 0.0), (10.0, 10.0)]),
    ]
    sides = [(1, 2), (1, 0), (2, 0)]
    rings = [[(False, [1, 2])], [(True, [0, 1])], [(True, [0, 2])]]
    return Sheet(nodes, arcs, sides, rings)


THREE_POINTS = [(1.0, 2.0), (-3.5, 4.25), (1e3, -1e3)]

# Both zeros and the smallest numbers on either side of them.
ZERO_POINTS = [
    (0.0, 0.0),
    (-0.0, TINY),
    (TINY, -0.0),
    (-TINY, 0.0),
    (0.0, -TINY),
    (-0.0, 2 * TINY),
]

NAN_POINTS = [
    (NAN, 5.0),
    (5.0, NEG_NAN),
    (5.0, 5.0),
    (INF, 5.0),
    (5.0, -INF),
    (SIGNALLING_NAN, SIGNALLING_NAN),
]


def one_point(version):
    """A file of one point: for the texts of version."""
    return header("PNT", version, 1) + dbls((1.0, 2.0))


def arc_lists(version):
    """Arcs whose lists lie at and past the end, and numbers that would wrap."""
    w = width(version)
    top = 256**w
    lists = [
        (1, lambda size: size - 16),  # ends exactly at the end
        (1, lambda size: size - 15),  # one byte past it
        (0, lambda size: size),  # empty, at the end
        (0, lambda size: size + 1),  # empty, one past the end
        (1, lambda size: top - 1),  # sum passes the top of w bytes
        (0, lambda size: top - 1),
        (1, lambda size: top - 16),  # sum is exactly 2^32 or 2^64
        (0, lambda size: top - 16),
        (top // 16, lambda size: 0),  # length is exactly 2^32 or 2^64
        (top - 1, lambda size: top - 1),
        (0, lambda size: 0),  # empty, at the file's first byte
        (2, lambda size: 8),  # over the header: only the end is judged
    ]
    head = header("ARC", version, len(lists), (0.0, 1.0, 0.0, 1.0))
    size = len(head) + len(lists) * (40 + 4 * w) + 32
    records = b"".join(arc_record(w, count, at(size)) for count, at in lists)
    out = head + records + dbls((0.0, 0.0, 1.0, 1.0))
    assert len(out) == size
    return out


def nod_lists(version):
    w = width(version)
    top = 256**w
    lists = [
        (300, lambda size: size - 300 * w),  # ends exactly at the end
        (300, lambda size: size - 300 * w + 1),  # one byte past it
        (65535, lambda size: 0),  # the most arcs a node can have
        (65536 // w, lambda size: 0),  # length is exactly 2^16
        (0, lambda size: size),
        (0, lambda size: size + 1),
        (1, lambda size: top - w),  # sum is exactly 2^32 or 2^64
        (1, lambda size: top - 1),
        (0, lambda size: top - 1),
    ]
    head = header("NOD", version, len(lists), (0.0, 1.0, 0.0, 1.0))
    size = len(head) + len(lists) * (4 + w) + 300 * w
    records = b"".join(nod_record(w, count, at(size)) for count, at in lists)
    out = head + records + b"".join(num(w, i) for i in range(300))
    assert len(out) == size
    return out


def pol_lists(version, arcs):
    w = width(version)
    top = 256**w
    wraps = top // (1 + w) + 1  # its length passes the top of w bytes by a little
    assert 0 < (1 + w) * wraps - top < 1 + w
    lists = [
        (2, lambda size: size - 2 * (1 + w)),  # ends exactly at the end
        (2, lambda size: size - 2 * (1 + w) + 1),  # one byte past it
        (0, lambda size: size),
        (0, lambda size: size + 1),
        (wraps, lambda size: 0),
        (1, lambda size: top - (1 + w)),  # sum is exactly 2^32 or 2^64
        (1, lambda size: top - 1),
        (0, lambda size: top - 16),
    ]
    head = header("POL", version, len(lists), (0.0, 1.0, 0.0, 1.0))
    sides = b"".join(num(w, 0) + num(w, 1) for _ in range(arcs))
    size = len(head) + len(sides) + len(lists) * (48 + 4 * w) + 2 * (1 + w)
    records = b"".join(pol_record(w, count, at(size)) for count, at in lists)
    out = head + sides + records + bytes([1]) + num(w, 0) + bytes([3]) + num(w, 1)
    assert len(out) == size
    return out


BOXES = [
    (0.0, 4.0, 0.0, 4.0),  # a box like any other
    (NAN, 4.0, 0.0, 4.0),  # each place of the four not a number
    (0.0, NEG_NAN, 0.0, 4.0),
    (0.0, 4.0, SIGNALLING_NAN, 4.0),
    (0.0, 4.0, 0.0, NAN),
    (-INF, 4.0, 0.0, 4.0),  # each place of the four infinite
    (0.0, INF, 0.0, 4.0),
    (0.0, 4.0, -INF, 4.0),
    (0.0, 4.0, 0.0, INF),
    (4.0, 0.0, 0.0, 4.0),  # out of order on one axis and on the other
    (0.0, 4.0, 4.0, 0.0),
    (2.0, 2.0, 2.0, 2.0),  # a box of one place
    (-4.0, -0.0, -4.0, -0.0),  # an edge at the zero with a sign
    (0.0, -0.0, 0.0, -0.0),  # in order: both zeros are equal
    (TINY, 1.0, 0.0, 1.0),  # begins just after zero
    (-1.0, -TINY, 0.0, 1.0),  # ends just before zero
    (-1.7e308, 1.7e308, -1.7e308, 1.7e308),  # wider than the largest number
]


def arc_boxes(version):
    w = width(version)
    head = header("ARC", version, len(BOXES), (NAN, NAN, INF, -INF))
    end = len(head) + len(BOXES) * (40 + 4 * w)
    return head + b"".join(arc_record(w, 0, end, box) for box in BOXES)


VECTOR_FILES = {
    # whole files
    "three11.pnt": pnt_file(" 1.1", THREE_POINTS),
    "zero20.pnt": pnt_file("02.0", ZERO_POINTS, flags=0xFF, reserved=M64 - 1),
    "nan11.pnt": pnt_file(" 1.1", NAN_POINTS),
    "twins11.arc": arc_file(" 1.1", twins()),
    "twins20.arc": arc_file(" 2.0", twins(), tail=b"thirteen more"),
    "lead11.arc": arc_file("01.1", twins()),
    "twins11.nod": nod_file(" 1.1", twins()),
    "twins20.nod": nod_file(" 2.0", twins()),
    "twins11.pol": pol_file(" 1.1", twins()),
    "twins20.pol": pol_file(" 2.0", twins()),
    # headers alone, whole and cut
    "empty": b"",
    "cut47.pnt": header("PNT", " 1.1", 0)[:47],
    "head48.pnt": header("PNT", " 1.1", 0),
    "cut48.nod": header("NOD", "02.0", 0)[:48],
    "cut55.arc": header("ARC", " 2.0", 0)[:55],
    "head56.pol": header("POL", " 2.0", 0),
    # records that pass the end
    "short11.arc": arc_file(" 1.1", twins())[: 48 + 3 * 56 - 1],
    "max32.pnt": header("PNT", " 1.1", M32 - 1) + bytes(64),
    "max64.arc": header("ARC", " 2.0", M64 - 1) + bytes(144),
    "wrap64.pnt": header("PNT", " 2.0", M64 // 16) + bytes(64),
    # kinds and versions
    "lower.pnt": header("pnt", " 1.1", 1) + dbls((1.0, 2.0)),
    "v10.pnt": one_point(" 1.0"),
    "v30.pnt": one_point(" 3.0"),
    "v111.pnt": one_point("11.1"),
    "v21.pnt": header("PNT", " 2.1", 0),
    "vafter.pnt": one_point("1.1 "),
    # lists and boxes
    "lists20.arc": arc_lists(" 2.0"),
    "lists11.nod": nod_lists(" 1.1"),
    "lists20.pol": pol_lists(" 2.0", 2),
    "boxes11.arc": arc_boxes(" 1.1"),
}

# ---------------------------------------------------------------------------
# The vectors: cases
# ---------------------------------------------------------------------------

CASES = [
    # Points.
    "T three11.pnt --window 1 1 2 2",  # a window that is a single place
    "T nan11.pnt",  # not-a-number and infinite points are listed without window
    "T nan11.pnt --window -1e308 1e308 -1e308 1e308",  # and are in no window
    "T zero20.pnt",  # version 02.0; flags and reserved bytes say nothing
    "T zero20.pnt --window 0 -0.0 -0.0 5e-324",  # both zeros, a denormal edge
    # Arcs.
    "A twins11.arc",  # whole, 1.1; the last list ends with the file
    "A twins11.arc --window 10 20 10 20",  # touches one box at a corner exactly
    "A twins20.arc",  # whole, 2.0, with a tail after the lists
    "A twins20.arc --window -7.5 -2.5 1 2",  # inside one box, away from others
    "A lead11.arc --arcs 18446744073709551615",  # 01.1; --arcs says nothing here
    # Nodes.
    "N twins11.nod",  # whole, 1.1
    "N twins20.nod --arcs 3",  # whole, 2.0
    # Polygons.
    "P twins11.pol --arcs 3",  # whole, 1.1
    "P twins11.pol --arcs 3 --window 10 11 5 6",  # touches along an edge
    "P twins20.pol --arcs 3",  # whole, 2.0
    "P twins20.pol --window -20 -10 10 20 --arcs 3",  # the other order of words
    "P twins11.pol",  # no arcs: the sides are read as a record
    "P twins20.pol --arcs 7",  # too many, but records still fit in the file
    "P twins20.pol --arcs 8",  # one more, and they do not: 1
    "P twins11.pol --arcs 18446744073709551615",  # 8 * arcs passes 2^64: 1
    "P twins20.pol --arcs 18446744073709551615",  # 16 * arcs passes 2^64: 1
    "P head56.pol",  # a header alone, 2.0: not refused
    # 1: too short for a header, or for its records.
    "T head48.pnt",  # a header alone, 1.1: not refused
    "T empty",
    "T cut47.pnt",  # 47 bytes
    "Z cut47.pnt",  # length is judged before the letter
    "N cut48.nod",  # 02.0 with 48 bytes
    "A cut55.arc",  # 2.0 with 55 bytes
    "A short11.arc --window nan 0 9 8",  # one byte short; before the window
    "T max32.pnt",  # 2^32 - 1 records
    "A max64.arc",  # 2^64 - 1 records
    "T wrap64.pnt",  # records that take exactly 2^64 bytes
    # 4: other kinds.
    "A v30.pnt",  # another kind, judged before the version
    "T lower.pnt",  # lowercase kind
    "Z three11.pnt",  # a letter that is none of the four
    # 5: other versions.
    "T v10.pnt",
    "T v30.pnt",
    "T v111.pnt",
    "T v21.pnt",  # 48 bytes: its text is not 2.0, so it is not short
    "T vafter.pnt --window 1 0 1 0",  # before the window
    # 10: the window.
    "A twins11.arc --window 1 0 0 1",  # out of order in x
    "P twins20.pol --arcs 3 --window 0 1 1 0",  # out of order in y
    "T three11.pnt --window 0 1 nan 1",
    "A twins11.arc --window -inf 1 0 1",
    # Lists at the end, past it and near the top of the numbers.
    "A lists20.arc --window 1 2 1 2",  # in the window, whatever their lists
    "N lists11.nod",
    "P lists20.pol --arcs 2",
    # Boxes.
    "A boxes11.arc",  # every record is listed; the file ends with its records
    "A boxes11.arc --window 0 3 0 3",
    "A boxes11.arc --window 0.0 0 -0.0 0",  # a single place, zero
]

# ---------------------------------------------------------------------------
# Reading: what `sheet_records` prints. Nothing above is used below, but for
# the bytes of the files and the words of the cases.
# ---------------------------------------------------------------------------

LETTERS = {"T": b"PNT", "A": b"ARC", "N": b"NOD", "P": b"POL"}
EDITIONS = {b" 1.1": "1.1", b"01.1": "1.1", b" 2.0": "2.0", b"02.0": "2.0"}


class Refused(Exception):
    pass


def read_number(data, place, size):
    piece = data[place : place + size]
    assert len(piece) == size
    value = 0
    for i in range(size):
        value += piece[i] * 256**i
    return value


def read_double(data, place):
    (value,) = struct.unpack_from("<d", data, place)
    return value


def read_words(words):
    """Letter, file, arcs and window (None without one)."""
    letter, name, rest = words[0], words[1], list(words[2:])
    arcs, window = 0, None
    while rest:
        word = rest.pop(0)
        if word == "--arcs":
            arcs = int(rest.pop(0))
            assert 0 <= arcs < 2**64
        elif word == "--window":
            window = [float(rest.pop(0)) for _ in range(4)]
        else:
            raise AssertionError("not a word of the program: " + word)
    return letter, name, arcs, window


def read_view(letter, data, arcs):
    """Kind, edition, and (place, length) of each record."""
    size = len(data)
    if size < 48:
        raise Refused(1)
    version = data[3:7]
    if EDITIONS.get(version) == "2.0" and size < 56:
        raise Refused(1)
    if letter not in LETTERS or data[0:3] != LETTERS[letter]:
        raise Refused(4)
    if version not in EDITIONS:
        raise Refused(5)
    edition = EDITIONS[version]
    if edition == "1.1":
        first = 48
        count = read_number(data, 40, 4)
        length = {"T": 16, "A": 56, "N": 8, "P": 64}[letter]
        side = 8
    else:
        first = 56
        count = read_number(data, 40, 8)
        length = {"T": 16, "A": 72, "N": 12, "P": 80}[letter]
        side = 16
    if letter == "P":
        first += side * arcs
    if first + length * count > size:
        raise Refused(1)
    return edition, [(first + length * i, length) for i in range(count)]


def read_list(letter, edition, data, place):
    """Place and length of a record's list, judged or not."""
    w = 4 if edition == "1.1" else 8
    if letter == "T":
        return 0, 0
    if letter == "A":
        return read_number(data, place + 32 + w, w), 16 * read_number(data, place + 32, w)
    if letter == "N":
        return read_number(data, place + 4, w), w * read_number(data, place, 2)
    return (
        read_number(data, place + 32 + 3 * w, w),
        (w + 1) * read_number(data, place + 32, w),
    )


def read_box(letter, data, place):
    """Box of a record: a point is its own; a node has none, and is never asked for one."""
    if letter == "T":
        x, y = read_double(data, place), read_double(data, place + 8)
        return [x, x, y, y]
    return [read_double(data, place + 8 * i) for i in range(4)]


def is_box(box):
    return all(math.isfinite(v) for v in box) and box[0] <= box[1] and box[2] <= box[3]


def share_a_place(a, b):
    return a[0] <= b[1] and b[0] <= a[1] and a[2] <= b[3] and b[2] <= a[3]


def printed(words, files):
    """The lines `sheet_records` prints for these words."""
    letter, name, arcs, window = read_words(words)
    data = files[name]
    try:
        edition, records = read_view(letter, data, arcs)
        if window is not None and not is_box(window):
            raise Refused(10)
    except Refused as refusal:
        return ["refused %d" % refusal.args[0]]
    lines = ["%s %s records %d" % (LETTERS[letter].decode(), edition, len(records))]
    found = 0
    for number, (place, length) in enumerate(records):
        if window is not None:
            box = read_box(letter, data, place)
            if not is_box(box) or not share_a_place(box, window):
                continue
        found += 1
        at, run = read_list(letter, edition, data, place)
        text = "refused 1" if at + run > len(data) else "%d %d" % (at, run)
        lines.append("%d record %d %d list %s" % (number, place, length, text))
    return lines + ["found %d" % found]


# ---------------------------------------------------------------------------
# Everything to its place
# ---------------------------------------------------------------------------


def write(path, data):
    os.makedirs(os.path.dirname(path), exist_ok=True)
    with open(path, "wb") as out:
        out.write(data)


def write_folder(folder, files):
    """Writes the files, and takes away any other that lies in the folder."""
    os.makedirs(folder, exist_ok=True)
    for name in sorted(os.listdir(folder)):
        if name not in files:
            os.remove(os.path.join(folder, name))
    for name in sorted(files):
        write(os.path.join(folder, name), files[name])


def text(lines):
    return "".join(line + "\n" for line in lines).encode()


def main():
    root = os.path.dirname(os.path.dirname(os.path.abspath(__file__)))
    example = os.path.join(root, "crates", "sheet_records")
    vectors = os.path.join(root, "crates", "record_vectors")

    write_folder(os.path.join(example, "data"), EXAMPLE_FILES)
    write(os.path.join(example, "args"), text(EXAMPLE_ARGS))
    write(os.path.join(example, "stdout"), text(printed(EXAMPLE_ARGS, EXAMPLE_FILES)))

    assert len(set(CASES)) == len(CASES)
    used = set(case.split(" ")[1] for case in CASES)
    assert used == set(VECTOR_FILES), used ^ set(VECTOR_FILES)
    lines = []
    for case in CASES:
        lines += ["> " + case] + printed(case.split(" "), VECTOR_FILES)
    write_folder(os.path.join(vectors, "data"), dict(VECTOR_FILES, cases=text(CASES)))
    write(os.path.join(vectors, "stdout"), text(lines))

    size = sum(len(data) for data in VECTOR_FILES.values()) + len(text(CASES))
    print("%d cases, %d files, %d bytes" % (len(CASES), len(VECTOR_FILES), size))


if __name__ == "__main__":
    main()
