#!/usr/bin/env python3
"""Writes the journals of journal_vectors and the output expected of them.

Run from the repository root:

    python3 vectors/journals.py

It rewrites, the same bytes each time,

    crates/sheet_journal/stdin     the example journal, which stands in data/
    crates/sheet_journal/stdout    what sheet_journal answers to it
    crates/journal_vectors/data/   journals, and `cases`, one run to a line
    crates/journal_vectors/stdout  what the runs answer

The model below knows maps by itself: arcs, sides, nodes and polygons are objects
that know each other, a ring is a circle of sides, and the number of a thing is
its place in a list, looked up when it is asked for. Each edit that is played is
looked at: whether it was rightly taken or refused, the law of maps after it, and
what it made of rings, nodes, polygons and runs, told as lists and not as links.
"""

import collections
import itertools
import math
import os
import random
import re
from decimal import Decimal

MOST_SIDES = 32768
MOST_VERTICES = 1048576

# ---------------------------------------------------------------------------
# The model of a map
# ---------------------------------------------------------------------------


class Refused(Exception):
    def __init__(self, number):
        self.number = number


class Node:
    pass


class Polygon:
    pass


class Side:
    """A side of an arc. It stands in a circle of sides, at first alone."""

    def __init__(self, arc, node, polygon):
        self.arc = arc
        self.node = node
        self.polygon = polygon
        self.next = self
        self.before = self

    @property
    def opposite(self):
        return self.arc.against if self is self.arc.along else self.arc.along

    def run(self):
        """The vertices, from where the side begins."""
        return self.arc.run if self is self.arc.along else self.arc.run[::-1]

    def ring(self):
        """The sides of the circle, this one first."""
        sides = [self]
        while sides[-1].next is not self:
            sides.append(sides[-1].next)
        return sides

    def let_in(self, following):
        """A side that stands alone is let in before another."""
        link(following.before, self)
        link(self, following)

    def take_out(self):
        link(self.before, self.next)
        link(self, self)


def link(side, following):
    side.next = following
    following.before = side


class Arc:
    """A run of vertices, with a side along it and one against it."""

    def __init__(self, run, first, last, polygon_along, polygon_against):
        self.run = run
        self.along = Side(self, first, polygon_along)
        self.against = Side(self, last, polygon_against)

    def sides(self):
        return [self.along, self.against]


class Sheet:
    """Arcs, nodes and polygons stand in lists; the number of a thing is its place there."""

    def __init__(self, sides, vertices):
        self.rows = sides
        self.room = min(sides, MOST_SIDES) // 2
        self.vertices = min(vertices, MOST_VERTICES)
        self.used = 0
        self.arcs = []
        self.nodes = []
        self.polygons = [Polygon()]

    def sides(self):
        return [s for a in self.arcs for s in a.sides()]

    def rings(self):
        """All rings, each from its lowest side on, rising by it."""
        met, rings = set(), []
        for side in self.sides():
            if side not in met:
                rings.append(side.ring())
                met.update(rings[-1])
        return rings

    def beginning_at(self, node):
        return [s for s in self.sides() if s.node is node]

    def under(self, polygon):
        return [s for s in self.sides() if s.polygon is polygon]

    # Room. Vertices are taken last, when nothing can be refused any more.

    def take(self, arcs, vertices):
        if len(self.arcs) + arcs > self.room or self.used + vertices > self.vertices:
            raise Refused(22)
        self.used += vertices

    # The six edits.

    def island(self, polygon, run):
        outer = pick(self.polygons, polygon)
        if len(run) < 4 or run[0] != run[-1] or not finite(run):
            raise Refused(21)
        self.take(1, len(run))
        node, inner = Node(), Polygon()
        self.arcs.append(Arc(run, node, node, inner, outer))
        self.nodes.append(node)
        self.polygons.append(inner)

    def lift(self, number):
        arc = pick(self.arcs, number)
        node = arc.along.node
        if arc.against.node is not node or len(self.beginning_at(node)) > 2:
            raise Refused(23)
        low, high = sorted(self.polygons.index(s.polygon) for s in arc.sides())
        under = self.under(self.polygons[low]) + self.under(self.polygons[high])
        if low != 0 and all(s.arc is arc for s in under):
            raise Refused(24)
        self.merge(low, high)
        fill(self.arcs, number)
        fill(self.nodes, self.nodes.index(node))

    def split(self, number, at):
        arc = pick(self.arcs, number)
        if not 0 < at < len(arc.run) - 1:
            raise Refused(25)
        self.take(1, 1)
        node = Node()
        new = Arc(arc.run[at:], node, arc.against.node, arc.along.polygon, arc.against.polygon)
        arc.run = arc.run[: at + 1]
        arc.against.node = node
        new.along.let_in(arc.along.next)
        new.against.let_in(arc.against)
        self.arcs.append(new)
        self.nodes.append(node)

    def join(self, number):
        node = pick(self.nodes, number)
        ends = self.beginning_at(node)
        if len(ends) != 2 or ends[0].arc is ends[1].arc:
            raise Refused(26)
        mine, other = ends  # the lower arc's side comes first
        arc = mine.arc
        self.take(0, len(arc.run) + len(other.arc.run) - 1)
        if mine is arc.against:
            arc.run = arc.run + other.run()[1:]
        else:
            arc.run = other.opposite.run()[:-1] + arc.run
        mine.node = other.opposite.node
        other.take_out()
        other.opposite.take_out()
        fill(self.arcs, self.arcs.index(other.arc))
        fill(self.nodes, number)

    def divide(self, first, second, named, run):
        sides = self.sides()
        first, second = pick(sides, first), pick(sides, second)
        if second not in first.ring():
            raise Refused(27)
        if len(run) < 2 or not finite(run):
            raise Refused(21)
        if run[0] != first.run()[0] or run[-1] != second.run()[0]:
            raise Refused(28)
        self.take(1, len(run))
        new = Arc(run, first.node, second.node, first.polygon, first.polygon)
        if first is second:
            new.along.let_in(first)
        else:
            before_first, before_second = first.before, second.before
            link(before_first, new.along)
            link(new.along, second)
            link(before_second, new.against)
            link(new.against, first)
        polygon = Polygon()
        for side in (new.along if named == "+" else new.against).ring():
            side.polygon = polygon
        self.arcs.append(new)
        self.polygons.append(polygon)

    def dissolve(self, number):
        arc = pick(self.arcs, number)
        along, against = arc.sides()
        if against in along.ring():
            raise Refused(29)
        if along.next is along and against.next is against:
            raise Refused(30)
        self.merge(*sorted(self.polygons.index(s.polygon) for s in arc.sides()))
        if along.next is along or against.next is against:
            along.take_out()
            against.take_out()
        else:
            before_along, before_against = along.before, against.before
            link(before_along, against.next)
            link(before_against, along.next)
        fill(self.arcs, number)

    def merge(self, low, high):
        """Polygon low gets all that stands under polygon high, which goes."""
        if low != high:
            for side in self.under(self.polygons[high]):
                side.polygon = self.polygons[low]
            fill(self.polygons, high)

    # Questions.

    def ring(self, number):
        """Polygon and lowest side."""
        side = pick(self.rings(), number)[0]
        return self.polygons.index(side.polygon), self.sides().index(side)

    def side(self, number):
        """Polygon, next side and node."""
        sides = self.sides()
        side = pick(sides, number)
        return self.polygons.index(side.polygon), sides.index(side.next), self.nodes.index(side.node)

    def arc(self, number):
        return pick(self.arcs, number)

    def counts(self):
        rings = len(self.rings())
        return f"arcs {len(self.arcs)} nodes {len(self.nodes)} polygons {len(self.polygons)} rings {rings}\n"

    def listing(self):
        name = {}
        for k, arc in enumerate(self.arcs):
            name[arc.along], name[arc.against] = f" {k}+", f" {k}-"
        text = self.counts()
        for ring in self.rings():
            text += f"{self.polygons.index(ring[0].polygon)}:{''.join(name[s] for s in ring)}\n"
        return text


def pick(things, number):
    if number >= len(things):
        raise Refused(20)
    return things[number]


def finite(run):
    return all(math.isfinite(c) for v in run for c in v)


def fill(things, gap):
    """The last of the things takes the gap's number."""
    things[gap] = things[-1]
    things.pop()


# ---------------------------------------------------------------------------
# What is looked at with each edit
# ---------------------------------------------------------------------------

# how often each thing of note was met, in all journals together
MET = collections.Counter()


class Picture:
    """A sheet at one time."""

    def __init__(self, sheet):
        self.arcs = tuple(sheet.arcs)
        self.nodes = tuple(sheet.nodes)
        self.polygons = tuple(sheet.polygons)
        self.used = sheet.used
        self.rings = sheet.rings()
        self.run = {a: a.run for a in sheet.arcs}
        self.node = {s: s.node for s in sheet.sides()}
        self.polygon = {s: s.polygon for s in sheet.sides()}

    def ring(self, side):
        """The ring of a side, from it on."""
        return next(told_from(side, r) for r in self.rings if side in r)


def told_from(side, ring):
    at = ring.index(side)
    return ring[at:] + ring[:at]


def circles(rings):
    """Rings as circles, whichever sides they are told from."""
    return {tuple(told_from(min(r, key=id), r)) for r in rings if r}


def without(rings, gone):
    return [[s for s in r if s not in gone] for r in rings]


def parts(things, pairs):
    """How many parts the things fall into, when those of each pair hang together."""
    at = {t: t for t in things}

    def root(t):
        while at[t] is not t:
            t = at[t]
        return t

    for one, other in pairs:
        at[root(one)] = root(other)
    return sum(at[t] is t for t in at)


def lawful(sheet, p):
    """The law of maps, looked at side by side."""
    sides = sheet.sides()
    assert sorted(map(id, sides)) == sorted(id(s) for r in p.rings for s in r)
    assert set(p.node.values()) == set(p.nodes) and len(set(p.nodes)) == len(p.nodes)
    assert set(p.polygon.values()) | {p.polygons[0]} == set(p.polygons) and len(set(p.polygons)) == len(p.polygons)
    for ring in p.rings:
        assert {s.polygon for s in ring} == {ring[0].polygon}
        for side in ring:
            assert side.next.before is side and side.next.node is side.opposite.node
    at = collections.defaultdict(set)
    for side in sides:
        at[side.node].add(side)
    for begin in at.values():
        side = start = next(iter(begin))
        turn = set()
        while side not in turn:
            turn.add(side)
            side = side.opposite.next
        assert side is start and turn == begin
        assert all(s.run()[0] == start.run()[0] for s in begin)
    assert all(len(a.run) >= 2 and finite(a.run) for a in sheet.arcs)
    assert len(sheet.arcs) <= sheet.room
    assert sum(len(a.run) for a in sheet.arcs) <= sheet.used <= sheet.vertices
    # What follows for maps that were begun blank: each piece is a sphere, and pieces and polygons, held together by rings, are a tree.
    arcs = [(a.along.node, a.against.node) for a in sheet.arcs]
    pieces = parts(p.nodes, arcs)
    assert len(p.nodes) + len(p.rings) - len(p.arcs) == 2 * pieces
    assert len(p.rings) == pieces + len(p.polygons) - 1
    assert parts(p.nodes + p.polygons, arcs + [(r[0].node, r[0].polygon) for r in p.rings]) == 1


# What must hold before each edit, with the number that it is refused with where it does not; in order.


def island_judged(b, room, polygon, run):
    yield 20, polygon < len(b.polygons)
    yield 21, len(run) > 3 and run[:1] == run[-1:] and finite(run)
    yield 22, room(1, len(run))


def lift_judged(b, room, number):
    yield 20, number < len(b.arcs)
    arc = b.arcs[number]
    yield 23, len(b.ring(arc.along)) == len(b.ring(arc.against)) == 1
    two = {b.polygon[s] for s in arc.sides()}
    yield 24, b.polygons[0] in two or any(b.polygon[r[0]] in two and r[0].arc is not arc for r in b.rings)


def split_judged(b, room, number, at):
    yield 20, number < len(b.arcs)
    yield 25, at in range(1, len(b.run[b.arcs[number]]) - 1)
    yield 22, room(1, 1)


def join_judged(b, room, number):
    yield 20, number < len(b.nodes)
    ends = [s.arc for s in b.node if b.node[s] is b.nodes[number]]
    yield 26, len(ends) == len(set(ends)) == 2
    yield 22, room(0, sum(len(b.run[a]) for a in ends) - 1)


def divide_judged(b, room, first, second, named, run):
    yield 20, max(first, second) < 2 * len(b.arcs)
    first, second = (b.arcs[k // 2].sides()[k % 2] for k in (first, second))
    yield 27, any({first, second} <= set(r) for r in b.rings)
    yield 21, len(run) > 1 and finite(run)
    at = [b.run[s.arc][0 if s is s.arc.along else -1] for s in (first, second)]
    yield 28, [run[0], run[-1]] == at
    yield 22, room(1, len(run))


def dissolve_judged(b, room, number):
    yield 20, number < len(b.arcs)
    one, two = (set(b.ring(s)) for s in b.arcs[number].sides())
    yield 29, one != two
    yield 30, len(one | two) > 2


JUDGED = {
    "island": island_judged,
    "lift": lift_judged,
    "split": split_judged,
    "join": join_judged,
    "divide": divide_judged,
    "dissolve": dissolve_judged,
}

# What each edit makes of a sheet.


def filled(before, after, gone):
    """Things of one kind after one has gone: the last stands in its place, or it was the last."""
    at = before.index(gone)
    MET["the last goes" if at == len(before) - 1 else "a gap is filled"] += 1
    return after == (before[:at] + before[-1:] + before[at + 1 :])[: len(before) - 1]


def stays(before, after, but=()):
    """Each thing that is told of both times is the same, but for some."""
    return all(after[k] is before[k] for k in after if k in before and k not in but)


def merged(b, a, sides, arc):
    """Of two polygons the lower stays, with all that stood under both."""
    low, high = sorted((b.polygon[s] for s in arc.sides()), key=b.polygons.index)
    return low is not high and filled(b.polygons, a.polygons, high) and all(
        a.polygon[s] is (low if b.polygon[s] is high else b.polygon[s]) for s in sides
    )


def island_made(b, a, polygon, run):
    new = a.arcs[-1]
    assert a.arcs[:-1] == b.arcs and a.nodes[:-1] == b.nodes and a.polygons[:-1] == b.polygons
    assert circles(a.rings) == circles(b.rings) | {(new.along,), (new.against,)}
    assert stays(b.node, a.node) and a.node[new.along] is a.node[new.against] is a.nodes[-1]
    assert stays(b.polygon, a.polygon)
    assert a.polygon[new.along] is a.polygons[-1] and a.polygon[new.against] is b.polygons[polygon]
    assert stays(b.run, a.run) and a.run[new] is run and a.used == b.used + len(run)


def lift_made(b, a, number):
    arc = b.arcs[number]
    assert filled(b.arcs, a.arcs, arc) and filled(b.nodes, a.nodes, b.node[arc.along])
    assert circles(b.rings) == circles(a.rings) | {(arc.along,), (arc.against,)}
    assert stays(b.node, a.node) and merged(b, a, a.node, arc)
    assert stays(b.run, a.run) and a.used == b.used


def split_made(b, a, number, at):
    arc, new = b.arcs[number], a.arcs[-1]
    assert a.arcs[:-1] == b.arcs and a.nodes[:-1] == b.nodes and a.polygons == b.polygons
    assert circles(without(a.rings, new.sides())) == circles(b.rings)
    assert a.ring(arc.along)[1] is new.along and a.ring(new.against)[1] is arc.against
    if b.ring(arc.along)[1 % len(b.ring(arc.along))] is arc.against:
        MET["split at a dead end", "of the last vertex"] += 1
        assert a.ring(new.along)[1] is new.against
    if b.ring(arc.against)[1 % len(b.ring(arc.against))] is arc.along:
        MET["split at a dead end", "of the first vertex"] += 1
    if b.node[arc.along] is b.node[arc.against]:
        MET["split of a closed arc"] += 1
    assert stays(b.node, a.node, [arc.against]) and a.node[arc.against] is a.node[new.along] is a.nodes[-1]
    assert a.node[new.against] is b.node[arc.against]
    assert stays(b.polygon, a.polygon)
    assert a.polygon[new.along] is b.polygon[arc.along] and a.polygon[new.against] is b.polygon[arc.against]
    assert stays(b.run, a.run, [arc]) and a.used == b.used + 1
    assert one_by_one(b.run[arc], a.run[arc][:-1] + a.run[new]) and a.run[arc][-1] is b.run[arc][at] is a.run[new][0]


def one_by_one(run, other):
    """The very same vertices."""
    return len(run) == len(other) and all(v is w for v, w in zip(run, other))


def join_made(b, a, number):
    node = b.nodes[number]
    low, high = [c for c in b.arcs if node in (b.node[c.along], b.node[c.against])]
    ends = "ends" if b.node[low.against] is node else "begins"
    far = high.against if b.node[high.along] is node else high.along
    backwards = (ends == "ends") != (far is high.against)
    MET["join where the lower arc", ends, "the other backwards" if backwards else "the other forwards"] += 1
    if b.node[far] in (b.node[low.along], b.node[low.against]):
        MET["join to a closed arc"] += 1
    if 1 in [list(b.node.values()).count(b.node[s]) for s in low.sides() + high.sides()]:
        MET["join with a dead end"] += 1
    assert filled(b.arcs, a.arcs, high) and filled(b.nodes, a.nodes, node) and a.polygons == b.polygons
    assert circles(a.rings) == circles(without(b.rings, high.sides()))
    begins = low.against if ends == "ends" else low.along
    assert stays(b.node, a.node, [begins]) and a.node[begins] is b.node[far] and stays(b.polygon, a.polygon)
    taken = b.run[high][::-1] if backwards else b.run[high]
    both = (b.run[low], taken[1:]) if ends == "ends" else (taken[:-1], b.run[low])
    meet = (b.run[low][-1], taken[0]) if ends == "ends" else (b.run[low][0], taken[-1])
    if [shown(c) for c in meet[0]] != [shown(c) for c in meet[1]]:
        MET["join of zeros of two signs"] += 1
    assert stays(b.run, a.run, [low]) and one_by_one(a.run[low], both[0] + both[1])
    assert a.used == b.used + len(a.run[low])


def divide_made(b, a, first, second, named, run):
    sides = [s for c in b.arcs for s in c.sides()]
    first, second, new = sides[first], sides[second], a.arcs[-1]
    assert a.arcs[:-1] == b.arcs and a.nodes == b.nodes and a.polygons[:-1] == b.polygons
    ring = b.ring(first)
    at = ring.index(second)
    one, two = ([new.along] + ring[at:], [new.against] + ring[:at])
    MET["division at", "one side" if at == 0 else "two sides", "named", named] += 1
    if at == 1 or at == len(ring) - 1:
        MET["division at two sides, one after the other"] += 1
    assert circles(a.rings) == circles([r for r in b.rings if first not in r] + [one, two])
    assert stays(b.node, a.node) and a.node[new.along] is b.node[first] and a.node[new.against] is b.node[second]
    fresh, old = (one, two) if named == "+" else (two, one)
    assert all(a.polygon[s] is a.polygons[-1] for s in fresh) and all(a.polygon[s] is b.polygon[first] for s in old)
    assert stays(b.polygon, a.polygon, fresh)
    assert stays(b.run, a.run) and a.run[new] is run and a.used == b.used + len(run)


def dissolve_made(b, a, number):
    arc = b.arcs[number]
    one, two = b.ring(arc.along), b.ring(arc.against)
    alone = "along" if len(one) == 1 else "against" if len(two) == 1 else "no side"
    MET["dissolve,", alone, "alone"] += 1
    assert filled(b.arcs, a.arcs, arc) and a.nodes == b.nodes
    assert circles(a.rings) == circles([r for r in b.rings if not set(arc.sides()) & set(r)] + [one[1:] + two[1:]])
    assert stays(b.node, a.node) and merged(b, a, a.node, arc)
    assert stays(b.run, a.run) and a.used == b.used


MADE = {
    "island": island_made,
    "lift": lift_made,
    "split": split_made,
    "join": join_made,
    "divide": divide_made,
    "dissolve": dissolve_made,
}


def edit(sheet, verb, *arguments):
    """An edit that is looked at."""
    before = Picture(sheet)

    def room(arcs, vertices):
        sides, vertices = 2 * (len(before.arcs) + arcs), before.used + vertices
        return sides <= sheet.rows and sides <= MOST_SIDES and vertices <= sheet.vertices

    number = next((n for n, holds in JUDGED[verb](before, room, *arguments) if not holds), None)
    try:
        getattr(sheet, verb)(*arguments)
    except Refused as r:
        after = Picture(sheet)
        MET[verb, "refused", r.number] += 1
        assert r.number == number
        assert vars(after) == vars(before) and stays(before.run, after.run)
        raise
    after = Picture(sheet)
    assert number is None
    MET[verb, "takes the last arc"] += len(after.arcs) == sheet.room > len(before.arcs)
    MET[verb, "takes the last vertex"] += after.used == sheet.vertices > before.used
    lawful(sheet, after)
    MADE[verb](before, after, *arguments)
    rise = {"island": 2, "lift": -2}.get(verb, 0)
    assert euler(after) == euler(before) + rise
    return "ok\n"


def euler(p):
    return len(p.nodes) + len(p.rings) - len(p.arcs)


# ---------------------------------------------------------------------------
# The lines of a journal
# ---------------------------------------------------------------------------

NUMBER = re.compile(r"\+?[0-9]+", re.A)
DECIMAL = re.compile(r"[+-]?([0-9]+\.?[0-9]*([eE][+-]?[0-9]+)?|\.[0-9]+([eE][+-]?[0-9]+)?|inf|infinity|nan)", re.A | re.I)

FORMS = {
    "island": "island POLYGON X,Y X,Y ..",
    "lift": "lift ARC",
    "split": "split ARC VERTEX",
    "join": "join NODE",
    "divide": "divide SIDE SIDE +|- X,Y X,Y ..",
    "dissolve": "dissolve ARC",
    "list": "list",
    "counts": "counts",
    "ring": "ring RING",
    "side": "side SIDE",
    "arc": "arc ARC",
    "vertex": "vertex ARC VERTEX",
}


class Unfit(Exception):
    pass


def whole(word):
    if not NUMBER.fullmatch(word) or int(word) >= 2**64:
        raise Unfit
    return int(word)


def decimal(word):
    if not DECIMAL.fullmatch(word):
        raise Unfit
    return float(word)


def vertex(word):
    x, comma, y = word.partition(",")
    if not comma:
        raise Unfit
    return decimal(x), decimal(y)


def shown(x):
    """The shortest digits that read back as x, without an exponent, as Rust prints it."""
    if x == 0:
        return "-0" if math.copysign(1, x) < 0 else "0"
    text = format(Decimal(repr(x)), "f")
    return text.rstrip("0").rstrip(".") if "." in text else text


def call(sheet, verb, words):
    """The answer to a call, as text."""
    if verb == "island":
        if not words:
            raise Unfit
        polygon = whole(words[0])
        return edit(sheet, verb, polygon, tuple(map(vertex, words[1:])))
    if verb == "divide":
        if len(words) < 3 or words[2] not in ("+", "-"):
            raise Unfit
        first, second = whole(words[0]), whole(words[1])
        return edit(sheet, verb, first, second, words[2], tuple(map(vertex, words[3:])))
    if len(words) != {"list": 0, "counts": 0, "vertex": 2, "split": 2}.get(verb, 1):
        raise Unfit
    numbers = [whole(w) for w in words]
    if verb in ("lift", "split", "join", "dissolve"):
        return edit(sheet, verb, *numbers)
    if verb == "list":
        return sheet.listing()
    if verb == "counts":
        return sheet.counts()
    if verb == "ring":
        return "polygon %d side %d\n" % sheet.ring(*numbers)
    if verb == "side":
        return "polygon %d next %d node %d\n" % sheet.side(*numbers)
    run = sheet.arc(numbers[0]).run
    if verb == "arc":
        return f"vertices {len(run)}\n"
    return " ".join(map(shown, pick(run, numbers[1]))) + "\n"


def answer(sheet, number, line):
    """What one line answers; a line that is no call tells what was expected."""
    if line.endswith(b"\n"):
        line = line[:-1]
    if line.endswith(b"\r"):
        line = line[:-1]
    try:
        text = line.decode("utf-8")
    except UnicodeDecodeError:
        return f"line {number}: not UTF-8\n"
    words = [w for w in text.split(" ") if w]
    if not words or words[0][0] == "#":
        return ""
    if words[0] not in FORMS:
        *most, last = FORMS
        return f"line {number}: expected {', '.join(most)} or {last}\n"
    try:
        return call(sheet, words[0], words[1:])
    except Refused as r:
        return f"refused {r.number}\n"
    except Unfit:
        return f"line {number}: expected {FORMS[words[0]]}\n"


def played(journal, sides=MOST_SIDES, vertices=MOST_VERTICES):
    sheet = Sheet(sides, vertices)
    lines = journal.split(b"\n")
    lines = [l + b"\n" for l in lines[:-1]] + ([lines[-1]] if lines[-1] else [])
    return "".join(answer(sheet, k + 1, l) for k, l in enumerate(lines))


# ---------------------------------------------------------------------------
# The journals
# ---------------------------------------------------------------------------


def square(x, y, size):
    corners = [(x, y), (x, y + size), (x + size, y + size), (x + size, y), (x, y)]
    return " ".join(f"{a},{b}" for a, b in corners)


def nested(count, first=0):
    """Islands, each within the one before."""
    lines = []
    for k in range(count):
        lines.append(f"island {first if k == 0 else first + k} {square(k, k, 100 - 2 * k)}")
    return lines


def every_order(count):
    """Nested islands, lifted in every order, with a listing after each lift."""
    lines = []
    for order in itertools.permutations(range(count)):
        lines += nested(count)
        numbers = list(range(count))  # which island each arc number now is
        for island in order:
            at = numbers.index(island)
            lines += [f"lift {at}", "list"]
            numbers[at] = numbers[-1]
            numbers.pop()
    return lines


def any_calls(seed, count):
    """Calls at random, many of them refused."""
    r = random.Random(seed)
    lines = []
    arcs = 0
    for _ in range(count):
        kind = r.randrange(10)
        if kind < 4:
            polygon = r.randrange(arcs + 2)
            x, y, size = (r.randrange(-400, 400) / 8 for _ in range(3))
            lines.append(f"island {polygon} {square(x, y, size)}")
            arcs += polygon <= arcs
        elif kind < 6:
            arc = r.randrange(arcs + 2)
            lines.append(f"lift {arc}")
            arcs -= arc < arcs
        elif kind == 6:
            lines.append("counts")
        elif kind == 7:
            lines += [f"ring {r.randrange(2 * arcs + 2)}", f"side {r.randrange(2 * arcs + 2)}"]
        else:
            arc = r.randrange(arcs + 1)
            lines += [f"arc {arc}", f"vertex {arc} {r.randrange(6)}"]
    return lines + ["list"]


class Mixed:
    """Calls of all kinds at random, chosen by what stands on a sheet of the model's."""

    def __init__(self, seed, sides, most):
        self.random = random.Random(seed)
        self.sheet = Sheet(sides, MOST_VERTICES)
        self.most = most
        self.wanted = most
        self.lines = []

    def below(self, count):
        return self.random.randrange(count)

    def one_of(self, things):
        return things[self.below(len(things))]

    def say(self, line):
        self.lines.append(line)
        return answer(self.sheet, len(self.lines), line.encode())

    # Words.

    def coordinate(self):
        return self.one_of(["-0", "0", "1", "2", "3", "-1", "-4", "7.5", "0.25", "1e2", "-.5"])

    def vertices(self, count):
        return [f"{self.coordinate()},{self.coordinate()}" for _ in range(count)]

    def at(self, vertex):
        """A vertex at the same place: a zero may have the other sign."""
        return ",".join(self.one_of(["0", "-0"]) if c == 0 else shown(c) for c in vertex)

    def closed(self, count):
        run = self.vertices(count - 1)
        return " ".join(run + [self.at(vertex(run[0]))])

    def between(self, first, second, count):
        return " ".join([self.at(first.run()[0])] + self.vertices(count - 2) + [self.at(second.run()[0])])

    # Edits that are taken where there is room.

    def island(self, count=None):
        return f"island {self.below(len(self.sheet.polygons))} {self.closed(count or 4 + self.below(4))}"

    def split(self):
        long = [k for k, a in enumerate(self.sheet.arcs) if len(a.run) > 2]
        if not long:
            return self.island()
        arc = self.one_of(long)
        return f"split {arc} {1 + self.below(len(self.sheet.arcs[arc].run) - 2)}"

    def divide(self, count=None):
        sides = self.sheet.sides()
        if not sides:
            return self.island(count and max(count, 4))
        first = self.one_of(sides)
        second = first if self.below(4) == 0 else self.one_of(first.ring())
        run = self.between(first, second, count or 2 + self.below(4))
        return f"divide {sides.index(first)} {sides.index(second)} {self.one_of('+-')} {run}"

    def lifts(self):
        alone = [a for a in self.sheet.arcs if a.along.next is a.along and a.against.next is a.against]
        return [f"lift {self.sheet.arcs.index(a)}" for a in alone]

    def joins(self):
        ends = [(k, self.sheet.beginning_at(n)) for k, n in enumerate(self.sheet.nodes)]
        return [f"join {k}" for k, e in ends if len(e) == 2 and e[0].arc is not e[1].arc]

    def dissolves(self):
        apart = [a for a in self.sheet.arcs if a.against not in a.along.ring()]
        joined = [a for a in apart if a.along.next is not a.along or a.against.next is not a.against]
        return [f"dissolve {self.sheet.arcs.index(a)}" for a in joined]

    def more(self):
        return self.one_of([self.island, self.split, self.split, self.divide, self.divide])()

    def fewer(self):
        kinds = [k for k in (self.lifts(), self.joins(), self.dissolves()) if k]
        return self.one_of(self.one_of(kinds)) if kinds else self.island()

    # Calls that are mostly refused.

    def wrong(self):
        arcs, nodes = len(self.sheet.arcs), len(self.sheet.nodes)
        arc = self.below(arcs + 1)
        run = self.one_of([self.vertices(self.below(4)), ["nan,0", "0,0"], ["0,0", "1,1", "0,-inf", "0,0"]])
        vertices = len(self.sheet.arcs[arc].run) if arc < arcs else 3
        sides = self.one_of([f"{self.below(2 * arcs + 1)} {self.below(2 * arcs + 1)}", f"{2 * arc + 1} {2 * arc}"])
        kind = self.below(10)
        if kind == 0:
            return f"island {self.below(len(self.sheet.polygons) + 1)} {' '.join(run)}"
        if kind == 1:
            return f"split {arc} {self.one_of([0, vertices - 1, vertices, 2**64 - 1])}"
        if kind < 4:
            return f"divide {sides} {self.one_of('+-')} {' '.join(run)}"
        if kind < 6 and arcs:
            return self.divide_wrongly(run)
        alone = [line.replace("lift", "dissolve") for line in self.lifts()]
        within = [f"dissolve {k}" for k, a in enumerate(self.sheet.arcs) if a.against in a.along.ring()]
        return self.one_of([f"lift {arc}", f"join {self.below(nodes + 1)}", f"dissolve {arc}"] + alone[-1:] + within[-1:])

    def divide_wrongly(self, run):
        """Two sides of one ring, and a run that is not fit or lies elsewhere."""
        sides = self.sheet.sides()
        first = self.one_of(sides)
        second = self.one_of(first.ring())
        there = self.between(first, second, 2).split()
        wrongs = [there[:1] + ["0.125,0"], ["0,0.125"] + there[1:], there[::-1], there[:1], [there[0], "0,inf", there[1]]]
        run = self.one_of([run] + wrongs)
        return f"divide {sides.index(first)} {sides.index(second)} {self.one_of('+-')} {' '.join(run)}"

    def asked(self):
        sheet = self.sheet
        arc = self.below(len(sheet.arcs) + 1)
        vertices = len(sheet.arcs[arc].run) if arc < len(sheet.arcs) else 0
        side = self.below(2 * len(sheet.arcs) + 1)
        ring = self.below(len(sheet.rings()) + 1)
        return self.one_of(
            [f"side {side}", f"side {side}", f"ring {ring}", f"arc {arc}", f"vertex {arc} {self.below(vertices + 1)}", "counts"]
        )

    def all_asked(self):
        """Everything that can be told of the sheet."""
        sheet = self.sheet
        self.say("list")
        for kind, things in [("ring", sheet.rings()), ("side", sheet.sides()), ("arc", sheet.arcs)]:
            for k in range(len(things)):
                self.say(f"{kind} {k}")
        for k, arc in enumerate(sheet.arcs):
            for v in range(len(arc.run)):
                self.say(f"vertex {k} {v}")

    def some(self, count):
        for _ in range(count):
            if self.below(2 * self.most) == 0:
                self.wanted = self.below(self.most + 1)
            kind = self.below(10)
            if kind < 5:
                said = self.say(self.more() if len(self.sheet.arcs) < self.wanted else self.fewer())
                if said == "ok\n" and self.below(max(4, self.most // 4)) == 0:
                    self.say("list")
            elif kind < 6:
                self.say(self.more())
            elif kind < 8:
                self.say(self.wrong())
            else:
                self.say(self.asked())

    def full(self, last):
        """The last vertex of the table is taken by an edit of the named kind, where one more would not fit."""
        sheet = self.sheet
        while not self.joins() if last == "join" else len(sheet.arcs) == sheet.room:
            self.say(self.fewer() if len(sheet.arcs) == sheet.room else self.split())
        if last == "join":
            line = self.one_of(self.joins())
            ends = sheet.beginning_at(sheet.nodes[int(line.split()[1])])
            sheet.vertices = sheet.used + sum(len(s.arc.run) for s in ends) - 1
        elif last == "split":
            line = self.split()
            sheet.vertices = sheet.used + 1
        else:
            count = 5 + self.below(4)
            sheet.vertices = sheet.used + count
            form = self.island if last == "island" else self.divide
            assert self.say(form(count + 1)) == "refused 22\n"
            line = form(count)
        assert self.say(line) == "ok\n" and sheet.used == sheet.vertices

    def journal(self, count, last):
        self.some(count)
        self.all_asked()
        self.full(last)
        self.some(count // 8)
        self.all_asked()
        return self.lines


TRIANGLE = "0,0 0,1 1,1 0,0"

# the edit that takes the last vertex, seed, sides, arcs that are wanted at most, calls
MIXED = {
    "mixed1": ("island", 1, 12, 6, 500),
    "mixed2": ("split", 2, 16, 8, 500),
    "mixed3": ("join", 3, 9, 4, 500),
    "mixed4": ("divide", 4, 32, 16, 600),
    "mixed5": ("join", 5, 120, 60, 800),
}

# Journals that were worked out by hand, each line with its answer.
BY_HAND = {
    # A square, parted at two corners and along its diagonal; then one half of its boundary goes.
    "square": """
        island 0 0,0 0,10 10,10 10,0 0,0
            ok
        list
            arcs 1 nodes 1 polygons 2 rings 2
            1: 0+
            0: 0-
        dissolve 0
            refused 30
        join 0
            refused 26
        split 0 0
            refused 25
        split 0 4
            refused 25
        split 0 2
            ok
        list
            arcs 2 nodes 2 polygons 2 rings 2
            1: 0+ 1+
            0: 0- 1-
        lift 0
            refused 23
        divide 0 2 + 0,0 10,10
            ok
        list
            arcs 3 nodes 2 polygons 3 rings 3
            1: 0+ 2-
            0: 0- 1-
            2: 1+ 2+
        dissolve 0
            ok
        list
            arcs 2 nodes 2 polygons 2 rings 2
            1: 0+ 1+
            0: 0- 1-
    """,
    # A loop within a square, at its corner. One half of the loop goes, the other dangles with a dead end at its last vertex; it is split, joined, and closed again from its end; then the other half goes, and it dangles with a dead end at its first vertex.
    "dangling": """
        island 0 0,0 0,4 4,4 4,0 0,0
            ok
        divide 0 0 - 0,0 2,1 1,2 0,0
            ok
        list
            arcs 2 nodes 1 polygons 3 rings 3
            1: 0+ 1+
            0: 0-
            2: 1-
        join 0
            refused 26
        lift 1
            refused 23
        split 1 2
            ok
        list
            arcs 3 nodes 2 polygons 3 rings 3
            1: 0+ 1+ 2+
            0: 0-
            2: 1- 2-
        dissolve 2
            ok
        list
            arcs 2 nodes 2 polygons 2 rings 2
            1: 0+ 1+ 1-
            0: 0-
        side 2
            polygon 1 next 3 node 0
        side 3
            polygon 1 next 0 node 1
        dissolve 1
            refused 29
        join 0
            refused 26
        join 1
            refused 26
        split 1 1
            ok
        list
            arcs 3 nodes 3 polygons 2 rings 2
            1: 0+ 1+ 2+ 2- 1-
            0: 0-
        side 3
            polygon 1 next 0 node 2
        side 4
            polygon 1 next 5 node 2
        side 5
            polygon 1 next 3 node 1
        dissolve 2
            refused 29
        dissolve 1
            refused 29
        join 2
            ok
        list
            arcs 2 nodes 2 polygons 2 rings 2
            1: 0+ 1+ 1-
            0: 0-
        divide 1 2 + 0,0 0,0
            refused 27
        divide 3 0 + 1,2 1,0 0,0
            ok
        list
            arcs 3 nodes 2 polygons 3 rings 3
            2: 0+ 1+ 2+
            0: 0-
            1: 1- 2-
        dissolve 1
            ok
        list
            arcs 2 nodes 2 polygons 2 rings 2
            1: 0+ 1- 1+
            0: 0-
        split 1 1
            ok
        list
            arcs 3 nodes 3 polygons 2 rings 2
            1: 0+ 2- 1- 1+ 2+
            0: 0-
        side 3
            polygon 1 next 2 node 2
        join 2
            ok
        list
            arcs 2 nodes 2 polygons 2 rings 2
            1: 0+ 1- 1+
            0: 0-
        dissolve 0
            ok
        list
            arcs 1 nodes 2 polygons 1 rings 1
            0: 0+ 0-
        dissolve 0
            refused 29
        lift 0
            refused 23
        join 1
            refused 26
        counts
            arcs 1 nodes 2 polygons 1 rings 1
    """,
    # Joins of two arcs that both end at a node, and of two that both begin there: the higher one is run backwards. At the node the lower arc's own zeros stay.
    "backwards": """
        island 0 0,0 0,4 4,4 4,0 0,0
            ok
        split 0 2
            ok
        divide 2 0 + 4,4 -0,0
            ok
        list
            arcs 3 nodes 2 polygons 3 rings 3
            2: 0+ 2+
            0: 0- 1-
            1: 1+ 2-
        dissolve 0
            ok
        list
            arcs 2 nodes 2 polygons 2 rings 2
            0: 0+ 1-
            1: 0- 1+
        side 0
            polygon 0 next 3 node 1
        side 2
            polygon 1 next 1 node 1
        join 0
            ok
        list
            arcs 1 nodes 1 polygons 2 rings 2
            0: 0+
            1: 0-
        arc 0
            vertices 4
        vertex 0 0
            4 4
        vertex 0 1
            -0 0
        vertex 0 2
            4 0
        vertex 0 3
            4 4
        split 0 1
            ok
        divide 0 2 - 4,4 2,0 0,-0
            ok
        list
            arcs 3 nodes 2 polygons 3 rings 3
            2: 0+ 2-
            1: 0- 1-
            0: 1+ 2+
        dissolve 1
            ok
        list
            arcs 2 nodes 2 polygons 2 rings 2
            1: 0+ 1-
            0: 0- 1+
        join 0
            ok
        list
            arcs 1 nodes 1 polygons 2 rings 2
            1: 0+
            0: 0-
        vertex 0 0
            0 -0
        vertex 0 1
            2 0
        vertex 0 2
            4 4
        vertex 0 3
            -0 0
        vertex 0 4
            refused 20
        lift 0
            ok
        list
            arcs 0 nodes 0 polygons 1 rings 0
    """,
}


def calls_by_hand(name):
    return [l[8:] for l in BY_HAND[name].split("\n") if l.strip() and not l.startswith(" " * 12)]


def answers_by_hand(name):
    return "".join(l[12:] + "\n" for l in BY_HAND[name].split("\n") if l.startswith(" " * 12))


# tables that an edit just fits: each edit takes the last arc or the last vertex of one of the cases
ROOM = [
    "island 0 0,0 0,2 2,2 0,0",
    "split 0 1",
    "divide 0 2 + 0,0 0,2",
    "divide 1 1 - 0,2 -1,0 -1,3 -0,2",
    "island 2 5,5 5,6 6,6 5,5",
    "list",
    "dissolve 0",
    "list",
    "join 0",
    "split 2 2",
    "join 2",
    "split 1 1",
    "list",
]

JOURNALS = {
    # a blank map, and questions to it
    "blank": ["list", "counts", "ring 0", "side 0", "arc 0", "vertex 0 0", "lift 0"],
    # two triangles: sides and vertices of exactly two, and of less
    "two": [f"island 0 {TRIANGLE}", f"island 1 {TRIANGLE}", "list", f"island 0 {TRIANGLE}"],
    # vertices that a lifted arc leaves are not given back
    "spent": [f"island 0 {TRIANGLE}", "lift 0", f"island 0 {TRIANGLE}", "lift 0", f"island 0 {TRIANGLE}", "list"],
    # 20 before 21 before 22
    "order": [
        f"island 1 0,0 nan,1 1,1 0,0",
        f"island 18446744073709551615 {TRIANGLE}",
        "island 0",
        "island 0 0,0 0,1 0,0",
        "island 0 0,0 0,1 1,1 1,0",
        "island 0 0,0 0,1 1,1 0,1",
        "island 0 0,0 0,inf 1,1 0,0",
        "island 0 0,0 0,1 nan,1 0,0",
        "island 0 nan,0 0,1 1,1 nan,0",
        "island 0 -infinity,0 0,1 1,1 -infinity,0",
        f"island 0 {TRIANGLE}",
        "list",
    ],
    # doubles: signs of zero, the largest and the smallest, many digits, other ways to write them
    "doubles": [
        "island 0 -0,0 1,0 1,1 0.0,-0.0",
        "vertex 0 0",
        "vertex 0 3",
        "island 0 1e308,5e-324 1.7976931348623157e308,-2.2250738585072014e-308 0.1,0.30000000000000004 1e308,5e-324",
        "vertex 1 0",
        "vertex 1 1",
        "vertex 1 2",
        "island 0 1.,+.5 1E3,1e-3 123456789.125,9007199254740993 1,0.50",
        "vertex 2 0",
        "vertex 2 1",
        "vertex 2 2",
        "vertex 2 3",
        "island 0 1e400,0 0,1 1,1 1e400,0",
        "vertex 2 4",
    ],
    "nested": nested(4) + ["list"] + [f"{q} {k}" for q in ("ring", "side") for k in range(9)] + ["lift 4", "lift 1", "list", "lift 18446744073709551615"],
    "orders": every_order(4),
    "beside": [f"island 0 {square(0, 0, 10)}", f"island 1 {square(1, 1, 2)}", f"island 1 {square(4, 4, 2)}", f"island 2 {square(1.25, 1.25, 0.5)}", f"island 0 {square(20, 0, 10)}", "list", "lift 0", "list", "lift 0", "list", "lift 1", "list"],
    "random1": any_calls(1, 300),
    "random2": any_calls(2, 300),
    # lines that are no calls; the program stops at the first, the vectors go on
    "unfit": [
        "", "   ", "# a remark", "  # one more", "#", "Counts", "counts 1", "list list", "islands", "island", "island -1", "island x",
        "island 18446744073709551616 0,0", "island 0 0,0 0;1", "island 0 0,0,0", "island 0 ,", "island 0 1,", "island 0 1,x", "island 0 0x1,2",
        "lift", "lift 1 2", "lift -1", "lift 1.0", "ring", "ring ring", "side", "side 0 0", "arc", "arc 1 1", "vertex", "vertex 0", "vertex 0 0 0",
        "vertex 0 18446744073709551616", "counts\t", "\tcounts", "ring  0 ", "  counts  ", "ring +0", "merge 0 1", "r\u00edng 0", "list \r", "ring 0\r\r",
    ],
    "unfit_edits": [
        "split", "split 0", "split a b", "split 0 1 2", "split 0 -1", "split 0,1", "join", "join x", "join 0 0", "join 18446744073709551616",
        "dissolve", "dissolve 0 0", "dissolve +", "divide", "divide 0", "divide 0 0", "divide 0 0 *", "divide 0 0 * 1,2", "divide 0 0 1,2", "divide 0 + 1,2 1,2",
        "divide + 0 0 1,2 1,2", "divide 0 0 ++ 1,2", "divide 0 0 +1,2 1,2", "divide 0 0 + 1;2 1,2", "divide 0 0 - 1,2 1,", "divide a 0 - 1,2 1,2", "divide 0 18446744073709551616 - 1,2 1,2", "divide 0 0 - 1,2 -",
        "Split 0 1", "divides 0 0 + 1,2 1,2", "split 18446744073709551615 18446744073709551615", "join 18446744073709551615", "dissolve +0",
        "divide 18446744073709551615 18446744073709551615 +", "divide +0 00 - nan,inf", " divide  0  0  +  1,2  1,2 ",
    ],
    # the order in which edits are judged, with no arc and no vertex left
    "judged": [f"island 0 {TRIANGLE}", "split 0 1", f"island 0 {TRIANGLE}", "list"]
    + ["split 3 0", "split 0 0", "split 0 1", "split 0 2", "split 1 2", f"split 1 {2**64 - 1}", "split 1 1", f"split {2**64 - 1} 1"]
    + ["join 3", "join 2", "join 1", "join 0", "lift 3", "lift 0", "lift 1", "dissolve 3", "dissolve 2"]
    + ["divide 6 0 +", "divide 0 6 - nan,0", f"divide {2**64 - 1} 0 +", f"divide 0 {2**64 - 1} - 0,0 0,0"]
    + ["divide 0 1 +", "divide 0 1 - inf,0 0,0", "divide 0 4 + 9,9 9,9", "divide 4 5 - 0,0 0,0", "divide 5 4 + 0,0 0,0"]
    + ["divide 0 2 +", "divide 0 2 - 0,0", "divide 0 2 + 9,9 nan,1", "divide 0 2 + 0,0 0,-inf 0,1", "divide 0 2 + inf,0 0,1", "divide 0 0 + 0,0"]
    + ["divide 0 2 + 9,9 0,1", "divide 0 2 + 0,0 9,9", "divide 0 2 + 0,1 0,0", "divide 2 0 - 0,0 0,1", "divide 0 0 + 0,0 0,1", "divide 5 5 - 0,1 0,0", "divide 3 1 + 0,1 0,0"]
    + ["divide 0 2 + 0,0 0,1", "divide 0 2 - -0,0 -0,1", "divide 0 0 - 0,-0 0,0", "divide 5 5 + 0,0 0,0", f"island 3 {TRIANGLE}", "island 2 0,0", f"island 2 {TRIANGLE}"]
    + ["list"] + [f"side {k}" for k in range(7)],
    "room": ROOM,
    # joined runs count whole, up to the most vertices of a map
    "spent_by_joins": ["island 0 " + " ".join(f"{k % 7},{k % 5}" for k in range(1999)) + " 0,0"]
    + 523 * ["split 0 1", "join 1"]
    + ["split 0 1", "island 0 " + " ".join(f"0,{k}" for k in range(52)) + " 0,0", "island 0 " + " ".join(f"0,{k}" for k in range(51)) + " 0,0"]
    + [f"island 0 {TRIANGLE}", "split 1 1", "join 1", "divide 0 0 + 0,0 0,0", "arc 1", "vertex 1 1998", "vertex 1 1999", "list"],
    "long": ["island 0 " + " ".join(f"{k},{k % 7}" for k in range(2000)) + " 0,0", "arc 0", "vertex 0 1999", "vertex 0 2000", "vertex 0 2001"],
}

CASES = [
    ("blank", {}),
    ("blank", {"hand": "left", "sides": 0, "vertices": 0}),
    ("blank", {"hand": "right", "sides": 1, "vertices": 1}),
    ("two", {}),
    ("two", {"sides": 0}),
    ("two", {"sides": 1}),
    ("two", {"sides": 2}),
    ("two", {"sides": 3}),
    ("two", {"sides": 4}),
    ("two", {"sides": 5}),
    ("two", {"vertices": 0}),
    ("two", {"vertices": 1}),
    ("two", {"vertices": 3}),
    ("two", {"vertices": 4}),
    ("two", {"vertices": 7}),
    ("two", {"vertices": 8, "hand": "left"}),
    ("two", {"sides": 4, "vertices": 8}),
    ("spent", {"vertices": 12}),
    ("spent", {"vertices": 8}),
    ("spent", {"sides": 2, "vertices": 12, "hand": "left"}),
    ("order", {"sides": 0, "vertices": 0}),
    ("order", {"vertices": 3}),
    ("order", {}),
    ("doubles", {}),
    ("nested", {}),
    ("nested", {"hand": "left"}),
    ("nested", {"sides": 8, "vertices": 20}),
    ("nested", {"sides": 7}),
    ("nested", {"vertices": 19}),
    ("orders", {}),
    ("beside", {}),
    ("random1", {}),
    ("random2", {"hand": "left", "sides": 40, "vertices": 400}),
    ("unfit", {}),
    ("ends", {}),
    ("long", {}),
    ("long", {"vertices": 2000}),
    ("square", {}),
    ("square", {"sides": 6, "vertices": 8}),
    ("square", {"hand": "left", "sides": 5, "vertices": 8}),
    ("square", {"hand": "left", "sides": 6, "vertices": 7}),
    ("dangling", {}),
    ("dangling", {"hand": "left", "sides": 6, "vertices": 20}),
    ("backwards", {}),
    ("backwards", {"hand": "left", "sides": 6, "vertices": 21}),
    ("backwards", {"sides": 6, "vertices": 12}),
    ("backwards", {"sides": 6, "vertices": 8}),
    ("judged", {"sides": 6, "vertices": 9}),
    ("judged", {"hand": "left", "sides": 7}),
    ("judged", {"vertices": 9}),
    ("judged", {}),
    ("unfit_edits", {}),
    ("spent_by_joins", {}),
    ("spent_by_joins", {"hand": "left", "vertices": 2000000}),
    ("spent_by_joins", {"vertices": 1048575}),
]
CASES += [("room", {"sides": s, "vertices": 25}) for s in range(1, 11)]
CASES += [("room", {"hand": "left", "vertices": v}) for v in range(3, 26)]

# What the runs must meet five times and more. 24 is none of it: begun from a blank map, polygon 0 hangs together with every piece, so that a lift that would leave a polygon without a ring leaves polygon 0.
WANTED = [
    *[("island", "refused", n) for n in (20, 21, 22)],
    *[("lift", "refused", n) for n in (20, 23)],
    *[("split", "refused", n) for n in (20, 25, 22)],
    *[("join", "refused", n) for n in (20, 26, 22)],
    *[("divide", "refused", n) for n in (20, 27, 21, 28, 22)],
    *[("dissolve", "refused", n) for n in (20, 29, 30)],
    *[(verb, "takes the last arc") for verb in ("island", "split", "divide")],
    *[(verb, "takes the last vertex") for verb in ("island", "split", "join", "divide")],
    *[("join where the lower arc", e, f"the other {d}") for e in ("ends", "begins") for d in ("forwards", "backwards")],
    "join to a closed arc",
    "join with a dead end",
    "join of zeros of two signs",
    *[("split at a dead end", f"of the {v} vertex") for v in ("first", "last")],
    "split of a closed arc",
    *[("division at", s, "named", n) for s in ("one side", "two sides") for n in "+-"],
    "division at two sides, one after the other",
    *[("dissolve,", s, "alone") for s in ("along", "against", "no side")],
    "a gap is filled",
    "the last goes",
]

# line ends of both kinds, a line that is no text, and no end after the last
ENDS = b"island 0 0,0 0,1 1,1 0,0\r\nlist\r\n\r\n# remark\r\ncounts\nring 0\r\n\xff\xfe\nring \xc3\n\ncounts"


def write(path, data):
    os.makedirs(os.path.dirname(path), exist_ok=True)
    with open(path, "wb") as f:
        f.write(data)


def written(lines):
    return ("\n".join(lines) + "\n").encode()


def all_journals():
    """The journals by name, and the runs."""
    journals = {name: written(lines) for name, lines in JOURNALS.items()}
    journals["ends"] = ENDS
    cases = list(CASES)
    for name in BY_HAND:
        journals[name] = written(calls_by_hand(name))
        assert played(journals[name]) == answers_by_hand(name)
    hands = itertools.cycle(["right", "left"])
    for name, (last, seed, sides, most, count) in MIXED.items():
        mixed = Mixed(seed, sides, most)
        journals[name] = written(mixed.journal(count, last))
        vertices = mixed.sheet.vertices
        said = played(journals[name], sides, vertices)
        assert all(said.count(f"refused {n}\n") > 2 for n in (20, 21, 22, 23, 25, 26, 27, 28, 29, 30))
        cases.append((name, {"hand": next(hands), "sides": sides, "vertices": vertices}))
        cases.append((name, {"hand": next(hands), "sides": sides - 1, "vertices": vertices - 1}))
    return journals, cases


def main():
    example = open("crates/sheet_journal/data/example.journal", "rb").read()
    write("crates/sheet_journal/stdin", example)
    write("crates/sheet_journal/stdout", played(example).encode())
    journals, runs = all_journals()
    for name, journal in journals.items():
        write(f"crates/journal_vectors/data/{name}.journal", journal)
    MET.clear()
    cases, output = "", ""
    for name, options in runs:
        words = [f"{name}.journal"] + [w for k, v in options.items() for w in (f"--{k}", str(v))]
        cases += " ".join(words) + "\n"
        room = {k: v for k, v in options.items() if k != "hand"}
        output += f"> {' '.join(words)}\n" + played(journals[name], **room)
    rare = [w for w in WANTED if MET[w] < 5]
    assert rare == [], rare
    write("crates/journal_vectors/data/cases", cases.encode())
    write("crates/journal_vectors/stdout", output.encode())


main()
