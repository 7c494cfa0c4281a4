#!/usr/bin/env python3
"""Writes graphs and answers that a checker must accept: python3 tools/checked_answers.py FOLDER NAME ..

| NAME | what | accepted |
|---|---|---|
| k6 | six rows over K5 and one leaf | 3 3 |
| petersen | ten rows over the graph without one node, and one leaf | 2 2 |
| searched | K6 by a plain search with no linear program: some 4,300 nodes, and 250 rows, most with planted crossings, of which the last serve no leaf | 3 3 |
| k34 | K3,4 by the same search: some 600 nodes | 2 2 |
| large | K6 with 1,000 rows and 100,000 leaves of 10 parts: some 20 MB | 3 3 |

Drawings come from straight lines between whole points: crossings, orders and turns are read off exactly. Evidence is found by routing
paths at random. Each pair is then checked by tools/plain_check.py, of the large one each 97th leaf; nothing comes from the program.
"""
import functools
import pathlib
import random
import sys
from fractions import Fraction

import plain_check
from plain_rules import FIVE, THREE, State, crossings, independent, independent_pairs, read_gml, web

K6 = (6, [(u, v) for u in range(6) for v in range(u + 1, 6)])
K34 = (7, [(u, v) for u in range(3) for v in range(3, 7)])
PETERSEN = (
    10,
    [(i, (i + 1) % 5) for i in range(5)] + [(i, i + 5) for i in range(5)] + [(5 + i, 5 + (i + 2) % 5) for i in range(5)],
)


# --- drawings by straight lines ---


def turn(a, b, c):
    return (b[0] - a[0]) * (c[1] - a[1]) - (b[1] - a[1]) * (c[0] - a[0])


def crosses(points, e, f):
    (a, b), (c, d) = ((points[u], points[v]) for u, v in (e, f))
    return turn(a, b, c) * turn(a, b, d) < 0 and turn(c, d, a) * turn(c, d, b) < 0


def is_general(points):
    """No three points on a line."""
    n = len(points)
    return all(turn(points[a], points[b], points[c]) != 0 for a in range(n) for b in range(a) for c in range(b))


def count_crossings(points, edges, pairs):
    return sum(crosses(points, edges[e], edges[f]) for e, f in pairs)


def place_points(graph, wanted, generator):
    """Points with so many crossings: one is moved at a time, and a move that adds none is kept."""
    nodes, edges = graph
    pairs = independent_pairs(edges)

    def anywhere():
        return generator.randrange(200), generator.randrange(200)

    while True:
        points = [anywhere() for _ in range(nodes)]
        most = count_crossings(points, edges, pairs)
        for _ in range(2000):
            moved = points[:]
            moved[generator.randrange(nodes)] = anywhere()
            count = count_crossings(moved, edges, pairs)
            if count <= most and is_general(moved):
                points, most = moved, count
                if most == wanted:
                    return points


def place_along(points, e, f):
    """Where f crosses e, as a part of e."""
    (a, b), (c, d) = ((points[u], points[v]) for u, v in (e, f))
    return Fraction(turn(c, d, a), turn(c, d, a) - turn(c, d, b))


def by_angle(first, second):
    """Compares two directions, counterclockwise from the right."""

    def lower(x):
        return x[1] < 0 or (x[1] == 0 and x[0] < 0)

    if lower(first[0]) != lower(second[0]):
        return 1 if lower(first[0]) else -1
    side = first[0][0] * second[0][1] - first[0][1] * second[0][0]
    return -1 if side > 0 else 1


def straight_drawing(graph, points):
    """Orders and turns of the drawing by straight lines."""
    nodes, edges = graph
    numbers = range(len(edges))
    orders = {}
    for e in numbers:
        crossers = [f for f in numbers if independent(edges, e, f) and crosses(points, edges[e], edges[f])]
        met = [(place_along(points, edges[e], edges[f]), f) for f in crossers]
        assert len({place for place, _ in met}) == len(met)
        orders[e] = [f for _, f in sorted(met)]
    all_nodes, segments, starts = web(nodes, edges, list(numbers), orders)
    around = [[] for _ in range(all_nodes)]
    for e in numbers:
        (ax, ay), (bx, by) = points[edges[e][0]], points[edges[e][1]]
        for s in range(starts[e], starts[e] + len(orders[e]) + 1):
            around[segments[s][0]].append(((bx - ax, by - ay), 2 * s))
            around[segments[s][1]].append(((ax - bx, ay - by), 2 * s + 1))
    turns = [0] * (2 * len(segments))
    for darts in around:
        ring = [d for _, d in sorted(darts, key=functools.cmp_to_key(by_angle))]
        for d, e in zip(ring, ring[1:] + ring[:1]):
            turns[d] = e
    return [orders[e] for e in numbers], turns


# --- rows ---


def route(near, goal, start, blocked, generator):
    """A shortest way between two nodes past those that are blocked, as nodes; ties by chance."""
    back, ways = {start: None}, [start]
    for v in ways:
        following = near[v][:]
        generator.shuffle(following)
        for w in following:
            if w == goal:
                way = [w]
                while v is not None:
                    way.append(v)
                    v = back[v]
                return way[::-1]
            if w not in back and w not in blocked:
                back[w] = v
                ways.append(w)
    return None


def try_evidence(nodes, segments, generator):
    """A try at five nodes or three against three: the kind, the branch nodes, the paths as nodes; or None."""
    near = [[] for _ in range(nodes)]
    for u, v in segments:
        near[u].append(v)
        near[v].append(u)
    kind, ways, size, least = generator.choice([("five", FIVE, 5, 4), ("three", THREE, 6, 3)])
    able = [v for v in range(nodes) if len(near[v]) >= least]
    if len(able) < size:
        return None
    branch = generator.sample(able, size)
    blocked, paths = set(branch), {}
    for a, b in generator.sample(ways, len(ways)):
        way = route(near, branch[b], branch[a], blocked, generator)
        if way is None:
            return None
        # a segment between two branch nodes serves one path
        if len(way) == 2 and sorted(way) in (sorted(p) for p in paths.values()):
            return None
        blocked |= set(way)
        paths[a, b] = way
    return kind, branch, [paths[pair] for pair in ways]


def labels(nodes, listed, orders):
    """What each node of the web stands for: a node of the graph or a pair of edges."""
    return list(range(nodes)) + crossings(listed, orders)


def row_of(graph, orders, found):
    """The row over the whole edges that the evidence uses, in the numbers of its own web."""
    nodes, edges = graph
    numbers = list(range(len(edges)))
    kind, branch, paths = found
    names = labels(nodes, numbers, orders)
    _, segments, starts = web(nodes, edges, numbers, orders)
    owner = {}
    for e in numbers:
        for s in range(starts[e], starts[e] + len(orders[e]) + 1):
            owner[frozenset(segments[s])] = e
    listed = sorted({owner[frozenset(step)] for path in paths for step in zip(path, path[1:])})
    own = {e: [f for f in orders[e] if f in listed] for e in listed}
    own_names = {name: v for v, name in enumerate(labels(nodes, listed, own))}
    _, own_segments, _ = web(nodes, edges, listed, own)
    number = {frozenset(segment): s for s, segment in enumerate(own_segments)}
    own_paths = []
    for path in paths:
        way = [own_names[names[v]] for v in path if names[v] in own_names]
        own_paths.append([number[frozenset(step)] for step in zip(way, way[1:])])
    return listed, [own[e] for e in listed], kind, [own_names[names[b]] for b in branch], own_paths


def some_row(graph, orders, generator):
    """A row that holds, with crossings as the orders have."""
    nodes, edges = graph
    all_nodes, segments, _ = web(nodes, edges, list(range(len(edges))), orders)
    while True:
        found = try_evidence(all_nodes, segments, generator)
        if found:
            return row_of(graph, orders, found)


def row_without(graph, node, kind, generator):
    """The row over all edges that don't meet the node, with no crossing."""
    nodes, edges = graph
    kept = [e for e in range(len(edges)) if node not in edges[e]]
    segments = [edges[e] for e in kept]
    while True:
        found = try_evidence(nodes, segments, generator)
        if found and found[0] == kind:
            break
    number = {frozenset(segment): s for s, segment in enumerate(segments)}
    paths = [[number[frozenset(step)] for step in zip(path, path[1:])] for path in found[2]]
    return kept, [[] for _ in kept], kind, found[1], paths


# --- trees ---


def open_pairs(row, edges, decided):
    """The undecided pairs of a row, or None where a decided one makes it hold."""
    planted = set(crossings(row[0], dict(zip(row[0], row[1]))))
    left = []
    for i, e in enumerate(row[0]):
        for f in row[0][i + 1 :]:
            if not independent(edges, e, f):
                continue
            value = decided.get((e, f))
            if value is None:
                left.append((e, f))
            elif value != ((e, f) in planted):
                return None
    return left if planted <= decided.keys() else None


def unplaced(row, placed):
    """A place that the row waits for: None where there is none, False where the row is satisfied."""
    for e, own in zip(row[0], row[1]):
        for f, g in zip(own, own[1:]):
            there = placed.get(e, [])
            for x in (f, g):
                if x not in there:
                    return e, x
            if there.index(f) > there.index(g):
                return False
    return None


def planted_orders(edges, state):
    """Orders whose crossings are the pairs decided 1: first what is placed, then the others."""
    orders = {}
    for e in range(len(edges)):
        own = state.placed.get(e, [])
        others = sorted(a + b - e for (a, b), x in state.decided.items() if x and e in (a, b) and a + b - e not in own)
        orders[e] = own + others
    return orders


def node_of(graph, state, goal, rows, generator, tries):
    """The next node of a plain search in a state; a new row may be added."""
    edges = graph[1]
    if sum(state.decided.values()) >= goal:
        return "leaf", []
    orders = planted_orders(edges, state)
    waiting = []
    for r, row in enumerate(rows):
        left = open_pairs(row, edges, state.decided)
        if left is not None and all(orders[e] == own or not own for e, own in zip(row[0], row[1])):
            waiting.append((len(left), r, left))
    if not waiting or generator.randrange(5) == 0:
        fresh = [some_row(graph, orders, generator) for _ in range(tries)]
        row = min(fresh, key=lambda row: len(open_pairs(row, edges, state.decided)))
        left = open_pairs(row, edges, state.decided)
        if not waiting or len(left) <= min(waiting)[0]:
            waiting.append((len(left), len(rows), left))
            rows.append(row)
    _, r, left = min(waiting)
    if left:
        return "pair", *left[0]
    place = unplaced(rows[r], state.placed)
    if place:
        return "place", *place
    assert place is None
    return "leaf", [(r, goal)]


def search(graph, goal, generator, tries):
    """A proof tree for the goal by a plain search, as lines, and its rows."""
    rows, lines, pending = [], [], [State({}, {})]
    while pending:
        state = pending.pop()
        kind, *rest = node_of(graph, state, goal, rows, generator, tries)
        if kind == "leaf":
            lines.append(leaf_line(1, rest[0]))
        else:
            lines.append(f"{kind} {rest[0]} {rest[1]}")
            pending += reversed(state.children(graph[1], kind.encode(), *rest))
    return rows, lines


def leaf_line(divisor, parts):
    return " ".join(map(str, ["leaf", divisor, len(parts), *(x for part in parts for x in part)]))


def planted_at_random(edges, generator):
    """Orders with one to four crossings by chance, of which some share an edge."""
    pairs = independent_pairs(edges)
    first = generator.choice(pairs)
    beside = [p for p in pairs if p != first and first[0] in p]
    chosen = {first, *generator.sample(beside, generator.randrange(3)), *generator.sample(pairs, generator.randrange(2))}
    orders = {e: [a + b - e for a, b in chosen if e in (a, b)] for e in range(len(edges))}
    for own in orders.values():
        own.sort()
        generator.shuffle(own)
    return orders


def large_rows(graph, count, generator):
    """Rows with planted crossings, and copies of the six rows over K5 with other evidence; their numbers apart."""
    rows, fives, others = [], [[] for _ in range(6)], []
    for r in range(count):
        if r % 5 < 2:
            node = (r // 5 * 2 + r % 5) % 6
            rows.append(row_without(graph, node, "five", generator))
            fives[node].append(r)
        else:
            rows.append(some_row(graph, planted_at_random(graph[1], generator), generator))
            others.append(r)
    return rows, fives, others


def large_leaf(fives, others, generator):
    """The six rows over K5 with nearly equal multipliers prove 3; four more rows take little away."""
    about = 10**15
    parts = [(generator.choice(own), about - generator.randrange(about // 100)) for own in fives]
    parts += [(r, generator.randrange(1, about // 1000)) for r in generator.sample(others, 4)]
    return leaf_line(2 * about + generator.randrange(about // 100), sorted(parts))


def large_tree(graph, leaves, leaf, generator):
    """A tree with so many leaves, over pairs and places by chance, as lines."""
    edges = graph[1]
    pairs = independent_pairs(edges)
    lines, pending = [], [(State({}, {}), leaves)]
    while pending:
        state, count = pending.pop()
        if count == 1:
            lines.append(leaf())
            continue
        ones = [p for p, x in state.decided.items() if x]
        node = None
        if ones and generator.randrange(5) == 0:
            e, f = generator.sample(generator.choice(ones), 2)
            if f not in state.placed.get(e, []) and len(state.placed.get(e, [])) < count:
                node = "place", e, f
        while node is None:
            pair = generator.choice(pairs)
            if pair not in state.decided:
                node = "pair", *pair
        children = state.children(edges, node[0].encode(), node[1], node[2])
        lines.append("{} {} {}".format(*node))
        # each child gets one leaf, and the others are shared out
        cuts = sorted(generator.randint(int(0.3 * (count - len(children))), int(0.7 * (count - len(children)))) for _ in children[1:])
        shares = [b - a + 1 for a, b in zip([0] + cuts, cuts + [count - len(children)])]
        pending += reversed(list(zip(children, shares)))
    return lines


# --- texts ---


def gml(graph):
    nodes, edges = graph
    lines = ["graph ["] + [f"  node [ id {v} ]" for v in range(nodes)]
    return "\n".join(lines + [f"  edge [ source {u} target {v} ]" for u, v in edges] + ["]", ""])


def row_lines(row):
    listed, orders, kind, branch, paths = row
    lines = [f"row {len(listed)}"]
    lines += [" ".join(map(str, ["over", e, len(own), *own])) for e, own in zip(listed, orders)]
    lines.append(" ".join(map(str, [kind, *branch])))
    return lines + [" ".join(map(str, ["path", len(path), *path])) for path in paths]


def answer(graph, lower, points, rows, tree):
    nodes, edges = graph
    orders, turns = straight_drawing(graph, points)
    upper = sum(map(len, orders)) // 2
    lines = ["crossing-answer 1", f"graph {nodes} {len(edges)}", "loops 0"]
    lines += [f"edge {u} {v}" for u, v in edges]
    lines += [f"bounds {lower} {upper}", f"effort {min(len(tree), 200_000)} 200000"]
    lines += [" ".join(map(str, ["along", len(own), *own])) for own in orders]
    lines += [f"turn {a} {b}" for a, b in zip(turns[::2], turns[1::2])]
    lines += ["drawn", f"rows {len(rows)}"]
    lines += [line for row in rows for line in row_lines(row)]
    return "\n".join(lines + ["tree", *tree, "end", ""])


def make(name):
    """The graph, the lower bound, the number of crossings, the rows and the tree."""
    generator = random.Random(name)
    if name == "k6":
        rows = [row_without(K6, v, "five", generator) for v in range(6)]
        return K6, 3, 3, rows, [leaf_line(2, [(r, 1) for r in range(6)])]
    if name == "petersen":
        rows = [row_without(PETERSEN, v, "three", generator) for v in range(10)]
        return PETERSEN, 2, 2, rows, [leaf_line(6, [(r, 1) for r in range(10)])]
    if name == "searched":
        rows, tree = search(K6, 3, generator, 4)
        rows += [some_row(K6, planted_at_random(K6[1], generator), generator) for _ in range(250 - len(rows))]
        return K6, 3, 3, rows, tree
    if name == "k34":
        rows, tree = search(K34, 2, generator, 4)
        return K34, 2, 2, rows, tree
    rows, fives, others = large_rows(K6, 1000, generator)
    tree = large_tree(K6, 100_000, lambda: large_leaf(fives, others, generator), generator)
    return K6, 3, 3, rows, tree


def main():
    folder = pathlib.Path(sys.argv[1])
    for name in sys.argv[2:] or ["k6", "petersen", "searched", "k34", "large"]:
        graph, lower, upper, rows, tree = make(name)
        points = place_points(graph, upper, random.Random(1))
        text = answer(graph, lower, points, rows, tree)
        (folder / f"{name}.gml").write_text(gml(graph))
        (folder / f"{name}.answer").write_text(text)
        read = read_gml(gml(graph))
        found = plain_check.check(read, text.encode(), 97 if name == "large" else 1)
        assert found == (lower, upper)
        print(f"{name}: {len(rows)} rows, {len(tree)} nodes, {len(text)} bytes, accepted {found[0]} {found[1]}", flush=True)


if __name__ == "__main__":
    main()
