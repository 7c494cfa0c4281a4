#!/usr/bin/env python3
"""Draws a picture (SVG) of what `xnum draw` writes: ./xnum draw GRAPH ANSWER | tools/picture.py > picture.svg

networkx finds places for the nodes that keep the turns of the darts, so each segment is a straight line and none meets another but at a
node. Of parallel segments all but one have two bends. An edge is one line in a colour of its own; where it crosses another, a small ring
stands, at which the lines may bend, at the rim sharply. Nothing here is proved: the drawing is what `draw` wrote, and the picture is a
way to look at it. Without networkx it says so and ends with 1.
"""
import collections
import re
import sys

try:
    import networkx
except ImportError:
    sys.exit("picture.py: networkx is missing")

NODE = re.compile(r'  node \[ id (\d+) (?:label "(-?\d+)" )?kind "(?:input|crossing)" turn "([\d ]*)" \]')
SEGMENT = re.compile(r"  edge \[ id (\d+) source (\d+) target (\d+) of (\d+) \]")
WIDTH, HEIGHT, RIM = 800, 600, 30


def read(text):
    """The labels and the darts in turn of each node, and the ends and the edge of each segment."""
    nodes, segments = {}, {}
    lines = text.split("\n")
    if lines[:2] != ["graph [", "  directed 0"] or lines[-2:] != ["]", ""]:
        sys.exit("picture.py: this isn't a text that `xnum draw` writes")
    for line in lines[2:-2]:
        if found := NODE.fullmatch(line):
            nodes[int(found[1])] = (found[2], [int(dart) for dart in found[3].split()])
        elif found := SEGMENT.fullmatch(line):
            segments[int(found[1])] = (int(found[2]), int(found[3]), int(found[4]))
        else:
            sys.exit(f"picture.py: `xnum draw` writes no such line: {line}")
    return nodes, segments


def ways_of(segments):
    """The points of each segment: its two ends, and two bends where an earlier one has the same ends."""
    ways, seen = {}, set()
    for number, (source, target, _) in segments.items():
        bends = [("bend", 2 * number), ("bend", 2 * number + 1)] if frozenset((source, target)) in seen else []
        seen.add(frozenset((source, target)))
        ways[number] = [("node", source), *bends, ("node", target)]
    return ways


def places_of(nodes, ways):
    """Where each point stands, so that the turns are kept."""
    embedding = networkx.PlanarEmbedding()

    def turn(point, ring):
        embedding.add_node(point)
        for place, other in enumerate(ring):
            if place == 0:
                embedding.add_half_edge(point, other)
            else:
                embedding.add_half_edge_ccw(point, other, ring[place - 1])

    for number, (_, darts) in nodes.items():
        turn(("node", number), [ways[dart // 2][1 if dart % 2 == 0 else -2] for dart in darts])
    for way in ways.values():
        for before, point, after in zip(way, way[1:], way[2:]):
            turn(point, [before, after])
    embedding.check_structure()
    return networkx.combinatorial_embedding_to_pos(embedding)


def scaled(places):
    """The places as points of the picture, whose second coordinate grows downwards."""
    xs, ys = ([place[axis] for place in places.values()] for axis in (0, 1))
    wide, high = max(xs) - min(xs) or 1, max(ys) - min(ys) or 1
    return {
        point: (RIM + (WIDTH - 2 * RIM) * (x - min(xs)) / wide, HEIGHT - RIM - (HEIGHT - 2 * RIM) * (y - min(ys)) / high)
        for point, (x, y) in places.items()
    }


def lines_of(segments, ways, places):
    """The line of each edge, through the points of its segments in order."""
    points = collections.defaultdict(list)
    for number in sorted(segments):
        own = points[segments[number][2]]
        own += ways[number][1 if own else 0 :]
    for edge, own in points.items():
        way = " ".join("%.1f,%.1f" % places[point] for point in own)
        yield f'<polyline fill="none" stroke-width="2" stroke="hsl({edge * 137 % 360},70%,40%)" points="{way}"><title>edge {edge}</title></polyline>'


def marks_of(nodes, places):
    """A disc with its label for each node, a ring for each crossing."""
    for number, (label, _) in nodes.items():
        x, y = places["node", number]
        if label is None:
            yield f'<circle cx="{x:.1f}" cy="{y:.1f}" r="3" fill="white" stroke="black"><title>crossing {number}</title></circle>'
        else:
            yield f'<circle cx="{x:.1f}" cy="{y:.1f}" r="10"/>'
            yield f'<text x="{x:.1f}" y="{y + 4:.1f}" fill="white" text-anchor="middle">{label}</text>'


def main():
    nodes, segments = read(sys.stdin.read())
    ways = ways_of(segments)
    places = scaled(places_of(nodes, ways)) if nodes else {}
    print(f'<svg xmlns="http://www.w3.org/2000/svg" viewBox="0 0 {WIDTH} {HEIGHT}" font-family="sans-serif" font-size="11">')
    print('<rect width="100%" height="100%" fill="white"/>')
    for line in [*lines_of(segments, ways, places), *marks_of(nodes, places)]:
        print(line)
    print("</svg>")


main()
