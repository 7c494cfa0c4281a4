#!/usr/bin/env python3
"""Reads what `xnum draw` writes with networkx, and compares it with the drawing: python3 tools/show_with_networkx.py GRAPH ANSWER [SHOWN]

It runs `./xnum draw GRAPH ANSWER`, or reads the file SHOWN in its place. Nodes, kinds, labels and turns, and segments with their ends and
edges must be those of the planarised graph of the answer, made here from its lines. A planarised graph may have parallel segments, which
networkx reads only where a text says `multigraph 1`, so that line is put in first. It prints `same`, or what differs and ends with 1; where
networkx is missing it prints so and ends with 0.
"""
import pathlib
import subprocess
import sys

from plain_rules import crossings, read_gml, read_ids, web


def front_of(text):
    """The orders and the turns of an answer."""
    orders, turns = [], []
    for line in text.splitlines():
        key, *words = line.split(" ")
        if key == "along":
            orders.append([int(w) for w in words[1:]])
        elif key == "turn":
            turns += [int(w) for w in words]
        elif key == "drawn":
            break
    return orders, turns


def wanted(graph_text, answer_text):
    """What networkx is to find: nodes with their words, and segments by number with their ends and edge."""
    count, edges, _ = read_gml(graph_text)
    orders, turns = front_of(answer_text)
    listed = list(range(len(edges)))
    own = dict(zip(listed, orders))
    all_nodes, segments, starts = web(count, edges, listed, own)
    assert all_nodes == count + len(crossings(listed, own))
    around = {}
    for d in range(2 * len(segments)):
        ring = around.setdefault(segments[d // 2][d % 2], [])
        if not ring:
            ring.append(d)
            while turns[ring[-1]] != d:
                ring.append(turns[ring[-1]])
    nodes = {}
    for v in range(all_nodes):
        nodes[v] = {"kind": "input" if v < count else "crossing", "turn": " ".join(map(str, around.get(v, [])))}
    for v, own_id in enumerate(read_ids(graph_text)):
        nodes[v]["label"] = str(own_id)
    owner = {s: e for e in listed for s in range(starts[e], starts[e] + len(orders[e]) + 1)}
    return nodes, {s: (frozenset(ends), owner[s]) for s, ends in enumerate(segments)}


def main():
    try:
        import networkx
    except ImportError:
        print("skipped: networkx is missing")
        return
    graph, answer = sys.argv[1:3]
    if len(sys.argv) > 3:
        shown = pathlib.Path(sys.argv[3]).read_text()
    else:
        program = pathlib.Path(__file__).resolve().parent.parent / "xnum"
        shown = subprocess.run([program, "draw", graph, answer], check=True, stdout=subprocess.PIPE, text=True).stdout
    read = networkx.parse_gml(shown.replace("graph [\n", "graph [\n  multigraph 1\n", 1), label="id")
    found_nodes = {v: dict(words) for v, words in read.nodes(data=True)}
    found = {words["id"]: (frozenset((u, v)), words["of"]) for u, v, words in read.edges(data=True)}
    nodes, segments = wanted(pathlib.Path(graph).read_text(), pathlib.Path(answer).read_text())
    differing = [f"node {v}" for v in nodes.keys() | found_nodes.keys() if nodes.get(v) != found_nodes.get(v)]
    differing += [f"segment {s}" for s in segments.keys() | found.keys() if segments.get(s) != found.get(s)]
    if read.number_of_edges() != len(segments):
        differing.append("number of segments")
    print("\n".join(differing) or f"same: {len(nodes)} nodes, {len(segments)} segments")
    sys.exit(1 if differing else 0)


main()
