#!/usr/bin/env python3
"""Writes K5 with segments that hang at node 0, and an answer by insertions.

    python3 tools/hanging_answer.py COUNT GRAPH ANSWER

The row lists the hanging segments first, and then those of K5. Insertions in this order are stuck only at the last
segment, whichever way they go, so a search of them takes a time that grows with the factorial of COUNT. A checker must
accept 1 1.
"""
import pathlib
import sys

count = int(sys.argv[1])
k5 = (pathlib.Path(__file__).resolve().parent.parent / "examples" / "k5.answer").read_text().splitlines()


def numbers(key):
    """The numbers of the lines of K5's answer that begin so."""
    return [[int(word) for word in line.split()[1:]] for line in k5 if line.startswith(key + " ")]


edges = [(0, 5 + i) for i in range(count)] + [tuple(ends) for ends in numbers("edge")]
nodes, all_edges = 5 + count, range(len(edges))
along = [[]] * count + [[f + count for f in crossers] for _, *crossers in numbers("along")]
# the hanging segments come first, so the darts of K5 move; at node 0 they turn after its first dart
turns = list(range(2 * count)) + [d + 2 * count for pair in numbers("turn") for d in pair]
ring = [2 * count] + [2 * i for i in range(count)]
turns[ring[-1]], last = turns[ring[0]], ring[-1]
for dart, following in zip(ring, ring[1:]):
    turns[dart] = following

out = ["crossing-answer 1", f"graph {nodes} {len(edges)}", "loops 0"]
out += [f"edge {u} {v}" for u, v in edges]
out += ["bounds 1 1", "effort 0 0"]
out += [" ".join(map(str, ["along", len(crossers), *crossers])) for crossers in along]
out += [f"turn {turns[d]} {turns[d + 1]}" for d in range(0, len(turns), 2)]
out += ["drawn", "rows 1", f"row {len(edges)}"]
out += [f"over {e} 0" for e in all_edges]
out += [" ".join(map(str, ["extension", len(edges), *all_edges])), "tree", "leaf 1 1 0 1", "end"]
pathlib.Path(sys.argv[3]).write_text("\n".join(out) + "\n")
listed = [f"node [ id {v} ]" for v in range(nodes)] + [f"edge [ source {u} target {v} ]" for u, v in edges]
pathlib.Path(sys.argv[2]).write_text("\n".join(["graph [", *listed, "]"]) + "\n")
