#!/usr/bin/env python3
"""Writes an answer of two bundles of parallel edges that cross in a grid: python3 tools/grid_answer.py ROWS COLUMNS > file.

Nodes 0 and 1 are joined by ROWS edges, nodes 2 and 3 by COLUMNS edges, and each edge of one bundle crosses each of the other
once: ROWS * COLUMNS crossings. The drawing is flat; its tree has one leaf, which a checker refuses.
"""
import sys

rows, columns = int(sys.argv[1]), int(sys.argv[2])
along = columns + 1  # segments of a row
down = rows + 1  # segments of a column
edges = rows + columns
segments = rows * along + columns * down


def row_segment(i, k):
    """Segment k of row i, from the left."""
    return i * along + k


def column_segment(j, k):
    """Segment k of column j, from the top."""
    return rows * along + j * down + k


following = [0] * (2 * segments)


def ring(darts):
    for d, e in zip(darts, darts[1:] + darts[:1]):
        following[d] = e


# the darts of each node, clockwise
ring([2 * row_segment(i, 0) for i in range(rows)])
ring([2 * row_segment(i, columns) + 1 for i in reversed(range(rows))])
ring([2 * column_segment(j, 0) for j in reversed(range(columns))])
ring([2 * column_segment(j, rows) + 1 for j in range(columns)])
for i in range(rows):
    for j in range(columns):
        left = 2 * row_segment(i, j) + 1
        right = 2 * row_segment(i, j + 1)
        top = 2 * column_segment(j, i) + 1
        bottom = 2 * column_segment(j, i + 1)
        ring([left, top, right, bottom])

out = ["crossing-answer 1", f"graph 4 {edges}", "loops 0"]
out += ["edge 0 1"] * rows + ["edge 2 3"] * columns
out += [f"bounds 0 {rows * columns}", "effort 0 0"]
out += [" ".join(map(str, ["along", columns, *range(rows, edges)]))] * rows
out += [" ".join(map(str, ["along", rows, *range(rows)]))] * columns
out += [f"turn {following[2 * s]} {following[2 * s + 1]}" for s in range(segments)]
out += ["drawn", "rows 0", "tree", "leaf 1 0", "end"]
print("\n".join(out))
