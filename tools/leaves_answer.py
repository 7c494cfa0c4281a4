#!/usr/bin/env python3
"""Writes a long answer whose lines all have their forms: python3 tools/leaves_answer.py LEAVES PARTS > file.

The graph is a triangle without crossings. There are PARTS rows without edges, and then LEAVES leaf lines with a part for
each row. `examine` reads all of it; a checker refuses it. 200000 leaves of 20 parts take about 64 MB.
"""
import sys

leaves, parts = int(sys.argv[1]), int(sys.argv[2])
write = sys.stdout.write
write("crossing-answer 1\ngraph 3 3\nloops 0\nedge 0 1\nedge 1 2\nedge 2 0\nbounds 0 0\neffort 0 0\n")
write("along 0\n" * 3 + "turn 5 2\nturn 1 4\nturn 3 0\ndrawn\n")
write(f"rows {parts}\n")
write(("row 0\nfive 0 1 2 3 4\n" + "path 0\n" * 10) * parts)
write("tree\n")
state = 1
for _ in range(leaves):
    words = ["leaf 1000000007", str(parts)]
    for row in range(parts):
        state = state * 6364136223846793005 + 1442695040888963407 & (1 << 64) - 1
        words += [str(row), str(10**12 + (state >> 20) % 10**11)]
    write(" ".join(words) + "\n")
write("end\n")
