#!/usr/bin/env python3
"""Writes the plain answer of a cycle of N nodes: python3 tools/cycle_answer.py N > file."""
import sys

n = int(sys.argv[1])
out = ["crossing-answer 1", f"graph {n} {n}", "loops 0"]
out += [f"edge {e} {(e + 1) % n}" for e in range(n)]
out += ["bounds 0 0", "effort 0 10000"] + ["along 0"] * n
out += [f"turn {2 * ((s - 1) % n) + 1} {2 * ((s + 1) % n)}" for s in range(n)]
out += ["drawn", "rows 0", "tree", "leaf 1 0", "end"]
print("\n".join(out))
