#!/usr/bin/env python3
"""Looks for files that take the program long: python3 tools/time_attack.py [PROGRAM [BYTES [KIND..]]]

For each kind of line a file that should cost much for its size is made, of a quarter, a half and the whole of BYTES (1,000,000 where it
isn't given), and run. A line tells the processor's seconds for each size and the growth: 1 where time is linear in the size, 2 where it is
quadratic. A kind is marked STEEP where the growth is above 1.3 and the whole took more than a second. A run has 120 seconds. What is known
to be steep stands in KNOWN, and in docs/USING.md; the script ends with 1 where another kind is, or an end isn't the known one.
PROGRAM is crates/xnum/out/xnum where none is given.
"""
import math
import os
import pathlib
import resource
import signal
import subprocess
import sys
import tempfile
import time

import known_runs
from plain_rules import web

TOP = pathlib.Path(__file__).resolve().parent.parent
SECONDS = 120
KNOWN = {"tree of leaves over all edges", "leaves of many parts", "list of flat insertions that is stuck"}
FAR = 495  # pairs of nodes beside K5


def flat_turns(nodes, edges):
    """Turns of a drawing without crossings in which all parallel edges lie beside each other: a forest of bundles and one K4 at most."""
    rings = [[] for _ in range(nodes)]
    for e, (u, v) in enumerate(edges):
        rings[u].append(2 * e)
        rings[v].insert(0, 2 * e + 1)
    following = {}
    for ring in rings:
        following.update(zip(ring, ring[1:] + ring[:1]))
    return [f"turn {following[2 * e]} {following[2 * e + 1]}" for e in range(len(edges))]


def head(nodes, edges, bounds):
    lines = ["crossing-answer 1", f"graph {nodes} {len(edges)}", "loops 0", *(f"edge {u} {v}" for u, v in edges)]
    return lines + [f"bounds {bounds}", "effort 0 0"]


K5_LINES = (known_runs.EXAMPLES / "k5.answer").read_text().splitlines()


def k5_and(pairs, lower=0):
    """The lines up to `drawn` of K5 with one crossing and of bundles of edges far from it; nodes and edges."""
    nodes = 5 + 2 * max((p for p in pairs), default=-1) + 2 if pairs else 5
    edges = known_runs.K5 + [(5 + 2 * p, 6 + 2 * p) for p in pairs]
    lines = head(nodes, edges, f"{lower} 1") + K5_LINES[15:25] + ["along 0"] * len(pairs) + K5_LINES[25:37]
    bundles = {}
    for i, p in enumerate(pairs):
        bundles.setdefault(p, []).append(12 + i)  # the segments of the bundle
    turns = {}
    for own in bundles.values():
        turns.update({s: f"turn {2 * own[(k + 1) % len(own)]} {2 * own[k - 1] + 1}" for k, s in enumerate(own)})
    return lines + [turns[s] for s in sorted(turns)] + ["drawn"], nodes, edges


def k5_row(edges):
    """A row over so many edges, with the evidence of K5."""
    return [f"row {edges}", *(f"over {e} 0" for e in range(edges)), *known_runs.FIVE.splitlines()]


def joined(*parts):
    return "".join(line + "\n" for part in parts for line in part)


def check(nodes, edges, text, wanted):
    return "check graph answer", {"graph": known_runs.gml(nodes, edges), "answer": text}, wanted


# --- answers ---


def long_lines(size):
    """One line that is no header."""
    return "examine answer", {"answer": "crossing-answer" + " 1" * (size // 2) + "\n"}, "refused 1 syntax"


def empty_lines(size):
    return "examine answer", {"answer": "\n" * size}, "refused 1 syntax"


def grid_orders(size, last):
    """A grid of crossings. Its last line `along` may name one crosser for another."""
    side = max(2, int(math.sqrt(size / 42)))
    done = subprocess.run([sys.executable, TOP / "tools/grid_answer.py", str(side), str(side)], capture_output=True, text=True, check=True)
    text = done.stdout
    if last:
        old = "along " + " ".join(map(str, [side, *range(side)])) + "\nturn"
        text = known_runs.changed(text, (old, old.replace(f" {side - 1}\nturn", " 0\nturn")))
    return text, side


def grid(size):
    text, side = grid_orders(size, False)
    return "examine answer", {"answer": text}, f"drawing crossings {side * side}"


def grid_flaw(size):
    text, side = grid_orders(size, True)
    return "examine answer", {"answer": text}, f"refused {text.split('drawn')[0].count(chr(10)) + 1} order"


def grid_drawn(size):
    text, side = grid_orders(size, False)
    edges = [(0, 1)] * side + [(2, 3)] * side
    return "draw graph answer", {"graph": known_runs.gml(4, edges), "answer": text}, "graph ["


def one_face(size):
    """A cycle of 1,000 edges, and rows over nothing behind it."""
    done = subprocess.run([sys.executable, TOP / "tools/cycle_answer.py", "1000"], capture_output=True, text=True, check=True)
    count = size // 19
    text = known_runs.changed(done.stdout, ("rows 0\n", f"rows {count}\n" + "row 0\nextension 0\n" * count))
    return "examine answer", {"answer": text}, "drawing crossings 0"


def small_rows(size):
    """Many rows of K5, each over a graph of 1,000 nodes."""
    front, nodes, edges = k5_and([0, FAR + 1])
    row = k5_row(10)
    count = size // len(joined(row))
    return check(nodes, edges, joined(front, [f"rows {count}"], row * count, ["tree", "leaf 1 0", "end"]), "accepted 0 1")


def whole_rows(size):
    """Rows over all of 1,000 edges."""
    front, nodes, edges = k5_and([i % FAR for i in range(990)])
    row = k5_row(1000)
    count = max(1, size // len(joined(row)))
    return check(nodes, edges, joined(front, [f"rows {count}"], row * count, ["tree", "leaf 1 0", "end"]), "accepted 0 1")


def planted_rows(size):
    """One row over edges that all cross each other, far from K5, with the order lists of a complete graph of crossings."""
    side = int(math.sqrt(size / 5))
    front, nodes, edges = k5_and(range(min(side, FAR)))
    far = range(10, len(edges))
    row = [f"row {len(edges)}", *(f"over {e} 0" for e in range(10))]
    row += [" ".join(map(str, ["over", e, len(far) - 1, *(f for f in far if f != e)])) for e in far]
    text = joined(front, ["rows 1"], row, known_runs.FIVE.splitlines(), ["tree", "leaf 1 0", "end"])
    return check(nodes, edges, text, "accepted 0 1")


def long_path(size):
    """Evidence whose one path goes to and fro on one segment."""
    front, nodes, edges = k5_and([])
    count = min(size // 2, 1_000_000)
    row = k5_row(10)
    at = row.index("path 1 9")
    row[at] = f"path {count}" + " 9" * count
    end = "ends 9" if count % 2 == 0 else "twice 9"
    return check(nodes, edges, joined(front, ["rows 1"], row, ["tree", "leaf 1 0", "end"]), f"refused 61 row 0 evidence {end}")


def long_list(size):
    """Insertions of a bundle of parallel segments: flat ones reach the end."""
    edges = [(0, 1)] * 2 + [(2 * i, 2 * i + 1) for i in range(1, 400)]
    nodes, far = 800, range(2, len(edges))
    # edge 0 is cut into many segments by the far ones
    row = [f"row {len(edges)}", " ".join(map(str, ["over 0", len(far), *far])), "over 1 0", *(f"over {e} 1 0" for e in far)]
    orders = {e: list(map(int, line.split()[3:])) for e, line in enumerate(row[1:])}
    count = len(web(nodes, edges, list(range(len(edges))), orders)[1])
    chosen = list(range(len(far) + 1))
    tail = [s for s in range(len(far) + 1, count)]
    listed = (chosen + tail)[: max(1, size // 200)]
    text = joined(head(nodes, edges, "0 0"), ["along 0"] * len(edges), flat_turns(nodes, edges), ["drawn", "rows 1"], row)
    number = text.count("\n") + 1
    text += joined([" ".join(map(str, ["extension", len(listed), *listed]))], ["tree", "leaf 1 0", "end"])
    return check(nodes, edges, text, f"refused {number} row 0")


def stuck_list(size):
    """Insertions that are stuck: a star of doubled rays, and K5 behind it. The size is that of the list."""
    rays = max(1, int(math.log2(size)) - 12)
    nodes, edges = 5 + rays, known_runs.K5 + [(0, 5 + i) for i in range(rays) for _ in range(2)]
    front = head(nodes, edges, "0 1") + K5_LINES[15:25] + ["along 0"] * (2 * rays)
    darts = {0: [], **{5 + i: [] for i in range(rays)}}
    for i in range(rays):
        first = 24 + 4 * i
        darts[0] += [first, first + 2]
        darts[5 + i] = [first + 3, first + 1]
    turns = dict(enumerate(int(word) for line in K5_LINES[25:37] for word in line.split()[1:]))
    after = turns[0]
    ring = [0, *darts[0], after]
    turns.update(zip(ring, ring[1:]))
    for i in range(rays):
        a, b = darts[5 + i]
        turns[a], turns[b] = b, a
    front += [f"turn {turns[2 * s]} {turns[2 * s + 1]}" for s in range(12 + 2 * rays)] + ["drawn", "rows 1"]
    row = [f"row {len(edges)}", *(f"over {e} 0" for e in range(len(edges)))]
    listed = [*range(10, len(edges)), *range(10)]
    row.append(" ".join(map(str, ["extension", len(listed), *listed])))
    return check(nodes, edges, joined(front, row, ["tree", "leaf 1 0", "end"]), "accepted 0 1")


# --- trees ---


def pairs_far(count):
    """So many pairs of far edges behind K5, of edges that are all apart."""
    return [(e, f) for e in range(10, 10 + FAR) for f in range(e + 1, 10 + FAR)][:count]


def deep_tree(size):
    """A tree that is one path: each of its pairs is decided 0 by a leaf, and 1 below."""
    front, nodes, edges = k5_and(range(FAR))
    count = min(size // 22, FAR * (FAR - 1) // 2)
    nodes_of = [line for e, f in pairs_far(count) for line in (f"pair {e} {f}", "leaf 1 0")]
    return check(nodes, edges, joined(front, ["rows 0", "tree"], nodes_of, ["leaf 1 0", "end"]), "accepted 0 1")


def deep_first(size):
    """The same with all pairs first, so that the whole path is open at once."""
    front, nodes, edges = k5_and(range(FAR))
    count = min(size // 21, FAR * (FAR - 1) // 2)
    nodes_of = [f"pair {e} {f}" for e, f in pairs_far(count)] + ["leaf 1 0"] * (count + 1)
    return check(nodes, edges, joined(front, ["rows 0", "tree"], nodes_of, ["end"]), "accepted 0 1")


def places(size):
    """Many edges that cross one edge, placed on it one by one; then leaves."""
    front, nodes, edges = k5_and(range(FAR))
    count = min(FAR - 1, max(1, int(math.sqrt(size / 8))))
    lines = []
    for f in range(11, 11 + count):
        lines += [f"pair 10 {f}", "leaf 1 0"]
    opened = 0
    for k, f in enumerate(range(11, 11 + count)):
        lines.append(f"place 10 {f}")
        opened += k
    lines += ["leaf 1 0"] * (opened + 1)
    return check(nodes, edges, joined(front, ["rows 0", "tree"], lines, ["end"]), "accepted 0 1")


def broad_leaves(size):
    """Leaves with one part, a row over all edges: each has half a million pairs."""
    front, nodes, edges = k5_and([i % FAR for i in range(990)])
    count = min(size // 30, FAR * (FAR - 1) // 2)
    lines = [line for e, f in pairs_far(count) for line in (f"pair {e} {f}", "leaf 1 1 0 1")]
    text = joined(front, ["rows 1"], k5_row(1000), ["tree"], lines, ["leaf 1 1 0 1", "end"])
    return check(nodes, edges, text, "accepted 0 1")


def long_leaves(size):
    """Leaves with many parts: a quarter of the file are rows."""
    front, nodes, edges = k5_and(range(FAR))
    rows = size // 4 // len(joined(k5_row(10)))
    leaf = " ".join(map(str, ["leaf 1", rows, *(f"{r} 1" for r in range(rows))]))
    count = min(size * 3 // 4 // (len(leaf) + 12), FAR * (FAR - 1) // 2)
    lines = [line for e, f in pairs_far(count) for line in (f"pair {e} {f}", "leaf 1 0")]
    lines = [leaf if line[0] == "l" else line for line in lines] + [leaf]
    # the bound of so many parts is far below 0, so a checker refuses the first leaf: the divisor makes it enough
    lines = [line.replace("leaf 1 ", f"leaf {20 * rows} ", 1) for line in lines]
    return check(nodes, edges, joined(front, [f"rows {rows}"], k5_row(10) * rows, ["tree"], lines, ["end"]), "accepted 0 1")


# --- graph texts ---


def graph_text(front, piece, end, wanted):
    """A kind of graph text: a front, a piece again and again, an end."""
    return lambda size: ("check graph answer", {"graph": front + piece * (size // len(piece)) + end, "answer": "x\n"}, wanted)


def many_nodes(size):
    few = " a 1" * (size // 4200)
    text = "graph [" + "".join(f" node [{few} id {v} ]" for v in range(1000)) + " ]"
    return "check graph answer", {"graph": text, "answer": "x\n"}, "refused 1 syntax"


def far_loops(size):
    """Loops at the last of 1,000 nodes, whose ids lie far apart."""
    ids = [(v << 40) for v in range(1000)]
    text = "graph [" + "".join(f" node [ id {v} ]" for v in ids)
    loop = f" edge [ source {ids[-1]} target {ids[-1]} ]"
    return "check graph answer", {"graph": text + loop * (size // len(loop)) + " ]", "answer": "x\n"}, "refused 1 syntax"


KINDS = {
    "long line": long_lines,
    "empty lines": empty_lines,
    "grid of crossings": grid,
    "grid of crossings with a flaw at its end": grid_flaw,
    "grid of crossings, drawn": grid_drawn,
    "rows over nothing": one_face,
    "small rows in a graph of 1,000 nodes": small_rows,
    "rows over all edges": whole_rows,
    "row with planted crossings": planted_rows,
    "long path": long_path,
    "list of flat insertions": long_list,
    "list of flat insertions that is stuck": stuck_list,
    "tree of one path": deep_tree,
    "tree of one path, leaves last": deep_first,
    "places on one edge": places,
    "tree of leaves over all edges": broad_leaves,
    "leaves of many parts": long_leaves,
    "tiny pairs at the top": graph_text("graph [ ]", " a 1", "", "refused 1 syntax"),
    "tiny pairs in a node": graph_text("graph [ node [", " a 1", " id 1 ] ]", "refused 1 syntax"),
    "tiny lists": graph_text("graph [ ]", " a[]", "", "refused 1 syntax"),
    "deep lists": graph_text("graph [ ]", " a[" * 63 + "]" * 63, "", "refused 1 syntax"),
    "strings": graph_text("graph [ ]", 'a""', "", "refused 1 syntax"),
    "comments": graph_text("graph [ ]", "#\n", "", "refused 1 syntax"),
    "one comment": graph_text("graph [ ] #", "#", "", "refused 1 syntax"),
    "spaces": graph_text("graph [ ]", " ", "", "refused 1 syntax"),
    "one number": graph_text("graph [ node [ id ", "0", "1 ] ]", "refused 1 syntax"),
    "one word": graph_text("graph [ ] ", "a", " 1", "refused 1 syntax"),
    "nodes past the limit": graph_text("graph [", " node[]", " ]", "xnum: graph text refused: no id at 12"),
    "loops": graph_text("graph [ node [ id 1 ]", " edge[source 1 target 1]", " ]", "refused 1 syntax"),
    "edge blocks that are none": graph_text("graph [ node [ id 1 ]", " edge 1", " ]", "refused 1 syntax"),
    "graphs that are none": graph_text("graph [ ]", " graph 1", "", "refused 1 syntax"),
    "1,000 nodes of tiny pairs": many_nodes,
    "loops at the last node": far_loops,
}


def run(program, folder, words, files):
    """What is printed first, and the processor's seconds; None past the time."""
    for name, text in files.items():
        pathlib.Path(folder, name).write_text(text)
    limit = lambda: resource.setrlimit(resource.RLIMIT_CPU, (SECONDS, SECONDS))
    with open(f"{folder}/written", "w+") as out:
        child = subprocess.Popen([program, *words.split()], cwd=folder, stdout=out, stderr=out, preexec_fn=limit)
        _, status, used = os.wait4(child.pid, 0)
        child.returncode = 0
        out.seek(0)
        printed = out.readline().strip()
    if os.WIFSIGNALED(status):
        printed = "stopped" if os.WTERMSIG(status) in (signal.SIGXCPU, signal.SIGKILL) else f"signal {os.WTERMSIG(status)}"
    return printed, used.ru_utime + used.ru_stime


def main():
    program = pathlib.Path(sys.argv[1] if len(sys.argv) > 1 else TOP / "crates/xnum/out/xnum").resolve()
    size = int(sys.argv[2]) if len(sys.argv) > 2 else 1_000_000
    fine, start = True, time.monotonic()
    with tempfile.TemporaryDirectory() as folder:
        for kind in sys.argv[3:] or KINDS:
            found = []
            for part in (size // 4, size // 2, size):
                words, files, wanted = KINDS[kind](part)
                printed, seconds = run(program, folder, words, files)
                found.append((sum(map(len, files.values())), seconds, printed))
                if not printed.startswith(wanted):
                    break
            good = printed.startswith(wanted)
            growth = math.log(max(found[-1][1], 1e-3) / max(found[0][1], 1e-3)) / math.log(found[-1][0] / found[0][0]) if found and found[-1][0] > found[0][0] else 0
            steep = not good or growth > 1.3 and found[-1][1] > 1
            told = "; ".join(f"{bytes_ / 1e6:.2f} MB {seconds:.2f} s" for bytes_, seconds, _ in found)
            mark = "" if not steep else ("steep, as is known" if kind in KNOWN and printed in (wanted, "stopped") else "STEEP" if good else f"NOT OK: {printed}")
            print(f"{kind}: {told}; growth {growth:.1f} {mark}", flush=True)
            fine = fine and (not steep or kind in KNOWN)
    print(f"{time.monotonic() - start:.0f} s")
    sys.exit(0 if fine else 1)


if __name__ == "__main__":
    main()
