#!/usr/bin/env python3
"""Solves graphs, checks the answers, and prints what it took as a table: python3 tools/figures.py [--program PROGRAM]
[--budget N] [--seconds N] [NAME or FILE..]

PROGRAM is `./xnum` where none is given. A NAME is one of the graphs below, a FILE ends with `.gml`; all graphs below where
none is given. The states are those that the answer says were opened, the rows and the nodes of its tree are counted in
the answer, and the seconds are those of the processor. It ends with 1 where an answer is refused, or its bounds differ
though the run was not cut off.
"""
import argparse
import os
import pathlib
import resource
import signal
import subprocess
import sys
import tempfile

TOP = pathlib.Path(__file__).resolve().parent.parent


def complete(n):
    return n, [(i, j) for i in range(n) for j in range(i + 1, n)]


def bipartite(m, n):
    return m + n, [(i, m + j) for i in range(m) for j in range(n)]


def petersen(n, k):
    """The generalised Petersen graph: an outer cycle, spokes, and inner steps of k."""
    outer = [(i, (i + 1) % n) for i in range(n)]
    return 2 * n, outer + [(i, n + i) for i in range(n)] + [(n + i, n + (i + k) % n) for i in range(n)]


def torus(m, n):
    """The product of two cycles."""
    along = [(i * n + j, i * n + (j + 1) % n) for i in range(m) for j in range(n)]
    return m * n, along + [(i * n + j, (i + 1) % m * n + j) for i in range(m) for j in range(n)]


def cubic(steps, times):
    """A cycle with a chord at each node, which leads so many steps on (LCF notation)."""
    n = len(steps) * times
    cycle = {tuple(sorted((i, (i + 1) % n))) for i in range(n)}
    return n, sorted(cycle | {tuple(sorted((i, (i + steps[i % len(steps)]) % n))) for i in range(n)})


def flower(n):
    """The flower snark J_n: stars, whose first leaves form a cycle, and the others one of twice the length."""
    edges = []
    for i in range(n):
        here, there = 4 * i, 4 * ((i + 1) % n)
        twist = i == n - 1
        edges += [(here, here + 1), (here, here + 2), (here, here + 3), (here + 1, there + 1)]
        edges += [(here + 2, there + 2 + twist), (here + 3, there + 3 - twist)]
    return 4 * n, edges


# each graph with its crossing number, where it is known
GRAPHS = {
    "K6": (complete(6), 3),
    "Petersen": (petersen(5, 2), 2),
    "Heawood": (cubic((5, -5), 7), 3),
    "K3,4": (bipartite(3, 4), 2),
    "C3xC4": (torus(3, 4), 4),
    "P(7,2)": (petersen(7, 2), 3),
    "K4,5": (bipartite(4, 5), 8),
    "J5": (flower(5), 4),
    "C3xC5": (torus(3, 5), 5),
    "Moebius-Kantor": (petersen(8, 3), 4),
    "K7": (complete(7), 9),
    "K4,6": (bipartite(4, 6), 12),
    "Pappus": (cubic((5, 7, -7, 7, -7, -5), 3), 5),
}


def gml(graph):
    nodes, edges = graph
    lines = [f"node [ id {i} ]" for i in range(nodes)] + [f"edge [ source {u} target {v} ]" for u, v in edges]
    return "graph [\n  " + "\n  ".join(lines) + "\n]\n"


def run(words, seconds, output):
    """How a run ended, what it wrote on standard error, and its seconds of the processor."""
    def limit():
        if seconds:
            resource.setrlimit(resource.RLIMIT_CPU, (seconds, seconds + 1))

    with subprocess.Popen(words, stdout=output, stderr=subprocess.PIPE, text=True, preexec_fn=limit) as child:
        said = child.stderr.read()
        _, status, used = os.wait4(child.pid, 0)
        child.returncode = os.waitstatus_to_exitcode(status)
    return child.returncode, said, used.ru_utime + used.ru_stime


def counted(answer):
    """The bounds, the opened states, the rows and the nodes of the tree that an answer has."""
    bounds, spent, rows, nodes = ("", ""), "", 0, 0
    for line in answer.splitlines():
        key, *words = line.split(" ")
        if key == "bounds":
            bounds = (words[0], words[1])
        elif key == "effort":
            spent = words[0]
        elif key == "row":
            rows += 1
        elif key in ("pair", "place", "leaf"):
            nodes += 1
    return bounds, spent, rows, nodes


def line(program, name, file, known, options):
    """A line of the table, and whether all is as it should be."""
    with tempfile.NamedTemporaryFile("r+") as out:
        solve = [program, "solve", file, "--budget", str(options.budget)]
        status, said, seconds = run(solve, options.seconds, out)
        if status in (-signal.SIGXCPU, -signal.SIGKILL):
            return f"| {name} | | stopped | | | {seconds:.2f} | |", True
        if status not in (0, 5):
            return f"| {name} | | ends with {status}: {said.strip()} | | | {seconds:.2f} | |", False
        out.seek(0)
        (lower, upper), spent, rows, nodes = counted(out.read())
        checked = subprocess.run([program, "check", file, out.name], capture_output=True, text=True)
    is_right = checked.stdout == f"accepted {lower} {upper}\n" and known in (None, int(lower)) and lower == upper
    bounds = lower if lower == upper else f"{lower} to {upper}"
    return f"| {name} | {bounds} | {spent} | {nodes} | {rows} | {seconds:.2f} | {checked.stdout.strip()} |", is_right


def main():
    parser = argparse.ArgumentParser(description=__doc__.partition("\n")[0])
    parser.add_argument("--program", default=str(TOP / "xnum"))
    parser.add_argument("--budget", type=int, default=200_000)
    parser.add_argument("--seconds", type=int, default=0, help="stop a run after so many seconds of the processor")
    parser.add_argument("graphs", nargs="*", metavar="NAME or FILE", help=", ".join(GRAPHS))
    options = parser.parse_args()
    unknown = [name for name in options.graphs if not name.endswith(".gml") and name not in GRAPHS]
    if unknown:
        parser.error("no graph " + unknown[0])
    program = str(pathlib.Path(options.program).resolve())
    fine = True
    print("| graph | crossing number | states | nodes of the tree | rows | seconds | check |")
    print("|---|---|---|---|---|---|---|")
    with tempfile.TemporaryDirectory() as folder:
        for name in options.graphs or GRAPHS:
            file, known = name, None
            if name in GRAPHS:
                graph, known = GRAPHS[name]
                file = str(pathlib.Path(folder, "graph.gml"))
                pathlib.Path(file).write_text(gml(graph))
            shown, is_right = line(program, pathlib.Path(name).stem if file == name else name, file, known, options)
            fine = fine and is_right
            print(shown, flush=True)
    return 0 if fine else 1


if __name__ == "__main__":
    sys.exit(main())
