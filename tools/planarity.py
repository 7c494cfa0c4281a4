#!/usr/bin/env python3
"""Compares `planar` with networkx, or times it: python3 tools/planarity.py compare | times [FOLDER]

`compare` asks for 5,000 random webs of up to 60 nodes, parallel segments and several components among them. Each
answer must be that of networkx's check_planarity; each rotation must be one of the web and of genus zero; each
evidence must be a subdivision of K5 or of K3,3 in the web. `times` prints the best time of a call for webs of about
1,000 segments. The program is proved, built and run outside the repository, over copies of the crates; with FOLDER
they stay there.
"""
import itertools
import pathlib
import random
import shutil
import subprocess
import sys
import tempfile

import networkx

PROGRAM = """
//! Does what each line of a file says: a call, how often, and a web. It prints what is answered, or the best time.
#![tactic(auto)]

ghost use Rattle.std.specs.Prelude.{IsTrue};
ghost use Rattle.xn_model.specs.Graph.{HasNoLoop};

use std::alloc::{AllocError, Global};
use std::time::Instant;
use std::{fs, io};
use xn_blocks::blocks;
use xn_dmp::{Attempt, try_embed};
use xn_graph::Web;
use xn_kinds::{Evidence, Paths};
use xn_map::Map;
use xn_planar::{MinimalWeb, Planarity, minimal, planar};

/// Whether no segment joins a node to itself.
fn has_no_loop(web: &Web) -> bool
    ensures { IsTrue result → HasNoLoop web.now.ends }
{
    for s in 0..web.segments() {
        let (u, v) = web.end(s);
        if u == v {
            return false;
        }
    }
    true
}

/// The web of a line, after its first two words: the number of nodes, and the two ends of each segment.
fn web_of(alloc: Global, line: &str) -> Result<Option<Web>, AllocError> {
    let mut words = line.split_whitespace();
    words.next();
    words.next();
    let Some(first) = words.next() else {
        return Ok(None);
    };
    let Ok(nodes) = first.parse::<u32>() else {
        return Ok(None);
    };
    let mut ends = Vec::new(alloc);
    let mut begun: Option<u32> = None;
    for word in words {
        let Ok(v) = word.parse::<u32>() else {
            return Ok(None);
        };
        begun = match begun {
            None => Some(v),
            Some(u) => {
                ends.push((u, v))?;
                None
            }
        };
    }
    Ok(Web::make(nodes, ends).ok())
}

/// Prints paths, a stroke before each.
fn show(rt: &HostRuntime, branch: &[u32], paths: &Paths) -> io::Result<()> {
    for v in branch {
        print!(rt; " {v}")?;
    }
    for q in 0..paths.len() {
        print!(rt; " |")?;
        for s in paths.at(q) {
            print!(rt; " {s}")?;
        }
    }
    Ok(())
}

/// Prints the turns of a map.
fn show_map(rt: &HostRuntime, map: &Map) -> io::Result<()> {
    print!(rt; "flat")?;
    for d in 0..2 * map.web().segments() {
        print!(rt; " {}", map.next(d))?;
    }
    println!(rt; "")
}

/// Prints an evidence.
fn show_evidence(rt: &HostRuntime, evidence: &Evidence) -> io::Result<()> {
    match evidence {
        Evidence::Five { branch, paths } => {
            print!(rt; "five")?;
            show(rt, branch, paths)?;
        }
        Evidence::ThreeThree { branch, paths } => {
            print!(rt; "three")?;
            show(rt, branch, paths)?;
        }
        Evidence::Extension { .. } => print!(rt; "extension")?,
    }
    println!(rt; "")
}

/// Prints what is answered for a web.
fn answer(rt: &HostRuntime, web: &Web) -> io::Result<()>
    requires { HasNoLoop web.now.ends }
{
    match planar(rt.alloc(), web)? {
        Planarity::Flat(map) => show_map(rt, &map),
        Planarity::Not(evidence) => show_evidence(rt, &evidence),
    }
}

/// Runs one call. Answers whether there is a flat map, or how many blocks or segments of a core there are.
fn call(alloc: Global, web: &Web, which: &str) -> Result<usize, AllocError>
    requires { HasNoLoop web.now.ends }
{
    if which == "planar" {
        return Ok(match planar(alloc, web)? {
            Planarity::Flat(_) => 1,
            Planarity::Not(_) => 0,
        });
    }
    if which == "try_embed" {
        return Ok(match try_embed(alloc, web)? {
            Attempt::Flat(_) => 1,
            Attempt::Stuck(_) => 0,
        });
    }
    if which == "blocks" {
        return Ok(blocks(alloc, web)?.count());
    }
    Ok(match minimal(alloc, web)? {
        MinimalWeb::Flat => 0,
        MinimalWeb::Core(list) => list.len(),
    })
}

/// Prints the best time of some calls for a web, in nanoseconds, and what it answered.
fn time(rt: &HostRuntime, web: &Web, which: &str, repeats: u32) -> io::Result<()>
    requires { HasNoLoop web.now.ends }
{
    let mut best = u128::MAX;
    let mut found = 0;
    for _ in 0..repeats {
        let start = Instant::now(rt)?;
        found = call(rt.alloc(), web, which)?;
        best = best.min(start.elapsed(rt)?.as_nanos());
    }
    println!(rt; "{best} {found}")
}

/// Does what a line says.
fn work(rt: &HostRuntime, line: &str) -> io::Result<()> {
    let Some(web) = web_of(rt.alloc(), line)? else {
        return println!(rt; "no web");
    };
    if !has_no_loop(&web) {
        return println!(rt; "a loop");
    }
    let mut words = line.split_whitespace();
    let which = words.next().unwrap_or("");
    let repeats = words.next().unwrap_or("").parse::<u32>().unwrap_or(1);
    if which == "answer" {
        answer(rt, &web)
    } else {
        time(rt, &web, which, repeats)
    }
}

fn main(rt: HostRuntime) -> io::Result<()> {
    let text = fs::read_to_string(&rt, "@FILE@")?;
    for line in text.lines() {
        work(&rt, line)?;
    }
    Ok(())
}
"""

INVARIANT = """
use Rattle.std.proofs.Common.{◌≢◌, ℕ, ◌<◌}
use Rattle.xn_model.specs.Graph.{ends_at}
use Rattle.planarity_asked.proofs.has_no_loop.Given as goal

-- no segment passed is a loop
abbrev pub invariant-loop-s : goal.invariant-loop-s
invariant-loop-s l = (e : ℕ) → e < l.s → (ends_at l.web.ends e).0 ≢ (ends_at l.web.ends e).1
"""

OVER = "xn_model xn_graph xn_kinds xn_list xn_map xn_blocks xn_dmp xn_planar"
FIVE = list(itertools.combinations(range(5), 2))
THREE = [(i, j) for i in range(3) for j in range(3, 6)]


# ---- webs: a number of nodes, and the ends of each segment

def random_web(r):
    """A few pieces beside each other, each dense or sparse, some segments twice."""
    nodes, ends = 0, []
    for _ in range(r.choice([1, 1, 1, 2, 3])):
        n = r.randint(1, max(1, min(40, 58 - nodes)))
        if n >= 3 and r.random() < 0.6:
            # some of a triangulation that points in faces make, and perhaps a few segments more
            faces, piece = [(0, 1, 2), (0, 1, 2)], [(0, 1), (1, 2), (0, 2)]
            for v in range(3, n):
                a, b, c = faces.pop(r.randrange(len(faces)))
                piece += [(a, v), (b, v), (c, v)]
                faces += [(a, b, v), (b, c, v), (a, c, v)]
            piece = r.sample(piece, r.randint(len(piece) // 2, len(piece)))
            piece += [tuple(r.sample(range(n), 2)) for _ in range(r.choice([0, 0, 0, 1, 2]))]
        elif n >= 2:
            piece = [tuple(r.sample(range(n), 2)) for _ in range(r.randint(0, 2 * n + 3))]
        else:
            piece = []
        piece += [r.choice(piece) for _ in range(r.choice([0, 0, 1, 3])) if piece]
        ends += [(nodes + u, nodes + v) for u, v in piece]
        nodes += n
    nodes += r.choice([0, 0, 1])
    names = list(range(nodes))
    r.shuffle(names)
    r.shuffle(ends)
    return nodes, [(names[u], names[v]) if r.random() < 0.5 else (names[v], names[u]) for u, v in ends]


def grid(rows, columns):
    along = [(i * columns + j, i * columns + j + 1) for i in range(rows) for j in range(columns - 1)]
    down = [(i * columns + j, (i + 1) * columns + j) for i in range(rows - 1) for j in range(columns)]
    return rows * columns, along + down


def nested_triangles(count):
    ends = []
    for t in range(count):
        a, b, c = 3 * t, 3 * t + 1, 3 * t + 2
        ends += [(a, b), (b, c), (c, a)]
        if t:
            ends += [(a - 3, a), (b - 3, b), (c - 3, c)]
    return 3 * count, ends


def stacked(nodes, seed=1):
    r = random.Random(seed)
    faces, ends = [(0, 1, 2), (0, 1, 2)], [(0, 1), (1, 2), (0, 2)]
    for v in range(3, nodes):
        a, b, c = faces.pop(r.randrange(len(faces)))
        ends += [(a, v), (b, v), (c, v)]
        faces += [(a, b, v), (b, c, v), (a, c, v)]
    return nodes, ends


def wheel(spokes):
    outer = range(1, spokes + 1)
    return spokes + 1, [(0, i) for i in outer] + [(i, i % spokes + 1) for i in outer]


def tree(nodes, seed=1):
    r = random.Random(seed)
    return nodes, [(r.randrange(v), v) for v in range(1, nodes)]


def complete(nodes):
    return nodes, list(itertools.combinations(range(nodes), 2))


def two_sides(a, b):
    return a + b, [(i, a + j) for i in range(a) for j in range(b)]


def moebius(rungs):
    size = 2 * rungs
    return size, [(i, (i + 1) % size) for i in range(size)] + [(i, i + rungs) for i in range(rungs)]


def square(nodes):
    """A cycle, and a segment over each two of it that follow each other."""
    return nodes, [(i, (i + step) % nodes) for step in (1, 2) for i in range(nodes)]


def shuffled(web, seed=1):
    """Other names, and the segments in another order."""
    r = random.Random(seed)
    names, ends = list(range(web[0])), list(web[1])
    r.shuffle(names)
    r.shuffle(ends)
    return web[0], [(names[u], names[v]) for u, v in ends]


def long_paths(nodes, ends, length):
    """Each segment as a path of this length."""
    longer = []
    for u, v in ends:
        inner = list(range(nodes, nodes + length - 1))
        nodes += length - 1
        longer += list(zip([u] + inner, inner + [v]))
    return nodes, longer


def cross(p, q):
    """Whether two chords cross, the lesser first."""
    return p[0] < q[0] < p[1] < q[1]


def planted(nodes, count):
    """K of so many nodes on a circle, with this many of its crossings as nodes."""
    edges = list(itertools.combinations(range(nodes), 2))
    pairs = [(e, f) for e, f in itertools.combinations(range(len(edges)), 2) if cross(edges[e], edges[f])]
    chosen = random.Random(1).sample(pairs, count)
    points = {e: [] for e in range(len(edges))}
    for place, (e, f) in enumerate(chosen):
        points[e].append(nodes + place)
        points[f].append(nodes + place)
    ends = []
    for e, (u, v) in enumerate(edges):
        way = [u] + points[e] + [v]
        ends += list(zip(way, way[1:]))
    return nodes + count, ends


def with_ends(web, more):
    return web[0], web[1] + more


# ---- answers

def judge(nodes, ends, line):
    """What is wrong with an answer for a web, or nothing."""
    graph = networkx.Graph()
    graph.add_nodes_from(range(nodes))
    graph.add_edges_from(ends)
    flat = networkx.check_planarity(graph)[0]
    words = line.split()
    if words[0] == "flat":
        return None if flat and is_flat_map(nodes, ends, graph, [int(w) for w in words[1:]]) else "flat"
    if flat or words[0] not in ("five", "three"):
        return words[0]
    pairs = FIVE if words[0] == "five" else THREE
    branch, *paths = [[int(w) for w in part.split()] for part in " ".join(words[1:]).split("|")]
    return None if is_subdivision(ends, pairs, branch, paths) else words[0]


def is_flat_map(nodes, ends, graph, turns):
    darts = range(2 * len(ends))
    tail = [ends[d // 2][d % 2] for d in darts]
    if sorted(turns) != list(darts) or any(tail[turns[d]] != tail[d] for d in darts):
        return False
    rings, faces = cycles(turns), cycles([turns[d ^ 1] for d in darts])
    lone = nodes - len(set(tail))
    parts = networkx.number_connected_components(graph)
    return rings == len(set(tail)) and nodes + faces + lone == 2 * parts + len(ends)


def cycles(steps):
    seen, count = set(), 0
    for d in range(len(steps)):
        if d not in seen:
            count += 1
        while d not in seen:
            seen.add(d)
            d = steps[d]
    return count


def is_subdivision(ends, pairs, branch, paths):
    used, nodes = [], list(branch)
    if len(paths) != len(pairs):
        return False
    for (a, b), path in zip(pairs, paths):
        v = branch[a]
        for s in path:
            if v not in ends[s]:
                return False
            v = ends[s][1] if ends[s][0] == v else ends[s][0]
            nodes.append(v)
        if not path or nodes.pop() != branch[b]:
            return False
        used += path
    return len(set(used)) == len(used) and len(set(nodes)) == len(nodes)


# ---- the program

def below(name, lines):
    """The crates that a crate stands on, and itself, lowest first."""
    own = [n for n in lines[name] if n in lines]
    return list(dict.fromkeys([m for n in own for m in below(n, lines)] + [name]))


def run(folder, asked):
    """What the program prints, a line for each call, how often, and web."""
    top = pathlib.Path(__file__).resolve().parent.parent
    lines = {}
    for line in (top / "crates.txt").read_text().splitlines():
        if ":" in line and not line.startswith("#"):
            crate, needs = line.split(":")
            lines[crate.split()[0]] = needs.split()
    names = below("xn_planar", lines)
    for crate in names:
        if not (folder / "crates" / crate).exists():
            shutil.copytree(top / "crates" / crate, folder / "crates" / crate, symlinks=True)
    needs = "".join(f"{n}: {' '.join(lines[n])}\n" for n in names)
    (folder / "crates.txt").write_text(needs + f"planarity_asked: {OVER}\n")
    shutil.copy(top / "HANDLES", folder)
    subprocess.run(["git", "init", "-q", folder], check=True)
    told = [[which, repeats, n] + [x for p in ends for x in p] for which, repeats, (n, ends) in asked]
    (folder / "webs.txt").write_text("".join(" ".join(map(str, line)) + "\n" for line in told))
    program = folder / "crates" / "planarity_asked"
    for part in ("src", "proofs/has_no_loop"):
        (program / part).mkdir(parents=True, exist_ok=True)
    (program / "src" / "main.rt").write_text(PROGRAM.lstrip().replace("@FILE@", str(folder / "webs.txt")))
    (program / "proofs" / "has_no_loop" / "Invariants.antt").write_text(INVARIANT.lstrip())
    done = subprocess.run(["rt", "run", "--jobs", "1"], cwd=program, stdout=subprocess.PIPE, text=True)
    if done.returncode:
        print(done.stdout)
        raise SystemExit(done.returncode)
    return done.stdout.splitlines()


def compare(folder):
    r = random.Random(7)
    webs = [random_web(r) for _ in range(5_000)]
    words = ("flat", "five", "three", "extension", "no", "a")
    lines = [line for line in run(folder, [("answer", 1, web) for web in webs]) if line.split(" ")[0] in words]
    wrong = [(web, line) for web, line in zip(webs, lines) if judge(*web, line)]
    kinds = [line.split()[0] for line in lines]
    counts = ", ".join(f"{kinds.count(k)} {k}" for k in sorted(set(kinds)))
    print(f"{len(lines)} answers of {len(webs)} webs: {counts}; {len(wrong)} wrong")
    for web, line in wrong[:5]:
        print(web, line)
    return 1 if wrong or len(lines) != len(webs) else 0


def times(folder):
    k5 = complete(5)
    large = with_ends(grid(22, 22), [(0, 483), (21, 462)])
    rows = [
        ("planar", 20, "grid 23 x 23", grid(23, 23)),
        ("planar", 20, "nested triangles", nested_triangles(167)),
        ("planar", 20, "stacked triangulation", stacked(335)),
        ("planar", 20, "wheel", wheel(500)),
        ("planar", 20, "tree", tree(1_001)),
        ("planar", 20, "K2,500", two_sides(2, 500)),
        ("planar", 5, "1,000 parallel segments", (2, [(0, 1)] * 1_000)),
        ("planar", 10, "grid 22 x 22 and two far segments", large),
        ("planar", 10, "Moebius ladder", moebius(333)),
        ("planar", 5, "Moebius ladder, shuffled", shuffled(moebius(333))),
        ("planar", 10, "square of an odd cycle", square(499)),
        ("planar", 5, "square of an odd cycle, shuffled", shuffled(square(499))),
        ("planar", 10, "K5 with paths of 100", long_paths(*k5, 100)),
        ("planar", 100, "K8", complete(8)),
        ("try_embed", 1_000, "K7 with 9 crossings", planted(7, 9)),
        ("try_embed", 1_000, "K8 with 10 crossings", planted(8, 10)),
        ("try_embed", 20, "grid 23 x 23", grid(23, 23)),
        ("minimal", 10, "K8", complete(8)),
        ("minimal", 1, "grid 22 x 22 and two far segments", large),
        ("minimal", 1, "K5 with paths of 100", long_paths(*k5, 100)),
        ("blocks", 1, "tree of 1,000,000 segments", tree(1_000_001)),
        ("blocks", 1, "grid of 1,000,000 segments", grid(708, 707)),
    ]
    lines = run(folder, [(which, repeats, web) for which, repeats, _, web in rows])
    lines = [line.split() for line in lines if line.replace(" ", "").isdigit() and len(line.split()) == 2]
    for (which, _, name, web), (best, answered) in zip(rows, lines):
        print(f"{which:10} {name:34} {len(web[1]):8} segments {int(best) / 1e6:10.3f} ms  answer {answered}")
    return 0 if len(lines) == len(rows) else 1


if __name__ == "__main__":
    work = {"compare": compare, "times": times}.get(sys.argv[1] if len(sys.argv) > 1 else "")
    if not work:
        raise SystemExit(__doc__)
    if len(sys.argv) > 2:
        pathlib.Path(sys.argv[2]).mkdir(parents=True, exist_ok=True)
        raise SystemExit(work(pathlib.Path(sys.argv[2])))
    with tempfile.TemporaryDirectory() as room:
        raise SystemExit(work(pathlib.Path(room)))
