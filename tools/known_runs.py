"""Runs with a known end: their words, the files that they read, and how they end. Used by scripts that disturb them."""
import pathlib

EXAMPLES = pathlib.Path(__file__).resolve().parent.parent / "examples"
K5 = [(u, v) for u in range(5) for v in range(u + 1, 5)]
K33 = [(u, v) for u in range(3) for v in range(3, 6)]
EMPTY = "crossing-answer 1\ngraph 0 0\nloops 0\nbounds 0 0\neffort 0 10000\ndrawn\nrows 0\ntree\nleaf 1 0\nend\n"
TWO_NODES = "graph [ node [ id 4 ] node [ id 9 ] edge [ source 4 target 9 ] ]"
ONE_EDGE = "crossing-answer 1\ngraph 2 1\nloops 0\nedge 0 1\nbounds 0 0\neffort 0 10000\nalong 0\nturn 0 1\ndrawn\nrows 0\ntree\nleaf 1 0\nend\n"
SHOWN = (
    'graph [\n  directed 0\n  node [ id 0 label "4" kind "input" turn "0" ]\n  node [ id 1 label "9" kind "input" turn "1" ]\n'
    "  edge [ id 0 source 0 target 1 of 0 ]\n]\n"
)
FIVE = "five 0 1 2 3 4\n" + "".join(f"path 1 {s}\n" for s in range(10))
TREE = "pair 10 11\nleaf 1 1 0 1\npair 0 10\nleaf 1 1 0 1\nplace 10 11\nplace 10 0\nleaf 1 1 0 1\nleaf 1 1 0 1\n"


def gml(nodes, edges):
    blocks = [f"node [ id {v} ]" for v in range(nodes)] + [f"edge [ source {u} target {v} ]" for u, v in edges]
    return " ".join(["graph [", *blocks, "]"])


def cut(nodes, edges):
    """The graph with every edge cut by a node of its own."""
    return nodes + len(edges), [half for i, (u, v) in enumerate(edges) for half in ((u, nodes + i), (nodes + i, v))]


def changed(text, *pairs):
    for old, new in pairs:
        assert old in text, old
        text = text.replace(old, new, 1)
    return text


def files():
    """The texts by their names."""
    k4, k5 = (EXAMPLES / "k4.answer").read_text(), (EXAMPLES / "k5.answer").read_text()
    far = [("graph 5 10", "graph 9 12"), ("edge 3 4\n", "edge 3 4\nedge 5 6\nedge 7 8\n"), ("along 1 0\n", "along 1 0\nalong 0\nalong 0\n")]
    split = changed(k5, *far, ("turn 2 9\n", "turn 2 9\nturn 24 25\nturn 26 27\n"), ("leaf 1 1 0 1\n", TREE))
    weak = changed(split, ("row 10", "row 12"), ("over 9 0\n", "over 9 0\nover 10 1 11\nover 11 1 10\n"))
    weak = changed(weak, (TREE, "pair 10 11\nleaf 1 1 0 9223372036854775807\nleaf 1 0\n"))
    found = {"k4.answer": k4, "k5.answer": k5, "split.answer": split, "weak.answer": weak, "empty.answer": EMPTY, "one.answer": ONE_EDGE}
    found["touch.answer"] = changed(k5, ("6 22\nturn 21 14", "6 21\nturn 1 14"), ("turn 13 1", "turn 13 22"))
    found["genus.answer"] = changed(k4, ("turn 0 11", "turn 0 9"), ("turn 6 5", "turn 6 11"), ("turn 3 9", "turn 3 5"))
    found["extension.answer"] = changed(k5, (FIVE, "extension 10 0 1 2 3 4 5 6 7 8 9\n"))
    found |= {"none.gml": "graph [ ]", "two.gml": TWO_NODES, "k4.gml": gml(4, [e for e in K5 if max(e) < 4]), "k5.gml": gml(5, K5)}
    found |= {"far.gml": gml(9, K5 + [(5, 6), (7, 8)]), "k33.gml": gml(6, K33), "cut.gml": gml(*cut(5, K5))}
    found["loop.gml"] = gml(6, K33 + [(0, 3), (0, 0)])
    for name in ("k6", "petersen", "two_k5"):
        found[f"{name}.gml"] = (EXAMPLES / f"{name}.gml").read_text()
    found["k34.gml"] = gml(7, [(u, v) for u in range(3) for v in range(3, 7)])
    return found


# the words, the status, and what is written; of `solve` the bounds
RUNS = [
    ("examine k4.answer", 0, "drawing crossings 0 nodes 4 edges 6 faces 4 components 1\n"),
    ("examine k5.answer", 0, "drawing crossings 1 nodes 6 edges 12 faces 8 components 1\n"),
    ("examine weak.answer", 0, "drawing crossings 1 nodes 10 edges 14 faces 10 components 3\n"),
    ("examine empty.answer", 0, "drawing crossings 0 nodes 0 edges 0 faces 0 components 0\n"),
    ("examine touch.answer", 1, "refused 38 touch 0 9\n"),
    ("examine genus.answer", 1, "refused 24 genus 4 6 2 1\n"),
    ("examine none.gml", 1, "refused 1 syntax\n"),
    ("check k5.gml k5.answer", 0, "accepted 1 1\n"),
    ("check k5.gml extension.answer", 0, "accepted 1 1\n"),
    ("check far.gml split.answer", 0, "accepted 1 1\n"),
    ("check far.gml weak.answer", 1, "refused 72 weak -322818021289917153210 0\n"),
    ("check k5.gml touch.answer", 1, "refused 38 touch 0 9\n"),
    ("check k5.gml k4.answer", 1, "refused 2 size-differs\n"),
    ("check k5.answer k5.answer", 3, "xnum: graph text refused: syntax at 0\n"),
    ("draw two.gml one.answer", 0, SHOWN),
    ("draw k5.gml k4.answer", 1, "refused 2 size-differs\n"),
    ("draw k5.gml touch.answer", 1, "refused 38 touch 0 9\n"),
    ("solve none.gml", 0, EMPTY),
    ("solve k4.gml", 0, "bounds 0 0"),
    ("solve k5.gml --budget 300", 0, "bounds 1 1"),
    ("solve k5.gml --budget 0", 5, "bounds 0 1"),
    ("solve k33.gml", 0, "bounds 1 1"),
    ("solve loop.gml", 0, "bounds 1 1"),
    ("solve cut.gml", 0, "bounds 1 1"),
    ("solve k34.gml", 0, "bounds 2 2"),
    ("solve two_k5.gml", 0, "bounds 2 2"),
    ("solve k6.gml --budget 2000", 0, "bounds 3 3"),
    ("solve petersen.gml --budget 500", 0, "bounds 2 2"),
    ("solve none", 6, "xnum: a read failed\n"),
    ("cross k5.gml", 2, "xnum: the words are not a command of this program\n"),
]


def write_files(folder):
    for name, text in files().items():
        pathlib.Path(folder, name).write_text(text)


def is_end(run, end):
    """Whether status, standard output and standard error are those of the run."""
    words, status, wanted = run
    if words.startswith("solve") and wanted.startswith("bounds"):
        return end[0] == status and end[2] == "" and f"\n{wanted}\n" in end[1]
    said = "" if status in (0, 1, 5) else wanted
    return end == (status, "" if said else wanted, said)
