#!/usr/bin/env python3
"""Runs the program to each of its ends, and compares status, standard output and standard error: python3 tools/ends.py [PROGRAM]

PROGRAM is `./xnum` where none is given. A write fails on /dev/full, and memory is wanting where it is limited to 64 MB.
It ends with 1 where something differs.
"""
import pathlib
import resource
import subprocess
import sys
import tempfile

TOP = pathlib.Path(__file__).resolve().parent.parent
EXAMPLES = TOP / "examples"
K4 = "drawing crossings 0 nodes 4 edges 6 faces 4 components 1\n"
FILES = {
    "id.gml": "graph [ node [ id ] ]",
    "none.gml": "",
    "nodes.gml": "graph [ " + "".join(f"node [ id {i} ] " for i in range(1001)) + "]",
    "edges.gml": "graph [ node [ id 0 ] node [ id 1 ] " + "edge [ source 0 target 1 ] " * 1001 + "]",
}
# the words, the status, standard output (its first line, where an answer is written), standard error
ENDS = [
    ("examine k4.answer", 0, K4, ""),
    ("check k5.gml k4.answer", 1, "refused 2 size-differs\n", ""),
    ("cross k4.answer", 2, "", "xnum: the words are not a command of this program\n"),
    ("check id.gml k4.answer", 3, "", "xnum: graph text refused: syntax at 18\n"),
    ("check none.gml k4.answer", 3, "", "xnum: graph text refused: no graph\n"),
    ("check nodes.gml k4.answer", 4, "", "xnum: more than 1000 nodes\n"),
    ("check edges.gml k4.answer", 4, "", "xnum: more than 1000 edges\n"),
    ("solve k5.gml --budget 0", 5, "crossing-answer 1\n", ""),
    ("examine missing", 6, "", "xnum: a read failed\n"),
    ("examine k4.answer", 7, None, "xnum: a write failed\n"),
    ("examine long", 8, "", "xnum: no memory\n"),
]


def limit():
    resource.setrlimit(resource.RLIMIT_AS, (1 << 26, 1 << 26))


def ended(program, folder, words, status, written):
    """How a run ends, what it writes, and what it says."""
    out = subprocess.PIPE if written is not None else open("/dev/full", "w")
    few = limit if status == 8 else None
    child = subprocess.run([program, *words.split()], cwd=folder, stdout=out, stderr=subprocess.PIPE, text=True, preexec_fn=few)
    wrote = child.stdout
    if words.startswith("solve") and wrote:
        wrote = wrote.partition("\n")[0] + "\n"
    return child.returncode, wrote, child.stderr


def main():
    program = pathlib.Path(sys.argv[1] if len(sys.argv) > 1 else TOP / "xnum").resolve()
    fine = True
    with tempfile.TemporaryDirectory() as folder:
        for name, text in FILES.items():
            pathlib.Path(folder, name).write_text(text)
        for name in ("k4.answer", "k5.gml"):
            pathlib.Path(folder, name).write_bytes((EXAMPLES / name).read_bytes())
        with open(pathlib.Path(folder, "long"), "wb") as file:
            file.truncate(1 << 27)
        for words, status, written, said in ENDS:
            got = ended(program, folder, words, status, written)
            if got != (status, written, said):
                print(f"{words}: {got}, and not {(status, written, said)}")
                fine = False
    print(f"{len(ENDS)} ends: {'as they should be' if fine else 'NOT OK'}")
    sys.exit(0 if fine else 1)


main()
