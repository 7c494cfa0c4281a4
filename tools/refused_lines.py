#!/usr/bin/env python3
"""Measures what `examine` takes for long lines that it refuses: python3 tools/refused_lines.py [PROGRAM]

Each text is the front of the answer of a triangle and then a line of about 16 MB that is refused. A row tells what is
refused, the line that the program writes, seconds, the size of the file and the greatest memory of the program in MB, and
their quotient. It fails where the program writes another line, or takes more than twice the file.
"""
import os
import pathlib
import subprocess
import sys
import tempfile
import time

HEAD = "crossing-answer 1\ngraph 3 3\n"
EDGES = HEAD + "loops 0\nedge 0 1\nedge 1 2\nedge 2 0\nbounds 0 0\neffort 0 0\n"
DRAWN = EDGES + "along 0\n" * 3 + "turn 5 2\nturn 1 4\nturn 3 0\ndrawn\n"
PATHS = DRAWN + "rows 1\nrow 0\nfive 0 1 2 3 4\n"
TREE = DRAWN + "rows 1\nrow 0\nextension 0\ntree\n"
# What is refused, the lines before, the line's front, how often a word comes, the word, the line's end, the kind.
ROWS = [
    ("more numbers than two", HEAD, "loops 0", 8_000_000, " 7", "", "syntax"),
    ("a count that is wrong", EDGES, "along 7", 8_000_000, " 7", "", "syntax"),
    ("a count past its limit", PATHS, "path 8000000", 8_000_000, " 7", "", "number"),
    ("a word behind numbers that are too large", PATHS, "path 700000", 700_000, " " + "9" * 22, " x", "syntax"),
    ("the last number of a list", PATHS, "path 1000000", 999_999, " 4294967295", " 4294967296", "number"),
    ("the last multiplier of a leaf", TREE, "leaf 1 4000000", 3_999_999, " 0 1", " 0 0", "number"),
    ("the count of a leaf", TREE, "leaf 1 4000000", 4_000_000, " 0 1", " 0", "syntax"),
]
HERE = pathlib.Path(__file__).resolve().parent.parent


# Writes in pieces, since the memory of this process counts for a program that it starts.
def write_text(path, before, front, count, word, end):
    with open(path, "w") as file:
        file.write(before + front)
        whole, rest = divmod(count, 10_000)
        for _ in range(whole):
            file.write(word * 10_000)
        file.write(word * rest + end + "\n")


def main():
    program = sys.argv[1] if len(sys.argv) > 1 else str(HERE / "crates/xnum/out/xnum")
    failed = 0
    with tempfile.TemporaryDirectory() as folder:
        text = os.path.join(folder, "answer")
        for name, before, front, count, word, end, kind in ROWS:
            write_text(text, before, front, count, word, end)
            start = time.monotonic()
            process = subprocess.Popen([program, "examine", text], stdout=subprocess.PIPE)
            out = process.stdout.read().decode()
            _, _, usage = os.wait4(process.pid, 0)
            seconds = time.monotonic() - start
            size, most = os.path.getsize(text) / 1e6, usage.ru_maxrss * 1024 / 1e6
            fine = out == f"refused {before.count(chr(10)) + 1} {kind}\n" and most <= 2 * size
            failed += not fine
            print(f"{name:42} {out.strip():20} {seconds:6.2f} s {size:6.1f} MB {most:6.1f} MB {most / size:5.2f} {'' if fine else 'FAILS'}")
    sys.exit(1 if failed else 0)


main()
