#!/usr/bin/env python3
"""Times `xnum check` and reads the most memory that it held: python3 tools/time_check.py FOLDER [PROGRAM]

It makes the files of tools/checked_answers.py, those of tools/hanging_answer.py with 8 and 990 segments and a text of 50 MB of
tools/large_gml.py in FOLDER, where they aren't there yet, and runs `./xnum check`, or PROGRAM, three times on each. It ends with 1 where an output isn't the known one, or a limit is passed.
"""
import os
import pathlib
import subprocess
import sys
import time

TOOLS = pathlib.Path(__file__).resolve().parent
# the graph, the answer, what is printed, the seconds, the file whose bytes times 3 limit the memory
RUNS = [
    ("k6.gml", "k6.answer", "accepted 3 3", 0.2, None),
    ("petersen.gml", "petersen.answer", "accepted 2 2", 0.2, None),
    ("searched.gml", "searched.answer", "accepted 3 3", 0.2, None),
    ("hanging8.gml", "hanging8.answer", "accepted 1 1", 0.01, None),
    ("hanging990.gml", "hanging990.answer", "accepted 1 1", 1, None),
    ("large.gml", "large.answer", "accepted 3 3", 10, "large.answer"),
    ("long.gml", "k6.answer", "refused 2 size-differs", 2, "long.gml"),
]


def make(folder):
    missing = [name for name in ("k6", "petersen", "searched", "large") if not (folder / f"{name}.answer").exists()]
    if missing:
        subprocess.run([sys.executable, TOOLS / "checked_answers.py", folder, *missing], check=True)
    for count in (8, 990):
        graph, answer = folder / f"hanging{count}.gml", folder / f"hanging{count}.answer"
        if not answer.exists():
            subprocess.run([sys.executable, TOOLS / "hanging_answer.py", str(count), graph, answer], check=True)
    if not (folder / "long.gml").exists():
        with open(folder / "long.gml", "w") as file:
            subprocess.run([sys.executable, TOOLS / "large_gml.py", "50000000"], check=True, stdout=file)


def run(program, graph, answer):
    """What is printed, the seconds, the processor's seconds and the bytes held."""
    start = time.perf_counter()
    child = subprocess.Popen([program, "check", graph, answer], stdout=subprocess.PIPE, text=True)
    printed = child.stdout.read().strip()
    _, _, used = os.wait4(child.pid, 0)
    child.returncode = 0
    return printed, time.perf_counter() - start, used.ru_utime + used.ru_stime, used.ru_maxrss * 1024


def main():
    folder = pathlib.Path(sys.argv[1])
    program = pathlib.Path(sys.argv[2]).resolve() if len(sys.argv) > 2 else TOOLS.parent / "xnum"
    make(folder)
    fine = True
    for graph, answer, wanted, seconds, measure in RUNS:
        runs = [run(program, folder / graph, folder / answer) for _ in range(3)]
        printed = {printed for printed, _, _, _ in runs}
        clock, processor = min(r[1] for r in runs), min(r[2] for r in runs)
        held = max(r[3] for r in runs)
        size = (folder / measure).stat().st_size if measure else None
        good = printed == {wanted} and processor <= seconds and (size is None or held <= 3 * size)
        share = f", {held / size:.2f} times the file" if size else ""
        print(f"{graph} {answer}: {' / '.join(printed)}; {clock:.2f} s, of the processor {processor:.2f} s, limit {seconds} s;", end=" ")
        print(f"{held / 1e6:.1f} MB{share}; {'ok' if good else 'NOT OK'}", flush=True)
        fine = fine and good
    sys.exit(0 if fine else 1)


main()
