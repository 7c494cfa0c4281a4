#!/usr/bin/env python3
"""Refuses the program memory, one request at a time: python3 tools/refused_memory.py [PROGRAM [MOST]]

For each run of tools/known_runs.py: the first request for memory is refused, then the second alone, and so on until a run isn't refused.
Each of these has to end as the run does, or with status 8, nothing written and `xnum: no memory`. Where a run makes more than MOST requests
(2,000 where it isn't given; 0 for all), the first and the last quarter of MOST are refused and others at random between. Then all requests
from the k-th on are refused, for a tenth as many k. It needs Linux and gcc, which builds tools/refused_memory.c; PROGRAM is
crates/xnum/out/xnum where none is given (not the wrapper: the shell would be refused memory too).
"""
import collections
import os
import pathlib
import random
import subprocess
import sys
import tempfile

import known_runs

TOOLS = pathlib.Path(__file__).resolve().parent
NO_MEMORY = (8, "", "xnum: no memory\n")


class Machine:
    def __init__(self, program, folder):
        self.program, self.folder, self.library = program, folder, f"{folder}/refused_memory.so"
        subprocess.run(["gcc", "-O2", "-Wall", "-shared", "-fPIC", "-o", self.library, TOOLS / "refused_memory.c"], check=True)

    def run(self, words, nth, later=False):
        """The end of a run, whether memory was refused, and the number of requests where it ended by itself."""
        read, write = os.pipe()
        more = {"LD_PRELOAD": self.library, "REFUSE": str(nth), "TELL": str(write)} | ({"LATER": "1"} if later else {})
        child = subprocess.Popen(
            [self.program, *words.split()], cwd=self.folder, stdout=-1, stderr=-1, env=os.environ | more, pass_fds=[write], text=True
        )
        os.close(write)
        out, errors = child.communicate()
        with os.fdopen(read) as told:
            refused, _, count = told.read().partition(" ")
        return (child.returncode, out, errors), refused == "r", int(count or 0)


def numbers(count, most, generator):
    """The requests that are refused, and one more, which no run makes."""
    if not most or count <= most:
        return [*range(1, count + 2)]
    few = most // 4
    return [*range(1, few + 1), *sorted(generator.sample(range(few + 1, count - few), most - 2 * few)), *range(count - few, count + 2)]


def refuse(machine, run, most, generator):
    """Prints what the runs end with, and gives how many ended wrongly."""
    words = run[0]
    whole, _, count = machine.run(words, 0)
    wrong = 0 if known_runs.is_end(run, whole) else 1
    if wrong:
        print(f"{words}: ended with {whole} where nothing was refused")
    ends = collections.Counter()
    tried = [(k, False) for k in numbers(count, most, generator)]
    tried += [(k, True) for k in numbers(count, max(1, most // 10), generator)[:-1]]
    for k, later in tried:
        end, refused, _ = machine.run(words, k, later)
        ends[end[0]] += refused
        fine = end in (whole, NO_MEMORY) if refused else end == whole
        fine = fine and refused == (k <= count)
        if not fine:
            wrong += 1
            print(f"{words}: request {k}{' and later ones' if later else ''} of {count}: {end[0]} {end[1][:80]!r} {end[2]!r}, refused: {refused}")
    told = ", ".join(f"{times} with {status}" for status, times in sorted(ends.items()))
    print(f"{words}: {count} requests, {len(tried)} runs; of those refused ended {told}; {wrong} wrong", flush=True)
    return wrong


def main():
    program = pathlib.Path(sys.argv[1] if len(sys.argv) > 1 else TOOLS.parent / "crates/xnum/out/xnum").resolve()
    most = int(sys.argv[2]) if len(sys.argv) > 2 else 2000
    with tempfile.TemporaryDirectory() as folder:
        known_runs.write_files(folder)
        machine, generator = Machine(program, folder), random.Random(1)
        wrong = sum(refuse(machine, run, most, generator) for run in known_runs.RUNS)
    print(f"{len(known_runs.RUNS)} runs: {'as they should be' if not wrong else f'{wrong} NOT OK'}")
    sys.exit(1 if wrong else 0)


if __name__ == "__main__":
    main()
