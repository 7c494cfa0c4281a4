#!/usr/bin/env python3
"""Compares the program with plain judges on texts and words changed at random: python3 tools/compare_checks.py COUNT [PROGRAM [SEED [WORKERS]]]

COUNT runs are made of `solve`, `check`, `examine` and `draw`, on the answers of examples/ and on answers that `solve` made of random small
graphs, on their graphs, and on words: all of them changed at random. Status, standard output and standard error have to be those of
tools/plain_ends.py; an answer that `solve` writes has to be accepted by tools/plain_check.py. Files and words of a run that differs are kept
in /tmp/differs-SEED-CHUNK-N. Chunks of 2,500 runs are made by so many WORKERS side by side, 1 where none is given; what they make is the
same with any number of workers. It needs Linux. PROGRAM is crates/xnum/out/xnum where none is given (not the wrapper, which takes longer
than the program), SEED is 1.
"""
import collections
import functools
import multiprocessing
import os
import pathlib
import random
import shlex
import sys
import tempfile
import time

import changes
import plain_ends

TOP = pathlib.Path(__file__).resolve().parent.parent
MEMORY = "/dev/shm" if os.path.isdir("/dev/shm") else None
CHUNK = 2500
# how many graphs that `solve` answered are kept beside those of examples/
KEPT = 40


class Program:
    """Runs the program in the folder that one is in. Both outputs are files in memory, made once."""

    def __init__(self, path):
        self.path, self.outputs = path, [os.memfd_create(name) for name in ("written", "said")]
        self.actions = [(os.POSIX_SPAWN_DUP2, output, number) for number, output in enumerate(self.outputs, 1)]

    def run(self, words):
        for output in self.outputs:
            os.ftruncate(output, 0)
            os.lseek(output, 0, os.SEEK_SET)
        child = os.posix_spawn(self.path, [self.path, *words], {}, file_actions=self.actions)
        status = os.waitstatus_to_exitcode(os.waitpid(child, 0)[1])
        return status, *(os.pread(output, os.fstat(output).st_size, 0).decode("latin-1") for output in self.outputs)


class Trials:
    """Runs in the folder that one is in."""

    def __init__(self, program, name):
        self.program, self.name, self.generator = Program(program), name, random.Random(name)
        self.pairs = []
        for graph in sorted(TOP.glob("examples/*.gml")):
            self.pairs.append((graph.read_bytes(), graph.with_suffix(".answer").read_bytes()))
        self.given = len(self.pairs)
        self.files, self.seen, self.differing = {}, collections.Counter(), 0

    def put(self, graph, answer):
        for name, data in ((b"graph", graph), (b"answer", answer)):
            if self.files.get(name) != data:
                self.files[name] = data
                with open(name, "wb", buffering=0) as file:
                    file.write(data)

    def compare(self, words):
        """Runs the words; where `solve` ended as it should, its answer."""
        wanted, got = plain_ends.wanted(words, self.files), self.program.run(words)
        flaw = None
        if len(wanted) == 2:
            flaw = plain_ends.solve_flaw(*wanted, got)
        elif wanted != got:
            flaw = f"wanted {wanted}, got {got}"
        shown = (got[1] if got[0] == 1 else got[2]).split()
        told = " ".join(word for word in shown if not word.lstrip("-").isdigit())
        command = words[0].decode("latin-1") if words and got[0] != 2 else "words"
        self.seen[f"{command} {got[0]} {told}".strip()] += 1
        if flaw:
            self.keep(words, flaw)
        return got[1].encode() if len(wanted) == 2 and not flaw else None

    def keep(self, words, flaw):
        place = pathlib.Path(f"/tmp/differs-{self.name}-{self.differing}")
        place.mkdir(exist_ok=True)
        for name, data in self.files.items():
            (place / name.decode()).write_bytes(data)
        line = shlex.join(word.decode("utf-8", "surrogateescape") for word in words)
        (place / "words").write_text(f"{line}\n{flaw}\n", errors="surrogateescape")
        print(f"{place}: xnum {line}: {flaw}".encode(errors="replace").decode()[:2000], flush=True)
        self.differing += 1

    def solve(self):
        """Solves a new graph; its answer is changed later."""
        graph = changes.made_graph(self.generator)
        self.put(graph, b"")
        budget = self.generator.choice([0, 1, 3, 30, 300])
        answer = self.compare([b"solve", b"graph", b"--budget", str(budget).encode()])
        if answer:
            if len(self.pairs) == self.given + KEPT:
                del self.pairs[self.generator.randrange(self.given, len(self.pairs))]
            self.pairs.append((graph, answer))

    def trial(self):
        generator = self.generator
        kind = generator.randrange(20)
        graph, answer = generator.choice(self.pairs)
        if kind == 0:
            return self.solve()
        if kind < 12:
            self.put(graph, changes.changed_answer(answer, generator))
            command = generator.choice([b"check", b"check", b"check", b"draw", b"examine"])
            return self.compare([command, b"answer"] if command == b"examine" else [command, b"graph", b"answer"])
        if kind < 17:
            self.put(changes.changed_graph(graph, generator), answer)
            return self.compare(generator.choice([[b"check", b"graph", b"answer"], [b"draw", b"graph", b"answer"], [b"solve", b"graph", b"--budget=0"]]))
        graph, answer = generator.choice(self.pairs[self.given :] or self.pairs)  # small ones: a budget may be large
        self.put(graph, answer)
        words = [[b"check", b"graph", b"answer"], [b"draw", b"graph", b"answer"], [b"examine", b"answer"], [b"solve", b"graph", b"--budget", b"2"]]
        return self.compare(changes.changed_words(generator.choice(words), generator))


def made(program, seed, part):
    """Makes the runs of a chunk, given by its number and size: how they ended, and how many differ."""
    number, count = part
    with tempfile.TemporaryDirectory(dir=MEMORY) as folder:
        os.chdir(folder)
        trials = Trials(program, f"{seed}-{number}")
        for _ in range(5):
            trials.solve()
        for _ in range(count):
            trials.trial()
        os.chdir("/")
    return count, trials.seen, trials.differing


def main():
    count, *more = sys.argv[1:]
    program = pathlib.Path(more[0]) if more else TOP / "crates/xnum/out/xnum"
    seed, workers = (int(more[i]) if len(more) > i else 1 for i in (1, 2))
    parts = [(number, min(CHUNK, int(count) - start)) for number, start in enumerate(range(0, int(count), CHUNK))]
    start, done, seen, differing = time.monotonic(), 0, collections.Counter(), 0
    with multiprocessing.Pool(workers) as pool:
        for runs, ends, wrong in pool.imap_unordered(functools.partial(made, str(program.resolve()), seed), parts):
            done, differing = done + runs, differing + wrong
            seen += ends
            print(f"{done} runs in {time.monotonic() - start:.0f} s, {differing} differ", file=sys.stderr, flush=True)
    for text, times in seen.most_common():
        print(f"{times:7} {text}")
    print(f"{done} runs in {time.monotonic() - start:.0f} s, {sum(os.times()[:4]):.0f} s of a processor, {differing} differ")
    sys.exit(1 if differing else 0)


if __name__ == "__main__":
    main()
