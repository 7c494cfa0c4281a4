#!/usr/bin/env python3
"""Checks an answer for a graph, plainly and slowly: python3 tools/plain_check.py GRAPH ANSWER [EVERY]

It prints `accepted LOWER UPPER`, or `refused LINE ..` with the first flaw; `see` judges a drawing alone. It shares nothing with the program:
bounds are sums of whole numbers variable by variable, components are found by walks, and flat insertions are all tried. With EVERY, only
each EVERYth leaf has its bound computed; all else is still checked. The graph's text is taken to be GML that the program would read.
"""
import functools
import re
import sys

from plain_rules import Flaw, State, bound, examine, independent_pairs, read_gml, row_flaw, row_terms

NUMBER = re.compile(rb"0|[1-9][0-9]*")
WORD = 1 << 32
END = b"end", ()
# numbers may have any length
getattr(sys, "set_int_max_str_digits", int)(0)


class Refused(Exception):
    """The line and what is wrong with it."""

    def __init__(self, line, text):
        super().__init__(f"refused {line} {text}")


@functools.lru_cache(1 << 16)
def parted(line):
    """The first word of a line, and the numbers behind it; None for them where a word isn't one."""
    key, *words = line.split(b" ")
    return key, tuple(map(int, words)) if all(map(NUMBER.fullmatch, words)) else None


class Text:
    def __init__(self, data):
        self.data, self.at, self.number = data, 0, 0

    def next(self):
        """The next line, parted."""
        self.number += 1
        end = self.data.find(b"\n", self.at)
        if end < 0:
            self.refuse("syntax")
        line = self.data[self.at : end]
        self.at = end + 1
        return parted(line)

    def refuse(self, text):
        raise Refused(self.number, text)

    def range_test(self, *bounds):
        """Pairs of a number and the first one past its range."""
        for number, end in bounds:
            if number >= end:
                self.refuse("number")

    def list_test(self, count, end, numbers):
        """The count of a list and its first one past its range; the numbers of the list."""
        self.range_test((count, end), (max(numbers, default=0), WORD))

    def line(self, key, count):
        """The numbers of a line with so many numbers."""
        return self.numbers(self.next(), key, count)

    def numbers(self, line, key, count):
        found = line[1]
        if line[0] != key or found is None:
            self.refuse("syntax")
        if isinstance(count, int):
            good = len(found) == count
        else:
            place, width = count  # the number at this place says how many groups of this width follow
            good = len(found) > place and len(found) == place + 1 + found[place] * width
        if not good:
            self.refuse("syntax")
        return found

    def marker(self, key, *numbers):
        if self.next() != (key, numbers):
            self.refuse("syntax")

    def judged(self, call, prefix=""):
        try:
            return call()
        except Flaw as flaw:
            self.refuse(prefix + str(flaw))


def read_edges(text, graph):
    """The number of nodes and the edges: those of the graph where one is given."""
    text.marker(b"crossing-answer", 1)
    n, m = text.line(b"graph", 2)
    text.range_test((n, 1001), (m, 1001))
    if graph and (n, m) != (graph[0], len(graph[1])):
        text.refuse("size-differs")
    (said,) = text.line(b"loops", 1)
    text.range_test((said, 1 << 64))
    if graph and said != graph[2]:
        text.refuse("size-differs")
    edges = []
    for e in range(m):
        u, v = text.line(b"edge", 2)
        text.range_test((u, n), (v, n))
        if u == v:
            text.refuse(f"loop {e}")
        if graph and (u, v) != graph[1][e]:
            text.refuse(f"edge-differs {e}")
        edges.append((u, v))
    return n, tuple(edges)


def read_front(text, graph):
    """The drawing (nodes, edges, orders, turns), its counts and the lower bound; of the graph where one is given."""
    nodes, edges = read_edges(text, graph)
    lower, upper = text.line(b"bounds", 2)
    text.range_test((lower, 499501), (upper, 499501))
    spent, budget = text.line(b"effort", 2)
    text.range_test((budget, 200001), (spent, budget + 1))
    orders = []
    for _ in edges:
        k, *own = text.line(b"along", (0, 1))
        text.list_test(k, 1000, own)
        orders.append(tuple(own))
    turns = []
    for _ in range(len(edges) + sum(map(len, orders))):
        turns += text.line(b"turn", 2)
        text.range_test((turns[-2], WORD), (turns[-1], WORD))
    text.marker(b"drawn")
    drawing = nodes, edges, tuple(orders), tuple(turns)
    counts = text.judged(lambda: examine(*drawing))
    if counts[0] != upper:
        text.refuse(f"count {upper} {counts[0]}")
    return drawing, counts, lower


def read_row(text, edges):
    (size,) = text.line(b"row", 1)
    text.range_test((size, len(edges) + 1))
    listed, lists = [], []
    for _ in range(size):
        e, k, *own = text.line(b"over", (1, 1))
        text.list_test(k, 1000, [e, *own])
        listed.append(e)
        lists.append(tuple(own))
    line = text.next()
    if line[0] == b"extension":
        k, *paths = text.numbers(line, b"extension", (0, 1))
        text.list_test(k, 1000001, paths)
        return tuple(listed), tuple(lists), b"extension", (), tuple(paths)
    kind = b"three" if line[0] == b"three" else b"five"
    branch = text.numbers(line, kind, 6 if kind == b"three" else 5)
    text.range_test((max(branch), WORD))
    paths = []
    for _ in range(9 if kind == b"three" else 10):
        k, *path = text.line(b"path", (0, 1))
        text.list_test(k, 1000001, path)
        paths.append(tuple(path))
    return tuple(listed), tuple(lists), kind, branch, tuple(paths)


def read_step(text, line, edges, rows):
    """A node line: its key, and a divisor and parts, or two edges."""
    if line[0] == b"leaf":
        divisor, _, *flat = text.numbers(line, b"leaf", (1, 2))
        if max(flat[::2], default=-1) >= rows or not all(0 < x < 1 << 63 for x in [divisor, *flat[1::2]]):
            text.refuse("number")
        return b"leaf", divisor, list(zip(flat[::2], flat[1::2]))
    kind = b"place" if line[0] == b"place" else b"pair"
    e, f = text.numbers(line, kind, 2)
    text.range_test((e, len(edges)), (f, len(edges)))
    return kind, e, f


def judge_leaf(text, number, parts, state, given, every):
    """Judges a leaf. Given are the divisor, the pairs, the terms of the rows, the lower bound and the number of leaves so far."""
    divisor, pairs, terms, lower, leaves = given
    if state is None or any(a >= b for (a, _), (b, _) in zip(parts, parts[1:])):
        text.refuse(f"tree {number}")
    if leaves % every == 0:
        found, need = bound(pairs, terms, state, divisor, parts), divisor * (lower - 1)
        if found <= need:
            text.refuse(f"weak {found} {need}")


kept_pairs = functools.lru_cache(1 << 8)(independent_pairs)


def judge_tree(text, edges, terms, lower, every):
    pairs = kept_pairs(edges)
    pending, number, leaves = [State({}, {})], 0, 0
    while True:
        line = text.next()
        if line == END:
            break
        kind, first, second = read_step(text, line, edges, len(terms))
        state = pending.pop() if pending else None
        if kind == b"leaf":
            judge_leaf(text, number, second, state, (first, pairs, terms, lower, leaves), every)
            leaves += 1
        else:
            children = state.children(edges, kind, first, second) if state else None
            if children is None:
                text.refuse(f"tree {number}")
            pending += reversed(children)
        number += 1
    if pending:
        text.refuse(f"tree {number}")


def read_rows(text, edges):
    """The rows one by one, each when its lines are read."""
    (count,) = text.line(b"rows", 1)
    text.range_test((count, (1 << 20) + 1))
    for _ in range(count):
        yield read_row(text, edges)


def ends(text):
    if text.at < len(text.data):
        text.number += 1
        text.refuse("trailing")


def check(graph, data, every=1):
    """The bounds that are accepted; raises what is refused."""
    nodes, edges = graph[0], tuple(graph[1])
    text = Text(data)
    _, counts, lower = read_front(text, graph)
    terms = []
    for i, row in enumerate(read_rows(text, edges)):
        text.judged(lambda: row_flaw(nodes, edges, row), f"row {i} ")
        terms.append(row_terms(edges, row))
    text.marker(b"tree")
    judge_tree(text, edges, terms, lower, every)
    ends(text)
    return lower, counts[0]


def see(graph, data):
    """The drawing and its counts, where the lines behind it have their form; of the graph where one is given."""
    text = Text(data)
    drawing, counts, _ = read_front(text, graph)
    rows = sum(1 for _ in read_rows(text, drawing[1]))
    text.marker(b"tree")
    while (line := text.next()) != END:
        read_step(text, line, drawing[1], rows)
    ends(text)
    return drawing, counts


def main():
    graph = read_gml(open(sys.argv[1], encoding="latin-1").read())
    data = open(sys.argv[2], "rb").read()
    try:
        lower, upper = check(graph, data, int(sys.argv[3]) if len(sys.argv) > 3 else 1)
        print("accepted", lower, upper)
    except Refused as refused:
        print(refused)
        sys.exit(1)


if __name__ == "__main__":
    main()
