#!/usr/bin/env python3
"""Reads a graph's text by the rules of docs/FORMATS.md, plainly: python3 tools/plain_gml.py GRAPH

It prints the numbers of nodes, edges and loops, or ends as `xnum` does, with the same status and text on standard error. It shares
nothing with the program: tokens are found by one expression, and all pairs are kept.
"""
import functools
import re
import sys

MOST = 1000
WORD = re.compile(rb"[A-Za-z_][A-Za-z0-9_]*")
NUMBER = re.compile(rb"[+-]?(?:[0-9]+\.?[0-9]*|\.[0-9]+)(?:[Ee][+-]?[0-9]+)?")
INTEGER = re.compile(rb"[+-]?[0-9]+")
TOKEN = re.compile(rb'[ \t\r\n]+|#[^\r\n]*|(?P<list>[\[\]])|(?P<string>"[^"]*")|(?P<cut>"[^"]*\Z)|(?P<run>[^ \t\r\n\[\]"]+)')
# numbers may have any length
getattr(sys, "set_int_max_str_digits", int)(0)


class Ended(Exception):
    """The status that the program ends with, and what it says."""

    def __init__(self, status, text):
        super().__init__(status, text)
        self.status, self.text = status, text


def refused(kind, at):
    return Ended(3, f"xnum: graph text refused: {kind} at {at}\n")


@functools.lru_cache(1 << 12)
def formed(run):
    """The run, or nothing where it is malformed."""
    return run if WORD.fullmatch(run) or NUMBER.fullmatch(run) else b""


def tokens_of(data):
    """The tokens with their offsets; what is malformed is a token of no kind."""
    for found in TOKEN.finditer(data, 3 if data.startswith(b"\xef\xbb\xbf") else 0):
        if found.lastgroup == "run":
            yield formed(found.group()), found.start()
        elif found.lastgroup == "cut":
            yield b"", len(data)
        elif found.lastgroup:
            yield found.group(), found.start()


def pairs_of(data):
    """The pairs at the top. A pair is its key, its value (a token, or a list of pairs), and the offsets of both."""
    open_lists, key = [[]], None
    for token, at in tokens_of(data):
        if key is None and token == b"]" and len(open_lists) > 1:
            open_lists.pop()
        elif key is None:
            if not WORD.fullmatch(token):
                raise refused("syntax", at)
            key = token, at
        elif token in (b"", b"]"):
            raise refused("syntax", at)
        else:
            value = [] if token == b"[" else token
            open_lists[-1].append((key[0], value, key[1], at))
            key = None
            if token == b"[":
                open_lists.append(value)
                if len(open_lists) > 65:
                    raise refused("deep", at)
    if key is not None or len(open_lists) > 1:
        raise refused("syntax", len(data))
    return open_lists[0]


def blocks(pairs, key):
    return [(value, at) for name, value, _, at in pairs if name == key and isinstance(value, list)]


def first(block, key):
    """The first value with this key in a block, and its offset; or the refusal at the block."""
    pairs, at = block
    found = next(((value, offset) for name, value, _, offset in pairs if name == key), None)
    if found is None:
        raise refused("no id", at)
    return found


def integer(found):
    value, at = found
    if isinstance(value, list) or not INTEGER.fullmatch(value) or not -(1 << 63) <= int(value) < 1 << 63:
        raise refused("range", at)
    return int(value)


def node_numbers(graph):
    """The number of each id."""
    numbers = {}
    for n, block in enumerate(blocks(graph, b"node")):
        if n == MOST:
            raise Ended(4, "xnum: more than 1000 nodes\n")
        found = first(block, b"id")
        name = integer(found)
        if name in numbers:
            raise refused("repeated", found[1])
        numbers[name] = n
    return numbers


@functools.lru_cache(1 << 8)
def read(data):
    """The number of nodes, the edges, the number of loops, and the ids."""
    graphs = [(value, at) for name, value, at, _ in pairs_of(data) if name == b"graph" and isinstance(value, list)]
    if not graphs:
        raise Ended(3, "xnum: graph text refused: no graph\n")
    if len(graphs) > 1:
        raise refused("second graph", graphs[1][1])
    graph = graphs[0][0]
    numbers, edges, loops = node_numbers(graph), [], 0
    for block in blocks(graph, b"edge"):
        found = [first(block, key) for key in (b"source", b"target")]
        names = [integer(end) for end in found]
        for name, (_, at) in zip(names, found):
            if name not in numbers:
                raise refused("unknown", at)
        u, v = (numbers[name] for name in names)
        if u == v:
            loops += 1
        elif len(edges) == MOST:
            raise Ended(4, "xnum: more than 1000 edges\n")
        else:
            edges.append((u, v))
    return len(numbers), edges, loops, list(numbers)


def main():
    try:
        nodes, edges, loops, _ = read(open(sys.argv[1], "rb").read())
        print(nodes, len(edges), loops)
    except Ended as ended:
        sys.stderr.write(ended.text)
        sys.exit(ended.status)


if __name__ == "__main__":
    main()
