#!/usr/bin/env python3
"""Writes a long GML text of a graph with 1,000 nodes and 1,000 edges: python3 tools/large_gml.py BYTES [SEED] > file

Nearly all of its bytes are attributes that a reader of graphs skips: deep lists, long strings with brackets and ends of lines in them,
comments, numbers and words. The ids are apart and large, edges stand among the nodes, and the last line says what the graph is:
`# 1000 nodes, 1000 edges, L loops`.
"""
import random
import sys

NODES = EDGES = 1000


def attributes(generator, size):
    """Pairs to be skipped, of at least so many bytes."""
    pieces, length = [], 0
    while length < size:
        kind = generator.randrange(6)
        if kind == 0:
            piece = '  text "' + "a ] [ b\n # c " * generator.randrange(1, 400) + '"\n'
        elif kind == 1:
            depth = generator.randrange(1, 60)
            piece = "  " + "list [ " * depth + "id 1 source 2 node [ id 3 ] " + "] " * depth + "\n"
        elif kind == 2:
            piece = "  Line [\n" + "".join(
                f"    point [ x {generator.uniform(-1e6, 1e6)!r} y {generator.uniform(-1, 1) * 1e-7!r} ]\n"
                for _ in range(generator.randrange(1, 100))
            ) + "  ]\n"
        elif kind == 3:
            piece = "  # " + 'comment [ " ' * generator.randrange(1, 200) + "\n"
        elif kind == 4:
            piece = "".join(f"\tkey_{i}\t{generator.getrandbits(62)}\r\n" for i in range(generator.randrange(1, 50)))
        else:
            piece = " " * generator.randrange(1, 2000) + "word Yes " * generator.randrange(1, 50) + "\n"
        pieces.append(piece)
        length += len(piece)
    return "".join(pieces)


def main():
    size = int(sys.argv[1])
    generator = random.Random(sys.argv[2] if len(sys.argv) > 2 else "0")
    ids = list({generator.getrandbits(64) - 2**63 for _ in range(NODES)})
    assert len(ids) == NODES
    loops = generator.randrange(1, 100)
    items = [("node", f"id {name}") for name in ids]
    for e in range(EDGES):
        items.append(("edge", "source {} target {}".format(*generator.sample(ids, 2))))
    items += [("edge", f"target {name} source {name}") for name in generator.choices(ids, k=loops)]
    generator.shuffle(items)
    each = size // (len(items) + 1)
    write = sys.stdout.write
    write("Creator \"tools/large_gml.py\"\n" + attributes(generator, each) + "graph [\n")
    for key, words in items:
        # what counts stands behind what is skipped
        write(f"{key} [\n" + attributes(generator, generator.randrange(2 * each - 1)) + f"  {words}\n]\n")
    write(f"]\n# {NODES} nodes, {EDGES} edges, {loops} loops\n")


main()
