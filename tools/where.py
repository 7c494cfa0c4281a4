#!/usr/bin/env python3
"""Says where a refusal of `xnum` lies, and what to look at there.

    ./xnum check GRAPH ANSWER 2>&1 | tools/where.py GRAPH ANSWER
    ./xnum examine ANSWER | tools/where.py ANSWER
    tools/where.py FILE OFFSET              the place of a byte, as in `xnum: graph text refused: syntax at 48`
    tools/where.py FILE line NUMBER         a line, as in `refused 25 syntax`

It prints FILE:LINE:COLUMN, the text there, and a hint; all other lines are handed on. It stands outside the program, which alone says
what is refused. It ends with 1 where it was handed a refusal.
"""
import re
import sys

AROUND = 60
GRAPH_HINTS = {
    "syntax": "this can't stand here: a list is pairs of a key and a value (a number, a \"string\", a word or [ .. ])",
    "deep": "65 lists would be open here",
    "no graph": "the text has no `graph [ .. ]` outside all other lists; capital letters differ from small ones",
    "second graph": "a file has one graph",
    "no id": "this node has no `id`, or this edge no `source` or no `target`",
    "range": "an id is a whole number of 64 bits: renumber ids that are strings or have a point",
    "repeated": "an earlier node has this id",
    "unknown": "no node has this id",
}
ANSWER_HINTS = {
    "syntax": "another key, number of words or sign than the form of this line has, or no line end, or no line",
    "number": "a number here is out of its range",
    "trailing": "nothing stands behind the line `end`",
    "loop": "the two ends of an edge differ",
    "size-differs": "the graph has another number of nodes, edges or loops",
    "edge-differs": "the graph has other ends here, or in the other direction",
    "order": "the edges of a list are edges, stand once, and have this edge in their own lists",
    "dependent": "these two edges share an end, so they don't cross",
    "rotation": "the lines `turn`, two darts each, don't lead round this dart's node",
    "touch": "the edges don't cross but touch: see the darts at their crossing",
    "genus": "V - E + F isn't 2C: the drawing isn't one in the plane",
    "count": "UPPER of the line `bounds`, and the crossings that the drawing has",
    "row": "the row that ends here",
    "tree": "the tree of the answer: this node doesn't fit, or comes too early or too late",
    "weak": "the bound of this leaf, and the number that it has to pass",
}


def place(data, offset):
    """The line, the column and the text of a byte, and how far into the text it is."""
    start = data.rfind(b"\n", 0, offset) + 1
    end = data.find(b"\n", offset)
    text = data[start : end if end >= 0 else len(data)].decode("utf-8", "replace").rstrip("\r").replace("\t", " ")
    column = len(data[start:offset].decode("utf-8", "replace"))
    first = max(0, column - AROUND)
    return data.count(b"\n", 0, offset) + 1, column + 1, text[first : column + AROUND], column - first


def show(name, offset, hint):
    with open(name, "rb") as file:
        data = file.read()
    line, column, text, inset = place(data, offset)
    print(f"{name}:{line}:{column}{': ' + hint if hint else ''}")
    print(f"{text or ('(the end of the file)' if offset >= len(data) else '(an empty line)')}\n{' ' * inset}^")


def start_of(name, number):
    """The offset at which a line begins, or the length of the file."""
    with open(name, "rb") as file:
        lines = file.read().split(b"\n")
    return min(sum(len(line) + 1 for line in lines[: number - 1]), sum(map(len, lines)) + len(lines) - 1)


# Where a refusal at the line `drawn` names an edge or a dart: the key of its lines, and how many darts or edges a line has.
EARLIER = {"order": ("along", 1), "dependent": ("along", 1), "touch": ("along", 1), "rotation": ("turn", 2), "count": ("bounds", 0)}


def show_earlier(name, kind, words):
    """Shows the line of an edge or a dart that a refusal names."""
    key, each = EARLIER[kind]
    with open(name, encoding="utf-8", errors="replace") as file:
        found = [(number, line.rstrip("\n")) for number, line in enumerate(file, 1) if line.split(" ")[0] == key]
    place = int(words.split()[0]) // each if each else 0
    if place < len(found):
        print("see %s:%d: %s" % (name, *found[place]))


def explain(files, line):
    """Whether the line is a refusal, which is then shown."""
    if found := re.fullmatch(r"xnum: graph text refused: (.+?)(?: at (\d+))?", line):
        hint = GRAPH_HINTS.get(found[1], "")
        if found[2]:
            show(files[0], int(found[2]), hint)
        else:
            print(f"{files[0]}: {hint}")
    elif found := re.fullmatch(r"refused (\d+) ([\w-]+)(.*)", line):
        show(files[-1], start_of(files[-1], int(found[1])), ANSWER_HINTS.get(found[2], ""))
        if found[2] in EARLIER:
            show_earlier(files[-1], found[2], found[3])
    else:
        return False
    return True


def main():
    words = sys.argv[1:]
    if len(words) == 2 and words[1].isdecimal():
        show(words[0], int(words[1]), "")
    elif len(words) == 3 and words[1] == "line" and words[2].isdecimal():
        show(words[0], start_of(words[0], int(words[2])), "")
    elif 1 <= len(words) <= 2:
        refused = False
        for line in sys.stdin.read().splitlines():
            print(line)
            refused = explain(words, line) or refused
        sys.exit(1 if refused else 0)
    else:
        sys.exit(__doc__)


main()
