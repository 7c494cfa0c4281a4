"""Random graphs and their texts, and random changes of answers, of graph texts and of words."""
import functools
import re

# where the number of words that follow stands
COUNTS = {"along": 1, "over": 2, "path": 1, "extension": 1, "leaf": 2}
PIECE = re.compile(r'"[^"]*"|[ \t\r\n]+|\[|\]|[^ \t\r\n\[\]"]+')
STRANGE = ["[", "]", '"', '""', "#", "# a ]\n", "\r", "\t", "graph", "node [ id 7 ]", "edge [ source 0 target 1 ]", "id", "source", "target"]
STRANGE += ["Graph", "a.b", "-", "+", ".", "1e", "1e5", ".5", "5.", "-.e1", "1.0", "x-1", "\ufeff", "\u00e9", "\x00", "_", "graph [ ]", "node 1", "id 9 "]
NUMBERS = ["-0", "+0", "00", "007", str(2**63 - 1), str(2**63), str(-(2**63)), str(-(2**63) - 1), "9" * 40, "-1", "1.5", "1e2", "+5"]
WORDS = ["solve", "check", "examine", "draw", "sample", "graph", "answer", "--", "-", "--budget", "--budget=", "--budget=7", "--help", "-h"]
WORDS += ["--version", "-V", "--budget=07", "--budget=200001", "--budget=-1", "-1", "7", "0", "200000", "--bud=7", "missing", "", " ", "---", "é", "--budget 7"]


def other_number(word, generator):
    near = [str(max(0, int(word) + step)) for step in (-2, -1, 1, 2)] if word.isdigit() else []
    far = ["0", "1", "7", "00", "-1", "", "x", str(2**32), str(2**63 - 1), str(2**63), str(2**64), str(2**70)]
    return generator.choice(near * 20 + far)


def kinds_of(lines):
    """The places of the lines of each kind."""
    kinds = {}
    for i, line in enumerate(lines):
        kinds.setdefault(line.partition(" ")[0], []).append(i)
    return kinds


@functools.lru_cache(1 << 8)
def lines_of(data):
    """The lines of an answer, and their kinds."""
    lines = data.decode().splitlines()
    return lines, kinds_of(lines)


def some_place(words, generator):
    """A place of a number, seldom that of a count."""
    j = generator.randrange(1, len(words))
    return generator.randrange(1, len(words)) if j == COUNTS.get(words[0]) else j


def some_line(lines, kinds, generator):
    """The number of a line, seldom of one with nothing but a count. A kind of line is chosen first, since some kinds have many lines."""
    kinds = list(kinds.values())
    for _ in range(4):
        i = generator.choice(generator.choice(kinds))
        words = lines[i].split(" ")
        if len(words) > COUNTS.get(words[0], 0) + 1:
            break
    return i


def changed_lines(lines, kinds, generator):
    """The lines with one change."""
    lines = lines[:]
    i = some_line(lines, kinds, generator)
    kind = generator.choice([*range(16), *range(16), *range(16, 20)])
    words = lines[i].split(" ")
    if kind < 11 and len(words) > 1:
        j = some_place(words, generator)
        words[j] = other_number(words[j], generator)
        lines[i] = " ".join(words)
    elif kind < 16 and len(words) > 1:
        like = generator.choice(kinds[words[0]])
        others = words if like == i else lines[like].split(" ")
        j, k = some_place(words, generator), some_place(others, generator) if len(others) > 1 else 0
        words[j], others[k] = others[k], words[j]
        lines[i], lines[like] = " ".join(words), " ".join(others)
    elif kind == 16:
        del lines[i]
    elif kind == 17:
        lines.insert(i, generator.choice(lines))
    elif kind == 18:
        j = generator.randrange(len(lines))
        lines[i], lines[j] = lines[j], lines[i]
    else:
        lines[i] += generator.choice([" ", "  1", "\t", "\r", " 0"])
    return lines


def changed_answer(data, generator):
    """The answer with one to three changes of lines, and now and then of its end."""
    lines, kinds = lines_of(data)
    for _ in range(generator.choice([1, 1, 1, 2, 3])):
        lines = changed_lines(lines, kinds or kinds_of(lines), generator) if lines else ["end"]
        kinds = None
    data = "".join(line + "\n" for line in lines).encode()
    if generator.randrange(20) == 0:
        data = generator.choice([data[:-1], data + b"\n", data + b"e", data[: generator.randrange(len(data))]])
    return data


def changed_graph(data, generator):
    """The text of a graph with one to three changes of its pieces, or of a byte."""
    pieces = PIECE.findall(data.decode("latin-1"))
    for _ in range(generator.choice([1, 1, 1, 2, 3])):
        i, j = generator.randrange(len(pieces)), generator.randrange(len(pieces))
        kind = generator.randrange(12)
        if kind < 4:
            numbers = [k for k, piece in enumerate(pieces) if piece.isdigit()]
            k = generator.choice(numbers) if numbers else i
            pieces[k] = generator.choice(NUMBERS + ["0", "1", "2", "3", "11"])
        elif kind < 7:
            pieces.insert(i, f" {generator.choice(STRANGE)} ")
        elif kind == 7:
            pieces[i] = generator.choice(STRANGE)
        elif kind == 8 and len(pieces) > 1:
            del pieces[i]
        elif kind == 9:
            pieces[i], pieces[j] = pieces[j], pieces[i]
        elif kind == 10:
            i, j = min(i, j), min(max(i, j), i + 30)
            pieces[j:j] = pieces[i:j]
        else:
            pieces[i] = " " if pieces[i].isspace() else pieces[i][: generator.randrange(len(pieces[i]) + 1)]
    data = "".join(pieces).encode()
    if generator.randrange(15) == 0:
        i = generator.randrange(len(data) + 1)
        data = generator.choice([data[:i], data[:i] + bytes([generator.randrange(256)]) + data[i + 1 :], b"\xef\xbb\xbf" + data, data + b"#"])
    return data


def changed_words(words, generator):
    """The words with one or two changes."""
    words = words[:]
    for _ in range(generator.choice([1, 1, 1, 2])):
        i = generator.randrange(len(words) + 1)
        kind = generator.choice([0, 1, 1, 2, 3, 3, 4, 4])
        if kind == 0 and i < len(words):
            del words[i]
        elif kind == 1 and i < len(words):
            words[i] = generator.choice(WORDS).encode()
        elif kind == 2 and len(words) > 1:
            generator.shuffle(words)
        elif kind == 4:
            words.insert(i, generator.choice([b"--", b"--budget=7", b"--budget=200000", b"--budget=0"]))
        else:
            words.insert(i, generator.choice(WORDS).encode())
    if generator.randrange(20) == 0:
        words.insert(generator.randrange(len(words) + 1), b"a\xff")
    return words


def made_graph(generator):
    """The text of a random graph of few nodes and edges, now and then with loops and parallel edges, with its blocks in any order."""
    names = generator.sample(range(-9, 99), generator.randrange(2, 9))
    few = generator.randrange(0, min(13, 1 + len(names) * (len(names) - 1) // 2))
    pairs = [(u, v) for i, u in enumerate(names) for v in names[:i]]
    edges = generator.sample(pairs, min(few, len(pairs)))
    edges += generator.choices(edges, k=1) if edges and generator.randrange(4) == 0 else []
    edges += [(names[0], names[0])] if generator.randrange(4) == 0 else []
    blocks = [f"node [ id {name} ]" for name in names] + [f"edge [ source {u} target {v} ]" for u, v in edges]
    if generator.randrange(3) == 0:
        generator.shuffle(blocks)
    space = generator.choice([" ", "\n", "\r\n", "\n# a comment ]\n"])
    return space.join(["graph [", *blocks, "]"]).encode()
