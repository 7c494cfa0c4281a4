"""The rules of answers, plainly and slowly: drawings, rows, proof trees, bounds. tools/plain_check.py reads the texts for them."""
import functools
import re

FIVE = [(i, j) for i in range(5) for j in range(i + 1, 5)]
THREE = [(i, j) for i in range(3) for j in range(3, 6)]


class Flaw(Exception):
    """What is wrong with a drawing or a row."""


# --- graphs ---

TOKEN = re.compile(r'#[^\r\n]*|"[^"]*"|\[|\]|[^\s\[\]"]+')


def graph_pairs(text):
    """The pairs of the graph of a text: keys, and values that are words or lists of pairs."""
    tokens = [t for t in TOKEN.findall(text) if not t.startswith("#")]
    at = 0

    def pairs():
        nonlocal at
        found = []
        while at < len(tokens) and tokens[at] != "]":
            key, value = tokens[at], tokens[at + 1]
            at += 2
            if value == "[":
                value = pairs()
                at += 1
            found.append((key, value))
        return found

    return next(value for key, value in pairs() if key == "graph" and isinstance(value, list))


def blocks(pairs, key):
    return [value for k, value in pairs if k == key and isinstance(value, list)]


def number_at(block, key):
    return int(next(value for k, value in block if k == key))


def read_ids(text):
    """The ids of the nodes, in order."""
    return [number_at(block, "id") for block in blocks(graph_pairs(text), "node")]


def read_gml(text):
    """The number of nodes, the edges and the number of loops."""
    names = {name: v for v, name in enumerate(read_ids(text))}
    edges = blocks(graph_pairs(text), "edge")
    ends = [(names[number_at(block, "source")], names[number_at(block, "target")]) for block in edges]
    edges = [e for e in ends if e[0] != e[1]]
    return len(names), edges, len(ends) - len(edges)


def independent(edges, e, f):
    return e != f and not set(edges[e]) & set(edges[f])


def independent_pairs(edges):
    return [(e, f) for e in range(len(edges)) for f in range(e + 1, len(edges)) if independent(edges, e, f)]


# --- webs, maps, drawings ---


def order_flaw(edges, listed, orders):
    """The first flaw of orders over the listed edges."""
    members = set(listed)
    sets = {e: set(orders[e]) for e in listed}
    for e in listed:
        for i, f in enumerate(orders[e]):
            if f not in members or f in orders[e][:i] or e not in sets[f]:
                raise Flaw(f"order {e} {f}")
    for e in listed:
        for f in orders[e]:
            if not independent(edges, e, f):
                raise Flaw(f"dependent {e} {f}")


def crossings(listed, orders):
    return sorted((e, f) for e in listed for f in orders[e] if e < f)


def web(nodes, edges, listed, orders):
    """The number of nodes, the segments, and the first segment of each listed edge."""
    pairs = crossings(listed, orders)
    number = {pair: nodes + i for i, pair in enumerate(pairs)}
    segments, starts = [], {}
    for e in listed:
        way = [edges[e][0]] + [number[min(e, f), max(e, f)] for f in orders[e]] + [edges[e][1]]
        starts[e] = len(segments)
        segments += zip(way, way[1:])
    return nodes + len(pairs), segments, starts


def cycles(step, size):
    seen, count = [False] * size, 0
    for d in range(size):
        if not seen[d]:
            count += 1
            while not seen[d]:
                seen[d] = True
                d = step(d)
    return count


def component_count(nodes, segments):
    near = [[] for _ in range(nodes)]
    for u, v in segments:
        near[u].append(v)
        near[v].append(u)
    seen, count = [False] * nodes, 0
    for v in range(nodes):
        if not seen[v]:
            count += 1
            seen[v] = True
            ways = [v]
            while ways:
                for w in near[ways.pop()]:
                    if not seen[w]:
                        seen[w] = True
                        ways.append(w)
    return count


def rotation_flaw(segments, turns):
    darts = 2 * len(segments)
    tail = [end for segment in segments for end in segment]
    seen = set()
    for d in range(darts):
        if turns[d] >= darts or tail[turns[d]] != tail[d] or turns[d] in seen:
            raise Flaw(f"rotation {d}")
        seen.add(turns[d])
    least = {}
    for d in range(darts):
        if tail[d] not in least:
            ring, e = set(), d
            while e not in ring:
                ring.add(e)
                e = turns[e]
            least[tail[d]] = ring
        if d not in least[tail[d]]:
            raise Flaw(f"rotation {d}")


@functools.lru_cache(1 << 8)
def examine(nodes, edges, orders, turns):
    """The numbers of crossings, nodes, segments, faces and components of the web, or the first flaw."""
    listed = list(range(len(edges)))
    order_flaw(edges, listed, orders)
    all_nodes, segments, starts = web(nodes, edges, listed, orders)
    rotation_flaw(segments, turns)
    pairs = crossings(listed, orders)
    for e, f in pairs:
        before = 2 * (starts[e] + orders[e].index(f)) + 1
        if turns[turns[before]] != before + 1:
            raise Flaw(f"touch {e} {f}")
    bare = all_nodes - len({v for segment in segments for v in segment})
    faces = cycles(lambda d: turns[d ^ 1], 2 * len(segments)) + bare
    parts = component_count(all_nodes, segments)
    if all_nodes - len(segments) + faces != 2 * parts:
        raise Flaw(f"genus {all_nodes} {len(segments)} {faces} {parts}")
    return len(pairs), all_nodes, len(segments), faces, parts


def shown(ids, edges, orders, turns):
    """The text of a drawing that has no flaw."""
    all_nodes, segments, starts = web(len(ids), edges, list(range(len(edges))), orders)
    of = sorted((start, e) for e, start in starts.items())
    edge_of = [e for k, (start, e) in enumerate(of) for _ in range(start, of[k + 1][0] if k + 1 < len(of) else len(segments))]
    rings = [[] for _ in range(all_nodes)]
    for d in range(2 * len(segments)):
        ring = rings[segments[d // 2][d % 2]]
        if not ring:
            ring.append(d)
            while turns[ring[-1]] != d:
                ring.append(turns[ring[-1]])
    lines = ["graph [", "  directed 0"]
    for v, ring in enumerate(rings):
        kind = f'label "{ids[v]}" kind "input"' if v < len(ids) else 'kind "crossing"'
        lines.append(f'  node [ id {v} {kind} turn "{" ".join(map(str, ring))}" ]')
    for s, (u, v) in enumerate(segments):
        lines.append(f"  edge [ id {s} source {u} target {v} of {edge_of[s]} ]")
    return "\n".join(lines + ["]", ""])


# --- rows ---


def walks_flaw(nodes, segments, branch, ways, paths):
    for i, b in enumerate(branch):
        if b >= nodes or b in branch[:i]:
            raise Flaw(f"evidence branch {i}")
    visited = []
    for i, ((a, b), path) in enumerate(zip(ways, paths)):
        at, inner = branch[a], []
        for s in path:
            if s >= len(segments) or at not in segments[s]:
                raise Flaw(f"evidence broken {i}")
            u, v = segments[s]
            at = v if at == u else u
            inner.append(at)
        if at != branch[b]:
            raise Flaw(f"evidence ends {i}")
        visited += inner[:-1]
    used = set()
    for s in (s for path in paths for s in path):
        if s in used:
            raise Flaw(f"evidence twice {s}")
        used.add(s)
    met = set(branch)
    for v in visited:
        if v in met:
            raise Flaw(f"evidence inner {v}")
        met.add(v)


def list_flaw(segments, chosen):
    if not chosen:
        raise Flaw("evidence list 0")
    met = set()
    for i, s in enumerate(chosen):
        if s >= len(segments) or s in chosen[:i] or (i > 0 and not met & set(segments[s])):
            raise Flaw(f"evidence list {i}")
        met |= set(segments[s])


def extends(segments, chosen):
    """Whether flat insertions in this order reach the end: all of them are tried."""
    tails = [v for s in chosen for v in segments[s]]
    turns, at = {}, {}

    def face(corner):
        """The darts of the face that holds the corner after this dart."""
        first = turns[corner]
        d, found = first, set()
        while d not in found:
            found.add(d)
            d = turns[d ^ 1]
        return found

    def put(d, corner):
        if corner is None:
            turns[d] = d
        else:
            turns[d], turns[corner] = turns[corner], d
        at.setdefault(tails[d], []).append(d)

    def take(d, corner):
        if corner is not None:
            turns[corner] = turns[d]
        del turns[d]
        at[tails[d]].pop()

    def go(k):
        if k == len(chosen):
            return True
        a, b = 2 * k, 2 * k + 1
        for x in at.get(tails[a], [])[:] or [None]:
            inside = None if x is None else face(x)
            for y in at.get(tails[b], [])[:] or [None]:
                if x is not None and y is not None and turns[y] not in inside:
                    continue
                put(a, x)
                put(b, y)
                done = go(k + 1)
                take(b, y)
                take(a, x)
                if done:
                    return True
        return False

    return go(0)


@functools.lru_cache(1 << 12)
def row_flaw(nodes, edges, row):
    listed, lists, kind, branch, paths = row
    for i, e in enumerate(listed):
        if e >= len(edges) or (i > 0 and listed[i - 1] >= e):
            raise Flaw(f"edge {e}")
    orders = dict(zip(listed, lists))
    order_flaw(edges, listed, orders)
    all_nodes, segments, _ = web(nodes, edges, listed, orders)
    if kind == b"extension":
        list_flaw(segments, paths)
        if extends(segments, paths):
            raise Flaw("extends")
    else:
        walks_flaw(all_nodes, segments, branch, FIVE if kind == b"five" else THREE, paths)


@functools.lru_cache(1 << 12)
def row_terms(edges, row):
    """The value of a row: a constant and coefficients of variables (e, f) and (e, f, g)."""
    listed, lists = row[0], row[1]
    orders = dict(zip(listed, lists))
    planted = set(crossings(listed, orders))
    constant, terms = 0, []
    for i, e in enumerate(listed):
        for f in listed[i + 1 :]:
            if (e, f) in planted:
                constant += 1
                terms.append(((e, f), -1))
            elif independent(edges, e, f):
                terms.append(((e, f), 1))
    for e, own in orders.items():
        for f, g in zip(own, own[1:]):
            # one less the literal "f before g on e"
            if f < g:
                constant += 1
                terms.append(((e, f, g), -1))
            else:
                terms.append(((e, g, f), 1))
    return constant, terms


# --- trees ---


class State:
    """Pairs that are decided and the edges placed on each edge."""

    def __init__(self, decided, placed):
        self.decided, self.placed = decided, placed

    def values(self):
        """The variables that have a value, and it."""
        yield from self.decided.items()
        for e, own in self.placed.items():
            for i, g in enumerate(own):
                for f in own[:i]:
                    yield (e, min(f, g), max(f, g)), int(f < g)

    def children(self, edges, kind, e, f):
        """The children in order, or None where the node doesn't open the state."""
        pair = (min(e, f), max(e, f))
        if kind == b"pair":
            if e >= f or not independent(edges, e, f) or pair in self.decided:
                return None
            return [State({**self.decided, pair: x}, self.placed) for x in (0, 1)]
        own = self.placed.get(e, [])
        if self.decided.get(pair) != 1 or f in own:
            return None
        return [State(self.decided, {**self.placed, e: own[:i] + [f] + own[i:]}) for i in range(len(own) + 1)]


def bound(pairs, terms, state, divisor, parts):
    """The least over the box: each variable as cheap as it may be, and then those that have a value as they are."""
    total = 0
    weight = dict.fromkeys(pairs, divisor)
    for row, multiplier in parts:
        constant, own = terms[row]
        total -= multiplier * (constant - 1)
        for name, sign in own:
            weight[name] = weight.get(name, 0) - multiplier * sign
    total += sum(coefficient for coefficient in weight.values() if coefficient < 0)
    for name, value in state.values():
        coefficient = weight.get(name, 0)
        total += coefficient * value - min(0, coefficient)
    return total
