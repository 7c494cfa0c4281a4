#!/usr/bin/env python3
"""Writes the table of small linear programs with their least costs.

A program asks for the least cost over 0 <= x <= 1 where each row's sum is at least its `least`. A vertex is the one
solution of as many of the equations (a column at 0, at 1, a row at its `least`) as there are columns. All choices of
equations are solved with exact fractions; the least cost of those that meet every row is the program's, and where none
does the program has no point (a bounded set of points that isn't empty has a vertex).
"""

import itertools
import random
from fractions import Fraction


def solve(equations, columns):
    """The one solution of the equations, or None."""
    rows = [[Fraction(v) for v in line] + [Fraction(value)] for line, value in equations]
    for c in range(columns):
        pivot = next((r for r in range(c, columns) if rows[r][c] != 0), None)
        if pivot is None:
            return None
        rows[c], rows[pivot] = rows[pivot], rows[c]
        rows[c] = [v / rows[c][c] for v in rows[c]]
        for r in range(columns):
            if r != c and rows[r][c] != 0:
                rows[r] = [a - rows[r][c] * b for a, b in zip(rows[r], rows[c])]
    return [rows[c][columns] for c in range(columns)]


def least_cost(cost, rows):
    """The least cost, or None where there is no point."""
    n = len(cost)
    unit = lambda j: [int(i == j) for i in range(n)]
    dense = [([dict(terms).get(j, 0) for j in range(n)], least) for terms, least in rows]
    equations = [(unit(j), bound) for j in range(n) for bound in (0, 1)] + dense
    best = None
    for chosen in itertools.combinations(equations, n):
        x = solve(chosen, n)
        if x is None or any(v < 0 or v > 1 for v in x):
            continue
        if any(sum(a * v for a, v in zip(line, x)) < least for line, least in dense):
            continue
        value = sum(c * v for c, v in zip(cost, x))
        best = value if best is None else min(best, value)
    return best


def programs():
    """Ten by hand, among them degenerate ones, then twenty by a seeded generator."""
    yield [1, 1], [([(0, 1), (1, 1)], 1)]
    yield [1, 1], [([(0, 1)], 2)]
    yield [3, 2], [([(0, 2), (1, 3)], 4), ([(0, 5), (1, 1)], 3)]
    yield [-1, -1], [([(0, -1), (1, -1)], -1)]
    # degenerate: the rows all pass through one corner
    yield [1, 1, 1], [([(0, 1), (1, 1)], 0), ([(1, 1), (2, 1)], 0), ([(0, 1), (2, 1)], 0), ([(0, 1), (1, -1)], 0), ([(1, 1), (2, -1)], 0)]
    yield [-1, -1, -1], [([(0, 1), (1, -1)], 0), ([(1, 1), (2, -1)], 0), ([(2, 1), (0, -1)], 0), ([(0, -1), (1, -1), (2, -1)], -2)]
    # Beale's program, on which the rule of the greatest price cycles, turned and scaled into the box
    yield [-75, 15000, -2, 600], [([(0, -25), (1, 6000), (2, 4), (3, -900)], 0), ([(0, -50), (1, 9000), (2, 2), (3, -300)], 0), ([(2, -1)], -1)]
    # Kuhn's, likewise
    yield [-2, -3, 1, 12], [([(0, 2), (1, 9), (2, -1), (3, -9)], 0), ([(0, -1), (1, -3), (2, 1), (3, 6)], 0), ([(0, -2), (1, -3), (2, 1), (3, 12)], -2)]
    # no point: two rows against each other
    yield [0, 0], [([(0, 1), (1, 1)], 1), ([(0, -2), (1, -2)], -1)]
    yield [1, -1, 2], [([(0, 7), (1, -3), (2, 2)], 5), ([(0, -7), (1, 3), (2, -2)], -6), ([(1, 11), (2, -13)], 1)]
    generator = random.Random(20)
    for _ in range(20):
        columns, count = generator.randint(2, 4), generator.randint(1, 4)
        cost = [generator.randint(-9, 9) for _ in range(columns)]
        rows = []
        for _ in range(count):
            names = sorted(generator.sample(range(columns), generator.randint(1, columns)))
            terms = [(j, generator.choice([-7, -5, -3, -2, -1, 1, 2, 3, 5, 7])) for j in names]
            rows.append((terms, generator.randint(-4, 4)))
        yield cost, rows


def main():
    for cost, rows in programs():
        least = least_cost(cost, rows)
        text = "None" if least is None else f"Some(({least.numerator}, {least.denominator}))"
        lines = ", ".join("(&[" + ", ".join(f"({j}, {a})" for j, a in terms) + f"], {least})" for terms, least in rows)
        print(f"    (&[{', '.join(map(str, cost))}], &[{lines}], {text}),")


main()
