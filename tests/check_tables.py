#!/usr/bin/env python3
"""Compares the compiled check of tables with a second one, written from the rules alone.

usage: check_tables.py PROGRAM [COUNT]

PROGRAM is crates/trials as it is built. The tables are generated from a fixed seed: trees in any numbering, names bound and unbound,
and the same with words damaged, cut and added."""
import os
import random
import sys

sys.path.insert(0, os.path.dirname(os.path.abspath(__file__)))
from trials import CHECK, lines, trial  # noqa: E402

def children(kind, a, b, c):
    """The children of a node, each with the name that the node binds there or None."""
    if kind < 5:
        return []
    if kind == 5:
        return [(a, None), (b, None)]
    if kind == 6:
        return [(a, None), (b, None), (c, None)]
    if kind in (7, 9):
        return [(b, a)]
    return [(b, None), (c, a)]


def fits(at, count, kind, a, b, c):
    """Does the node `at` of so many have a known kind, and fields within its rule?"""
    if kind < 5:
        return b == c == 0 and a < (1, 2, 2 ** 32, 10, 65536)[kind]
    if kind == 5:
        return at < a < count and at < b < count and c == 0
    if kind == 6:
        return at < a < count and at < b < count and at < c < count
    if kind in (7, 9):
        return a < 65536 and at < b < count and c == 0
    return kind == 8 and a < 65536 and at < b < count and at < c < count


def verdict(words):
    """Code and place; the place of acceptance is the node count."""
    if not words or len(words) % 4 or len(words) > 2048:
        return 1, 0
    nodes = [tuple(words[i:i + 4]) for i in range(0, len(words), 4)]
    for at, node in enumerate(nodes):
        if not fits(at, len(nodes), *node):
            return 2, at
    times, below = [0] * len(nodes), [children(*node) for node in nodes]
    for each in below:
        for child, _ in each:
            times[child] += 1
    for at in range(1, len(nodes)):
        if times[at] != 1:
            return 3, at
    # From the root down, each node with the names that are bound there.
    unbound, open_nodes = [], [(0, frozenset())]
    while open_nodes:
        at, bound = open_nodes.pop()
        if nodes[at][0] == 4 and nodes[at][1] not in bound:
            unbound.append(at)
        open_nodes += [(child, bound if name is None else bound | {name}) for child, name in below[at]]
    return (4, min(unbound)) if unbound else (0, len(nodes))


def tree(rng, size):
    """A random tree of at most `size` nodes as words, children above parents, in an order of its own."""
    nodes, open_nodes = [None], [(0, ())]
    while open_nodes:
        at, names = open_nodes.pop(rng.randrange(len(open_nodes)))
        left = size - len(nodes) - len(open_nodes)
        kind = rng.choice([5, 6, 7, 8, 9]) if left > 3 and rng.random() < 0.8 else rng.choice([0, 1, 2, 3, 4, 4])
        name = rng.randrange(4) if rng.random() < 0.9 else rng.randrange(65536)
        if kind == 4 and names and rng.random() < 0.95:
            name = rng.choice(names)
        first = len(nodes)
        spread = {5: 2, 6: 3, 7: 1, 8: 2, 9: 1}.get(kind, 0)
        nodes += [None] * spread
        kids = list(range(first, first + spread))
        rng.shuffle(kids)
        fields = {0: [0, 0, 0], 1: [rng.randrange(2), 0, 0], 2: [rng.getrandbits(32), 0, 0], 3: [rng.randrange(10), 0, 0],
                  4: [name, 0, 0]}.get(kind)
        if fields is None:
            fields = (kids if kind in (5, 6) else [name] + kids) + [0, 0]
        nodes[at] = [kind] + fields[:3]
        bound = {7: [0], 9: [0], 8: [1]}.get(kind, [])
        open_nodes += [(kid, names + (name,) if i in bound else names) for i, kid in enumerate(kids)]
    return [word for node in nodes for word in node]


def damaged(rng, words):
    words = list(words)
    parents = [at for at, kind in enumerate(words) if at % 4 == 0 and kind in (5, 6)]
    if parents and rng.random() < 0.2:
        # A child that is another's, or nobody's.
        at = rng.choice(parents)
        words[at + 1 + rng.randrange(2)] = rng.randrange(at // 4, len(words) // 4) + 1
        return words
    for _ in range(rng.randrange(3)):
        at = rng.randrange(len(words))
        words[at] = rng.choice([0, 1, 2, 5, 9, 10, 65535, 65536, 2 ** 32 - 1, len(words) // 4, at // 4, at // 4 + 1, rng.randrange(12)])
    if rng.random() < 0.05:
        words = words[:rng.randrange(len(words) + 1)]
    if rng.random() < 0.02:
        words += [rng.randrange(12) for _ in range(rng.randrange(9))]
    return words


def tables(count):
    rng = random.Random(20)
    chain = [word for k in range(511) for word in (7, k, k + 1, 0)]
    yield from [[], [0] * 4, [0] * 3, [0] * 5, chain + [0] * 4, chain + [4, 510, 0, 0], chain + [4, 511, 0, 0],
                [7, 0, 1, 0] + chain + [0] * 4, [0] * 2048, [0] * 2049, [0] * 2052, [4, 0, 0, 0]]
    for number in range(count):
        words = tree(rng, rng.choice([1, 2, 4, 8, 16, 40] if number % 50 else [128, 512]))
        yield damaged(rng, words) if rng.random() < 0.7 else words


def main():
    program, count = sys.argv[1], int(sys.argv[2]) if len(sys.argv) > 2 else 20000
    asked = list(tables(count))
    codes = {}
    for words, answer in zip(asked, lines(program, [trial(CHECK, (0, 0, 0), words) for words in asked])):
        code, place = verdict(words)
        if answer != "%d %d" % (code, place):
            sys.exit("the table %s: wanted %d %d, the program says %s" % (words, code, place, answer))
        codes[code] = codes.get(code, 0) + 1
    hardly = [code for code in range(5) if codes.get(code, 0) < 100]
    if hardly:
        sys.exit("codes that are hardly met: %s of %s" % (hardly, codes))
    print("%d tables agree: %s" % (len(asked), ", ".join("%d %d" % pair for pair in sorted(codes.items()))))


if __name__ == "__main__":
    main()
