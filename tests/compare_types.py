#!/usr/bin/env python3
"""Compares compiled inference with a second one, written from the rules alone.

usage: compare_types.py PROGRAM [COUNT]

PROGRAM is crates/trials as it is built. The bench formulas come first, with the answers that the rules state for them; then tables that
are generated from a fixed seed, typed and not, with work and out slices at and around their exact lengths, and the same tables damaged.

The second inference goes down the formula with the types of the names in scope, and substitutes for variables as soon as two types have
to be equal, where a variable never enters its own type."""
import os
import random
import sys
from collections import Counter

sys.path.insert(0, os.path.dirname(os.path.abspath(__file__)))
from check_tables import damaged, tree, verdict  # noqa: E402
from formulas import (BOOL, DIVIDE, EQUAL, FALSE, INT, ONE, PLUS, TRUE, TWO, UNIT, ZERO, apply, choose, fun, let,  # noqa: E402
                      name, operation, rec, running, some_constant, some_name, some_type, table_of, typed)
from shares import Shares  # noqa: E402
from trials import INFER, LENT_FIRST, LENT_SECOND, LONGEST, lines, sum_of, trial  # noqa: E402



class Arrow:
    """A type is UNIT, BOOL, INT, a number for a variable, or an arrow. An arrow is equal to itself only, so that parts can be shared
    and looked at once."""
    __slots__ = ("takes", "gives")

    def __init__(self, takes, gives):
        self.takes, self.gives = takes, gives


class NoType(Exception):
    """The reason: 'clash' of two forms, or 'cycle' of a variable in its own type."""


def operator_type(number):
    return Arrow(INT, Arrow(INT, INT if number < 5 else BOOL))


class Typing:
    def __init__(self, words):
        self.nodes = [words[i:i + 4] for i in range(0, len(words), 4)]
        self.known = {}
        self.variables = 0
        self.made_equal = set()
        self.lengths = {}

    def fresh(self):
        self.variables += 1
        return self.variables

    def type_at(self, at, env):
        kind, a, b, c = self.nodes[at]
        if kind < 3:
            return (UNIT, BOOL, INT)[kind]
        if kind == 3:
            return operator_type(a)
        if kind == 4:
            return env[a]
        if kind == 5:
            result = self.fresh()
            self.unify(self.type_at(a, env), Arrow(self.type_at(b, env), result))
            return result
        if kind == 6:
            self.unify(self.type_at(a, env), BOOL)
            branch = self.type_at(b, env)
            self.unify(branch, self.type_at(c, env))
            return branch
        if kind == 8:
            return self.type_at(c, {**env, a: self.type_at(b, env)})
        bound = self.fresh()
        body = self.type_at(b, {**env, a: bound})
        if kind == 7:
            return Arrow(bound, body)
        self.unify(bound, body)
        return body

    def form(self, t):
        while t in self.known:
            t = self.known[t]
        return t

    def unify(self, s, t):
        s, t = self.form(s), self.form(t)
        if s == t or (s, t) in self.made_equal:
            return
        if type(s) is int:
            self.substitute(s, t)
        elif type(t) is int:
            self.substitute(t, s)
        elif type(s) is Arrow and type(t) is Arrow:
            self.unify(s.takes, t.takes)
            self.unify(s.gives, t.gives)
            self.made_equal.add((s, t))
        else:
            raise NoType("clash")

    def substitute(self, variable, t):
        looked_at, open_types = set(), [t]
        while open_types:
            part = self.form(open_types.pop())
            if part == variable:
                raise NoType("cycle")
            if type(part) is Arrow and part not in looked_at:
                looked_at.add(part)
                open_types += (part.takes, part.gives)
        self.known[variable] = t

    def length(self, t):
        """The written length, which may be far greater than the number of parts that are shared in it."""
        t = self.form(t)
        if type(t) is not Arrow:
            return 1
        if t not in self.lengths:
            self.lengths[t] = 1 + self.length(t.takes) + self.length(t.gives)
        return self.lengths[t]

    def written(self, t, numbers):
        t = self.form(t)
        if type(t) is Arrow:
            return [4] + self.written(t.takes, numbers) + self.written(t.gives, numbers)
        if type(t) is int:
            return [16 + numbers.setdefault(t, len(numbers))]
        return [(UNIT, BOOL, INT).index(t) + 1]


class Inference:
    """What the table alone decides: its check, the reason why it has no type, or its type's words and how many they are."""

    def __init__(self, words):
        self.code, self.place = verdict(words)
        self.needs = 24 * (len(words) // 4) + 16
        self.reason, self.length, self.words, self.sum = None, None, None, None
        if self.code:
            return
        typing = Typing(words)
        try:
            root = typing.type_at(0, {})
        except NoType as refusal:
            self.reason = str(refusal)
            return
        self.length = typing.length(root)
        if self.length <= LONGEST:
            self.words = typing.written(root, {})
            self.sum = sum_of(self.words)

    def answer(self, work, out):
        """Code and place."""
        if self.code:
            return self.code, self.place
        if work < self.needs:
            return 5, 0
        if self.reason:
            return 6, 0
        if out < self.length:
            return 7, 0
        return 0, self.length

    def said(self, work, out):
        """Code and place, and on code 0 the type's words."""
        code, place = self.answer(work, out)
        return " ".join(map(str, [code, place] + (self.words if code == 0 else [])))

    def line(self, work, out):
        """Code and place, and the sums of work and out afterwards."""
        code, place = self.answer(work, out)
        zeros = self.needs if code in (0, 6, 7) else 0
        written, total = (self.length, self.sum) if code == 0 else (0, 0)
        return "%d %d %d %d" % (code, place, LENT_FIRST.with_first(work, zeros), LENT_SECOND.with_first(out, written, total))


P1 = [5, 1, 7, 0, 7, 0, 2, 0, 5, 3, 6, 0, 5, 4, 5, 0, 3, 0, 0, 0, 4, 0, 0, 0, 2, 1, 0, 0, 2, 5, 0, 0]
P2 = table_of(fun(0, name(0)))
P3 = table_of(fun(0, 1, apply(name(0), name(1))))
P4 = table_of(fun(0, apply(name(0), name(0))))
P5 = table_of(rec(0, name(0)))
P6 = table_of(choose(TRUE, ONE, FALSE))
P7 = table_of(apply(ONE, TWO))
P8 = table_of(apply(ONE, operation(DIVIDE, ONE, ZERO)))
P9 = table_of(let(0, fun(1, name(1)), choose(apply(name(0), TRUE), apply(name(0), ONE), ZERO)))
P12 = [4, 0, 0, 0]


def doubled(times):
    """double (.. (double 1)), where double is fun x -> fun f -> f (f x): from a type τ each makes (τ -> τ) -> τ (lecture notes,
    Beispiel 44)."""
    double, expression = fun(0, 1, apply(name(1), apply(name(1), name(0)))), ONE
    for _ in range(times):
        expression = apply(double, expression)
    return table_of(expression)


def doubled_type(times):
    part = [3]
    for _ in range(times):
        part = [4, 4] + part + part + part
    return " ".join(map(str, part))


def just_past(power):
    """A formula whose type has 2 ^ power + 1 words, which a count of so many bits would take for 1: from a type τ each application
    makes τ -> τ, and at last a variable comes before it."""
    same, expression = fun(0, 1, choose(TRUE, name(0), name(1))), ONE
    for _ in range(power - 1):
        expression = apply(same, expression)
    return table_of(fun(0, expression))


def lambdas(count):
    """So many lambdas of different names around a unit."""
    return [word for k in range(count) for word in (7, k, k + 1, 0)] + [0] * 4


AMPLE = (12304, 64)
BENCH = [
    (P1, AMPLE, "0 1 3"), (P1, (208, 1), "0 1 3"), (P1, (207, 64), "5 0"), (P1, (208, 0), "7 0"), (P1, (LONGEST, LONGEST), "0 1 3"),
    (P2, AMPLE, "0 3 4 16 16"), (P2, (64, 3), "0 3 4 16 16"), (P2, (64, 2), "7 0"), (P2, (64, 0), "7 0"), (P2, (63, 2), "5 0"),
    (P3, AMPLE, "0 7 4 4 16 17 4 16 17"), (P4, AMPLE, "6 0"), (P4, (112, 0), "6 0"), (P4, (111, 0), "5 0"), (P5, AMPLE, "0 1 16"),
    (P6, AMPLE, "6 0"), (P7, AMPLE, "6 0"), (P8, AMPLE, "6 0"), (P9, AMPLE, "6 0"), (P12, AMPLE, "4 0"), (P12, (0, 0), "4 0"),
    ([], AMPLE, "1 0"), (table_of(operation(EQUAL, TRUE, TRUE)), AMPLE, "6 0"), (table_of(apply((3, PLUS), TRUE)), AMPLE, "6 0"),
    (lambdas(511), (12304, 1023), "0 1023 %s 1" % " ".join("4 %d" % (16 + k) for k in range(511))), (lambdas(511), (12304, 1022), "7 0"),
    (lambdas(511), (12303, 1023), "5 0"), (lambdas(512), (LONGEST, LONGEST), "1 0"),
    # Types that are far longer written out than shared.
    (doubled(8), (LONGEST, 13121), "0 13121 " + doubled_type(8)), (doubled(8), (LONGEST, 13120), "7 0"),
    (doubled(63), (LONGEST, LONGEST), "7 0"), (just_past(14), (LONGEST, 16384), "7 0"),
    (just_past(32), (LONGEST, LONGEST), "7 0"), (just_past(64), (LONGEST, LONGEST), "7 0"),
]


# ---- Generated formulas

def bundled(rng, env, size):
    """fun s -> s e e, where each e is typed or a bundle again: its type holds all of theirs."""
    if size < 6:
        return typed(rng, some_type(rng), env, size)
    x = some_name(rng)
    if rng.random() < 0.3:
        return fun(x, bundled(rng, {**env, x: some_type(rng)}, size - 1))
    outer = {y: t for y, t in env.items() if y != x}
    return fun(x, apply(name(x), bundled(rng, outer, size // 2), bundled(rng, outer, size // 2)))


def untyped(rng, names, size):
    """An expression of bound names, applications and binders only: where such a one has no type, a variable is in its own."""
    if names and size < 3:
        return name(rng.choice(names))
    x, way = some_name(rng), rng.random()
    if not names or way < 0.4:
        return rng.choice([fun, fun, rec])(x, untyped(rng, names + (x,), size - 1))
    if way < 0.9:
        return apply(untyped(rng, names, size // 2), untyped(rng, names, size // 2))
    return let(x, untyped(rng, names, size // 2), untyped(rng, names + (x,), size // 2))


def with_another_leaf(rng, words):
    """One leaf of a table becomes another constant, or a name that some node binds."""
    words = list(words)
    at = rng.choice([at for at in range(0, len(words), 4) if words[at] < 5])
    names = [words[k + 1] for k in range(0, len(words), 4) if words[k] > 6]
    leaf = name(rng.choice(names)) if names and rng.random() < 0.6 else some_constant(rng)
    words[at:at + 4] = (leaf + (0, 0))[:4] if len(leaf) == 2 else [0] * 4
    return words


def table(rng, size):
    way = rng.random()
    if way < 0.35:
        words = table_of(running(rng), rng)
        return with_another_leaf(rng, words) if way < 0.05 else words
    if way < 0.45:
        return tree(rng, size)
    if way < 0.6:
        return table_of(untyped(rng, (), size), rng)
    words = table_of(bundled(rng, {}, size) if rng.random() < 0.4 else typed(rng, some_type(rng), {}, size), rng)
    if way < 0.75:
        words = with_another_leaf(rng, words)
    return damaged(rng, words) if way > 0.95 else words


def rooms(rng, inference):
    """Lengths of work and out for a table: those that suffice, and those around each limit."""
    needs, length = min(inference.needs, LONGEST), min(inference.length or 3, LONGEST)
    yield needs, min(LONGEST, length + rng.choice([0, 0, 1, 5, 64]))
    yield min(LONGEST, needs + rng.choice([0, 1, 7, 300])), rng.choice([length - 1, length - 1, 0, rng.randrange(length)])
    yield rng.choice([needs - 1, rng.randrange(needs), needs, needs + 1]), length


def cases(count):
    """Each with its table, work, out, and what the table decides."""
    rng = random.Random(40)
    for words, (work, out), _ in BENCH:
        yield words, work, out, Inference(words)
    made = 0
    while made < count:
        words = table(rng, rng.choice([1, 2, 4, 8, 12, 16, 24, 40] if made % 20 else [100, 300, 500]))
        if len(words) > 2100:
            continue
        inference = Inference(words)
        for work, out in rooms(rng, inference):
            yield words, work, out, inference
            made += 1


def main():
    program, count = sys.argv[1], int(sys.argv[2]) if len(sys.argv) > 2 else 30000
    sys.setrecursionlimit(20000)
    for words, room, wanted in BENCH:
        if Inference(words).said(*room) != wanted:
            sys.exit("the second inference gives %s for %s with %s, and the rules say %s"
                     % (Inference(words).said(*room), words, room, wanted))
    asked = list(cases(count))
    answers = lines(program, [trial(INFER, (work, out, 0), words) for words, work, out, _ in asked])
    codes, reasons, typable = Counter(), Counter(), 0
    for (words, work, out, inference), answer in zip(asked, answers):
        wanted = inference.line(work, out)
        if answer != wanted:
            sys.exit("the table %s with work %d and out %d: wanted %s, the program says %s" % (words, work, out, wanted, answer))
        code, _ = inference.answer(work, out)
        codes[code] += 1
        typable += inference.length is not None
        if code == 6:
            reasons[inference.reason] += 1
    shares = Shares()
    shares.demand("accepted by the check", len(asked) - sum(codes[code] for code in range(1, 5)), len(asked), 1 / 2)
    shares.demand("with a type", typable, len(asked), 1 / 3)
    for reason in "clash", "cycle":
        shares.demand("without one for a %s" % reason, reasons[reason], len(asked), 1 / 50)
    shares.demand_codes(codes, (0, 6, 7), len(asked), 1 / 20)
    shares.demand_codes(codes, (1, 2, 3, 4, 5), len(asked), 1 / 1000)
    shares.tell("%d inferences agree: %s" % (len(asked), ", ".join("%d %d" % pair for pair in sorted(codes.items()))))


if __name__ == "__main__":
    main()
