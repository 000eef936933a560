#!/usr/bin/env python3
"""Compares what the users hold with a second implementation, written from the rules alone: the two lines of the program `formula`, and
the two entries for a host in C with their numbers, every byte of `out` and all bytes around it.

usage: compare_product.py PROGRAM FEED HOST [COUNT], a count of 10,000 or more

PROGRAM is crates/formula as it is built; FEED is fed_program.c and HOST guarded_host.c, built. A case is a table as text and as bytes, an
out length and a fuel. The first cases are chosen; the others are generated from a fixed seed: tables with a type and without, as text
with any white space and leading zeros, read in pieces of any size; out lengths and fuels at and around their exact limits; formulas
that need all bindings or all frames, one less or one more; and damaged words, bytes and text."""
import itertools
import os
import random
import re
import struct
import sys
import zlib
from collections import Counter
from functools import cached_property, lru_cache

sys.path.insert(0, os.path.dirname(os.path.abspath(__file__)))
from check_tables import damaged, tree  # noqa: E402
from compare_runs import BENCH as RUNS, Formula as Measured, Machine, arithmetic, nodes_of, recursive_sum  # noqa: E402
from compare_types import BENCH as TYPES, Inference, doubled, just_past, lambdas, table  # noqa: E402
from formulas import (EQUAL, NOTHING, ONE, PLUS, TRUE, ZERO, after_bindings, after_frames, apply, fun, let,  # noqa: E402
                      name, operation, rec, running, table_of)
from shares import Shares  # noqa: E402
from trials import lines, output  # noqa: E402

WORK, OUT, STORE, FUEL = 12304, 64, 512, 100000

# The pages that `out` lies in, and what they hold before a call: PAGES bytes from one of SEEDS places on, as in guarded_host.c.
PAGES, SEEDS = 16384, 4096
NOISE = bytes(at * 2654435761 % 2 ** 32 >> 24 for at in range(PAGES + SEEDS))


# ---- The second implementation

@lru_cache(maxsize=2 ** 16)
def number(token):
    """The number below 2 ** 32 that a token is, or None."""
    digits = token.lstrip(b"0")
    if not token.isdigit() or len(digits) > 10:
        return None
    value = int(digits or b"0")
    return value if value < 2 ** 32 else None


@lru_cache(maxsize=4)
def words_in(text):
    """The words of an input, or None."""
    words = [number(token) for token in re.split(rb"[\t\n\r ]", text) if token]
    return None if len(words) > 2048 or None in words else words


def packed(words):
    return struct.pack("<%dI" % len(words), *words)


class Formula:
    """What is wanted for a table of words."""

    def __init__(self, words):
        self.words = words
        self.inference = Inference(words)
        self.nodes = None if self.inference.code else nodes_of(words)
        # The runs that were made, by their fuel; and one that ended with steps to spare or none, as every run with more fuel does, with
        # the most frames that it had at once.
        self.runs, self.ended, self.most = {}, None, 0

    def run(self, fuel):
        """Code, payload, steps and bindings."""
        refusal, place = self.inference.code, self.inference.place
        if refusal:
            return refusal, place, 0, 0
        if self.ended and self.ended[2] < fuel:
            return self.ended
        if fuel not in self.runs:
            machine = Machine(self.nodes, fuel, STORE, STORE)
            self.runs[fuel] = machine.run()
            if self.runs[fuel][0] != 17:
                self.ended, self.most = self.runs[fuel], machine.most
        return self.runs[fuel]

    def need(self):
        """The fuel that a run needs to come to an end, or None."""
        code, _, steps, _ = self.run(FUEL)
        return steps if 10 <= code <= 16 else None

    @cached_property
    def stores(self):
        """The bindings and the frames that a run needs, measured where no store is full. None where it does not come to an end with one
        cell more in both stores than there are."""
        code, _, _, bindings = self.run(FUEL)
        if code <= 16:
            return bindings, self.most
        ample = Machine(self.nodes, FUEL, STORE + 1, STORE + 1)
        return (ample.made, ample.most) if ample.run()[0] <= 16 else None

    def lines(self):
        code, payload, steps, bindings = self.run(FUEL)
        if code == 10 and payload >= 2 ** 31:
            payload -= 2 ** 32
        return "type %s\nrun %d %d %d %d\n" % (self.inference.said(WORK, OUT), code, payload, steps, bindings)

    def infer_entry(self, room):
        """The number, and the bytes that are written to the beginning of `out`."""
        code, place = self.inference.answer(WORK, min(room // 4, 1024))
        return code + (place << 32), packed(self.inference.words) if code == 0 else b""

    def run_entry(self, fuel):
        code, payload, _, _ = self.run(fuel)
        return code + (payload << 32)


NO_NODES = Formula([])


class Case:
    """A text with the size of its pieces, a table as bytes, an out length and a fuel; and the formulas that the text and the bytes stand
    for, None for a text without words. `formula` is one of which something is known already."""

    def __init__(self, text, piece, table_bytes, room, fuel, formula):
        self.text, self.piece, self.table, self.room, self.fuel = text, piece, table_bytes, room, fuel
        words = words_in(text)
        self.read = None if words is None else formula if words == formula.words else Formula(words)
        if len(table_bytes) % 16:
            self.lent = NO_NODES
        else:
            words = list(struct.unpack("<%dI" % (len(table_bytes) // 4), table_bytes))
            self.lent = formula if words == formula.words else Formula(words)

    def lines(self):
        return "input\n" if self.read is None else self.read.lines()

    def entries(self, seed):
        """The numbers of both entries and the sums of the table and of the pages of `out`, with the slices at the start of their pages
        and at the end."""
        number, written = self.lent.infer_entry(self.room)
        before = NOISE[seed % SEEDS:][:PAGES]
        pages = [before[:out] + written + before[out + len(written):] for out in (0, PAGES - self.room)]
        answers = "%d %d %d" % (number, self.lent.run_entry(self.fuel), zlib.adler32(self.table))
        return " ".join("%s %d" % (answers, zlib.adler32(memory)) for memory in pages)

    def for_program(self):
        return struct.pack("<II", len(self.text), self.piece) + self.text

    def for_host(self, seed):
        return struct.pack("<IIII", len(self.table), self.room, self.fuel, seed) + self.table


# ---- The cases

def plain(words):
    return b" ".join(b"%d" % word for word in words)


def nested(times):
    """fun x -> x (fun x -> x (..)), whose type has as many arrows left of one another: the most stack that we know."""
    expression = NOTHING
    for _ in range(times):
        expression = fun(0, apply(name(0), expression))
    return table_of(expression)


def long_turns(length):
    """(rec f -> fun n -> let x = + .. in f n) 0, with so many additions: many steps for each binding, so that the fuel is used up first."""
    addition = ONE
    for _ in range(length):
        addition = operation(PLUS, addition, ONE)
    return table_of(apply(rec(0, fun(1, let(2, addition, apply(name(0), name(1))))), ZERO))


def chosen():
    """Tables at the limits, with the room and fuel of the program and around."""
    equal = table_of(operation(EQUAL, TRUE, TRUE))
    tables = [words for words, _, _ in RUNS + TYPES] + [[], equal, lambdas(511), lambdas(512), lambdas(31), lambdas(32), doubled(5),
                                                        doubled(6), just_past(10), just_past(64), nested(170), recursive_sum(200),
                                                        recursive_sum(300), long_turns(120)]
    for words in tables:
        formula = Formula(words)
        for room, fuel in (256, FUEL), (0, 0), (3, 1), (4092, 13), (4095, 14), (4096, 2 ** 32 - 1), (5828, 20), (16384, 21):
            yield Case(plain(words), 1 + fuel % 4096, packed(words), room, fuel, formula)
    one = Formula([2, 1, 0, 0])
    texts = [b"", b" ", b"\n", b"2 1 0 0", b"2 1 0 0\n", b"\t2\r1\n0  0 ", b"2 1 0 " + b"0" * 10 ** 6, b"2 " + b"0" * 10 ** 6 + b"1 0 0",
             b"2 1 0 " + b"1" * 10 ** 6, b"2 4294967295 0 0", b"2 4294967296 0 0", b"2 04294967295 0 0", b"2 42949672950 0 0", b"2 -1 0 0",
             b"2 +1 0 0", b"2 1 0 0 x", b"2 1 0 0x0", b"2 1.0 0 0", b"2,1,0,0", b"2 1 0 \xd9\xa0", b"0 " * 2048, b"0 " * 2049,
             b"0 " * 2048 + b"x"]
    texts += [bytes([byte]).join([b"2", b"1", b"0", b"0"]) for byte in range(256)]
    for text in texts:
        for piece in 1, 3, 4096, 2 ** 31:
            yield Case(text, piece, packed(one.words), 256, FUEL, one)


WHITE = [b" "] * 12 + [b"\t", b"\n", b"\r", b" \n", b"\r\n", b"\n\t ", b"   "]
ZEROS = [b""] * 4 + [b"0", b"000000000000"]


def some_text(rng, words):
    if rng.random() < 0.7:
        return plain(words)
    tokens = zip(rng.choices(ZEROS, k=len(words)), words, rng.choices(WHITE, k=len(words)))
    text = b"".join(b"%s%d%s" % token for token in tokens)
    if text and rng.random() < 0.3:
        at = rng.randrange(len(text))
        text = text[:at] + bytes([rng.choice([rng.randrange(256), 32, 45, 48, 57, 58])]) + text[at + rng.randrange(2):]
    return text


def some_bytes(rng, words):
    way = rng.random()
    table_bytes = packed(words)
    if way < 0.03:
        return table_bytes[:rng.randrange(len(table_bytes) + 1)]
    if way < 0.05:
        return rng.randbytes(rng.choice([1, 15, 16, 17, 32, 160, rng.randrange(9000)]))
    if way < 0.07 and table_bytes:
        at = rng.randrange(len(table_bytes))
        return table_bytes[:at] + rng.randbytes(1) + table_bytes[at + 1:]
    return table_bytes


def some_table(rng, size):
    way = rng.random()
    if way < 0.65:
        words = table_of(running(rng), rng)
    elif way < 0.8:
        words = table(rng, size)
    else:
        words = table_of(arithmetic(rng, rng.randrange(1, 5)), rng) if way < 0.9 else tree(rng, size)
    return damaged(rng, words) if rng.random() < 0.1 else words


# A store by its place among a run's needs, the formulas that fill it, and the cells that these need over those that there are. One frame
# too few comes up most often, since hardly any other run ends for want of a frame.
FILLED = [(1, after_bindings, over) for over in (-1, 0, 1)] + [(2, after_frames, over) for over in (-1, 0, 1, 1, 1)]


def filling(rng, number):
    """A formula that fills a store; which one, and how far, goes in turn."""
    store, after, over = FILLED[number % len(FILLED)]
    needs = None
    while needs is None:
        end = running(rng, 1)
        needs = Measured(table_of(end)).needs
    return table_of(after(rng, STORE + over - needs[store], end), rng)


def some_room(rng, formula):
    exact = 4 * (formula.inference.length or 3)
    room = rng.choice([exact, exact, exact - 1, exact + rng.randrange(4), 0, rng.randrange(exact), 256, 4096, rng.randrange(16384)])
    return min(room, 16384)


def some_fuel(rng, formula):
    """Around the steps of a run, or enough; mostly enough where they are many, since less is another run of the second machine."""
    steps = formula.run(FUEL)[2]
    near = [steps, max(steps - 1, 0), steps + 1, rng.randrange(steps + 1)]
    return rng.choice(near + (1 if steps < STORE else 4) * [FUEL, FUEL, 2 ** 32 - 1])


def some_formula(rng, sizes):
    """Any table as a formula, but few that go on until a store is full: the second machine takes its time for them."""
    while True:
        words = some_table(rng, rng.choice(sizes))
        if len(words) <= 2100:
            formula = Formula(words)
            if formula.run(400)[0] != 17 or rng.random() < 0.1:
                return formula


def generated(rng):
    """Cases without end: several of each formula, and more of one that fills a store, since its runs are long."""
    for number in itertools.count():
        fills = number % 30 == 1
        if fills:
            formula = Formula(filling(rng, number // 30))
        else:
            formula = some_formula(rng, [1, 2, 4, 8, 12, 16, 24, 40] if number % 5 else [100, 300, 512])
        for _ in range(6 if fills else 4):
            yield Case(some_text(rng, formula.words), rng.choice([1, 7, 64, 4096, 65536]), some_bytes(rng, formula.words),
                       some_room(rng, formula), some_fuel(rng, formula), formula)


class Met:
    """What the runs are, of the program or of the entry."""

    def __init__(self):
        self.codes, self.over, self.bindings, self.frames = Counter(), Counter(), Counter(), Counter()
        self.accepted = self.long = self.binding = 0

    def add(self, formula, fuel):
        code, _, steps, made = formula.run(fuel)
        self.codes[code] += 1
        self.accepted += code >= 10
        self.long += steps >= 20
        self.binding += made >= 1
        if formula.need():
            self.over[fuel - formula.need()] += 1
        if code != 17 and formula.stores:
            bindings, frames = formula.stores
            # What is needed of a store counts where the other one suffices.
            self.bindings[bindings] += frames <= STORE
            self.frames[frames] += bindings <= STORE

    def demand(self, shares, whose, count):
        shares.demand("accepted by the %s" % whose, self.accepted, count, 1 / 2)
        shares.demand("of these 20 steps or more", self.long, self.accepted, 1 / 2)
        shares.demand("with a binding", self.binding, self.accepted, 1 / 3)
        for cells in STORE - 1, STORE, STORE + 1:
            shares.demand("%d bindings" % cells, self.bindings[cells], count, 3 / 1000)
            shares.demand("%d frames" % cells, self.frames[cells], count, 3 / 1000)


def demand(program, entry, types, inputs, count):
    shares = Shares()
    program.demand(shares, "program", count)
    shares.demand("no words", inputs, count, 3 / 100)
    # The program's fuel is used up in few of the chosen cases only, since a run of so many steps is too dear for the second machine.
    shares.demand_codes(program.codes, [code for code in range(10, 20) if code != 17], count, 1 / 100)
    shares.demand_codes(program.codes, [17], 1, 1)
    entry.demand(shares, "entry", count)
    shares.demand("fuel near its need", entry.over[-1] + entry.over[0] + entry.over[1], count, 1 / 10)
    for over, where in (-1, "one below"), (0, "at it"), (1, "one above"):
        shares.demand(where, entry.over[over], count, 1 / 50)
    shares.demand_codes(entry.codes, range(10, 20), count, 1 / 100)
    shares.demand_codes(types, (0, 1, 2, 3, 4, 6, 7), count, 1 / 1000)
    return shares


def main():
    program, feed, host, count = sys.argv[1], sys.argv[2], sys.argv[3], int(sys.argv[4]) if len(sys.argv) > 4 else 30000
    sys.setrecursionlimit(20000)
    cases = list(chosen()) + list(itertools.islice(generated(random.Random(50)), count))
    said = output(program, b"".join(case.for_program() for case in cases), preload=feed).decode().split("\0")[:-1]
    entered = lines(host, [case.for_host(seed) for seed, case in enumerate(cases)])
    if len(said) != len(cases):
        sys.exit("%d inputs, %d answers of the program" % (len(cases), len(said)))
    of_program, of_entry, types, inputs = Met(), Met(), Counter(), 0
    for seed, (case, lines_said, entry) in enumerate(zip(cases, said, entered)):
        if lines_said != case.lines():
            sys.exit("the text %s: wanted %s, the program says %s" % (case.text, case.lines(), lines_said))
        if entry != case.entries(seed):
            sys.exit("the bytes %s with out %d and fuel %d: wanted %s, the entries say %s"
                     % (case.table.hex(), case.room, case.fuel, case.entries(seed), entry))
        if case.read:
            of_program.add(case.read, FUEL)
        else:
            inputs += 1
        of_entry.add(case.lent, case.fuel)
        types[case.lent.infer_entry(case.room)[0] & 255] += 1
    shares = demand(of_program, of_entry, types, inputs, len(cases))
    counts = [dict(sorted(codes.items())) for codes in (types, of_program.codes, of_entry.codes)]
    shares.tell("%d cases agree: types %s; runs of the program %s; of the entry %s" % (len(cases), *counts))


if __name__ == "__main__":
    main()
