#!/usr/bin/env python3
"""Proofs that can be read: in a proof file no line is longer than 200 characters and no path has more than six steps, and in one answer no way of
two steps or more is written twice, but is bound once by `let` with a name.

A path is a name and the steps after it, as in `c.loop-i.invariant.sound`; an answer is a definition with its clauses."""
import glob
import itertools
import os
import re
import sys

os.chdir(os.path.join(os.path.dirname(os.path.abspath(__file__)), ".."))

LONGEST_LINE, LONGEST_PATH, WRITTEN_ONCE = 200, 6, 2
STEP = r"(?:\.[^\s.(){}\[\],;]+)"
PATH = re.compile(r"[^\s.(){}\[\],;]+" + STEP + "+")
GROUPED = re.compile(r"\)(" + STEP + "+)")
IMPORT = re.compile(r"(pub )?use ")


def paths(line):
    """The paths of a line, each as a tuple: a name and its steps. Steps after a bracket have no name."""
    code = "" if IMPORT.match(line) else line.split("--")[0]
    found = [tuple(match.group().split(".")) for match in PATH.finditer(code)]
    return found + [("",) + tuple(match.group(1).split(".")[1:]) for match in GROUPED.finditer(code)]


def answers(lines):
    """The answers of a file, each as its lines with their numbers: a definition ends where the next line that is indented no more begins
    with another name. A module around definitions is none."""
    answer = []
    for number, line in enumerate(lines, 1):
        first = answer[0][1] if answer else ""
        outside = len(line) - len(line.lstrip()) <= len(first) - len(first.lstrip())
        if line.strip() and answer and (first.split()[:1] == ["module"] or outside and line.split()[0] != first.split()[0]):
            yield answer
            answer = []
        if line.strip():
            answer.append((number, line))
    yield answer


def common(one, other):
    """How many steps two paths have in common from their name on."""
    same = [a == b for a, b in zip(one, other)]
    return (same + [False]).index(False) - 1


def faults_of(lines):
    for number, line in enumerate(lines, 1):
        if len(line) > LONGEST_LINE:
            yield number, "%d characters" % len(line)
        for path in paths(line):
            if len(path) - 1 > LONGEST_PATH:
                yield number, "%d steps: %s" % (len(path) - 1, ".".join(path))
    for answer in answers(lines):
        named = [(number, path) for number, line in answer for path in paths(line) if path[0]]
        for (_, one), (number, other) in itertools.combinations(named, 2):
            if common(one, other) >= WRITTEN_ONCE:
                yield number, "written twice: %s" % ".".join(other[:common(one, other) + 1])
                break


# Were one of these faults not seen, the test would show nothing.
assert paths("a = f (c.args.0) (g x).at λ y. z -- c.before") == [("c", "args", "0"), ("", "at")]
assert paths("use Rattle.std.proofs.Common.{arith}") == []
assert [text for _, text in faults_of(["a : T", "a c = " + "c" + ".before" * 7])] == ["7 steps: c" + ".before" * 7]
assert [number for number, _ in faults_of(["a : T", "a c = f (c.x.y)", "  (c.x.z) (c.x.y.w)", "b c = c.x.y.z"])] == [3]
assert [number for number, _ in faults_of(["module _ where", "  a c = c.x.y", "  b c = c.x.y", "  b d = c.x.y"])] == [4]
assert [text for _, text in faults_of(["x" * 201])] == ["201 characters"]


def main():
    folders = sys.argv[1:] or sorted(glob.glob("crates/*/proofs"))
    files = [path for folder in folders for path in sorted(glob.glob(folder + "/**/*.antt", recursive=True))]
    faults = []
    for path in files:
        lines = open(path, encoding="utf-8").read().split("\n")
        faults += ["%s:%d: %s" % (path, number, text) for number, text in faults_of(lines)]
    if faults or not files:
        sys.exit("\n".join(faults) or "no proof file was found")
    print("%d proof files: no line above %d characters, no path of more than %d steps, none of %d written twice in an answer"
          % (len(files), LONGEST_LINE, LONGEST_PATH, WRITTEN_ONCE))


if __name__ == "__main__":
    main()
