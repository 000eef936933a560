#!/usr/bin/env python3
"""Prints how many lines each crate has, as a table: definitions (the files of docs/PROMISES.md's first table), theorems (the other files
of specs/ and those right in proofs/), code with its contracts, proofs of the code, and must-fail edits. Lines are counted that are neither empty nor a comment."""
import glob
import os
import re

os.chdir(os.path.join(os.path.dirname(os.path.abspath(__file__)), ".."))
believed = set(re.findall(r"(?m)^\| `(crates/[^`]+)` \|", open("docs/PROMISES.md", encoding="utf-8").read()))
crates = re.findall(r"(?m)^(\w+)(?: staticlib)?:", open("crates.txt", encoding="utf-8").read())


def lines(paths):
    texts = (open(path, encoding="utf-8").read().split("\n") for path in paths)
    return sum(1 for text in texts for line in text if line.strip() and not line.strip().startswith(("--", "//")))


def files(crate, folder, suffix):
    return set(glob.glob("crates/%s/%s/**/*.%s" % (crate, folder, suffix), recursive=True))


def row(crate):
    theory = files(crate, "specs", "antt") | set(glob.glob("crates/%s/proofs/*.antt" % crate))
    counts = [theory & believed, theory - believed, files(crate, "src", "rt"), files(crate, "proofs", "antt") - theory]
    return [lines(paths) for paths in counts] + [len(files(crate, "must-fail", "edit"))]


def show(title, counts):
    print("| %s | %s |" % (title, " | ".join("{:,}".format(count) for count in counts)))


print("| crate | definitions | theorems | code | proofs | wrong programs |\n|---|---|---|---|---|---|")
rows = {crate: row(crate) for crate in crates}
for crate in crates:
    show("`%s`" % crate, rows[crate])
show("all", map(sum, zip(*rows.values())))
