#!/usr/bin/env python3
"""Holds docs/PROMISES.md and docs/RULES.md to the files: each file is there, each name that follows a file is declared in it, each edit is
there; the first table of the promises lists the files that there are to believe, no more and no less, in which nothing is declared that no
promise needs; and the rules cite each of these files, so that each definition can be held against its rule.

usage: promises.py, or promises.py --why FILE for the way from a row or a public function to a file that is to be believed

A citation is `path`: `name`, `name`, ..; a `word_like_this` in a last column is an edit of some crate's must-fail/. What a cited theorem
states, the whole text of a cited definition, and the contracts of the cited and of all public functions but parts are to be believed, and with them
the whole text of every definition that they mention, and so on. A citation after the words "by way of" in a cell leads readers of
proofs and is not followed."""
import glob
import os
import re
import sys

sys.path.insert(0, os.path.dirname(os.path.abspath(__file__)))
os.chdir(os.path.join(sys.path[0], ".."))
from contracts import functions, parts_in  # noqa: E402
from definitions import Specs  # noqa: E402

PAGE, RULES = "docs/PROMISES.md", "docs/RULES.md"
CITATION = re.compile(r"`(crates/[^`]+)`: ((?:`[^`]+`(?:, )?)+)")


def read(path):
    return open(path, encoding="utf-8").read()


def listed_in(page):
    """The files of the first table."""
    return set(re.findall(r"(?m)^\| `(crates/[^`]+)` \|", page))


def cells_of(page):
    return [cell.strip() for row in page.split("\n") if row.startswith("|") for cell in row.strip("| ").split("|")]


# ---- What the page cites

def is_declared(name, text):
    declared = r"(?m)^\s*(?:(?:unfoldable|abbrev|pub|pub\(crate\)|extern \"C\") )*(?:data |record |fn )?%s(?=[ (:<])" % re.escape(name)
    return re.search(declared, text)


def cited(text):
    """Each citation's path and name."""
    return [(path, name) for path, tail in CITATION.findall(text) for name in re.findall(r"`([^`]+)`", tail)]


def missing_citations(page):
    missing = ["no file %s" % path for path in re.findall(r"`((?:crates|tests)/[^`]+)`", page) if not os.path.exists(path)]
    return missing + ["%s does not declare %s" % (path, name) for path, name in cited(page)
                      if os.path.exists(path) and not is_declared(name, read(path))]


def missing_edits(page):
    """How many edits are cited, and which are not there or in no row."""
    edits = {os.path.basename(path)[:-len(".edit")] for path in glob.glob("crates/*/must-fail/*.edit")}
    last = [row.rstrip("| ").split("|")[-1] for row in page.split("\n") if row.startswith("|")]
    words = {word for cell in last for word in re.findall(r"`([a-z0-9]+(?:_[a-z0-9]+)+)`", CITATION.sub("", cell))}
    return len(words), (["no edit %s" % word for word in sorted(words - edits)] +
                        ["the edit %s is in no row" % edit for edit in sorted(edits - words)])


# ---- What there is to believe

class Believed:
    """The definitions that are reached from the page and from the public functions, each with what mentions it first."""

    def __init__(self, page):
        self.specs, self.mentioned_by, self.plain = Specs(), {}, []
        self.reach(list(self.from_page(page)) + list(self.from_public_functions(parts_in(page))))

    def from_page(self, page):
        for cell in cells_of(page):
            for path, name in cited(cell.split("by way of")[0]):
                origin = "cited: %s: %s" % (path, name)
                if path.endswith(".rt"):
                    yield from self.of_contract(origin, path, name)
                elif (path, name) in self.specs.of:
                    declaration = self.specs.of[path, name]
                    found = [declaration] if declaration.is_definition() else self.specs.mentioned_by(declaration, whole=False)
                    yield from ((origin, each) for each in found)

    def from_public_functions(self, parts):
        """What a part says, its callers' proofs use and nobody has to believe."""
        for path in sorted(glob.glob("crates/*/src/**/*.rt", recursive=True)):
            for name, public, _ in functions(read(path)):
                if public and "%s::%s" % (path.split(os.sep)[1], name) not in parts:
                    yield from self.of_contract("public: %s: %s" % (path, name), path, name)

    def of_contract(self, origin, path, name):
        source = read(path)
        for function, _, clauses in functions(source):
            if function == name:
                contract = " ".join(text for _, text in clauses)
                yield from ((origin, each) for each in self.specs.mentioned_in_contract(source, contract))

    def reach(self, open_ones):
        """Reaches these definitions, each with its origin, and all that they mention, the nearest first."""
        for origin, declaration in open_ones:
            if declaration not in self.mentioned_by:
                self.mentioned_by[declaration] = origin
                if not declaration.is_definition():
                    self.plain.append(declaration)
                open_ones += [(declaration, other) for other in self.specs.mentioned_by(declaration, whole=True)]

    def files(self):
        return {declaration.path for declaration in self.mentioned_by}

    def way_to(self, declaration):
        way = []
        while type(declaration) is not str:
            way.append("%s: %s" % (declaration.path, declaration.name))
            declaration = self.mentioned_by[declaration]
        return [declaration] + way[::-1]

    def ways_to(self, path):
        """A way to each of a file's definitions that are reached, the shortest first."""
        return sorted((self.way_to(declaration) for declaration in self.mentioned_by if declaration.path == path), key=len)

    def unreached(self, listed):
        """What is declared in these files and not reached, by file."""
        for path in sorted(listed & set(self.specs.files)):
            names = [declaration.name for declaration in self.specs.files[path].declared if declaration not in self.mentioned_by]
            if names:
                yield "%s declares what no promise needs: %s" % (path, ", ".join(names))

    def differences(self, listed):
        for path in sorted(self.files() - listed):
            yield "%s is to be believed and not listed: %s" % (path, " -> ".join(self.ways_to(path)[0]))
        for path in sorted(listed - self.files()):
            yield "%s is listed and nothing needs it" % path


def main():
    page = read(PAGE)
    believed, listed = Believed(page), listed_in(page)
    if sys.argv[1:2] == ["--why"]:
        print("\n\n".join("\n  -> ".join(way) for way in believed.ways_to(sys.argv[2])) or "nothing needs %s" % sys.argv[2])
        return
    rules = read(RULES)
    edits, missing = missing_edits(page)
    missing += missing_citations(page) + missing_citations(rules) + list(believed.differences(listed)) + list(believed.unreached(listed))
    missing += ["%s: no rule cites %s" % (RULES, path) for path in sorted(listed - {path for path, _ in cited(rules)})]
    names = len(cited(page))
    if missing or names < 20:
        sys.exit("\n".join(missing) or "only %d names are cited" % names)
    print("%d names and %d edits of %s are there; %d definitions in %d files are to be believed"
          % (names, edits, PAGE, len(believed.mentioned_by), len(listed)))
    for plain in believed.plain:
        print("among them %s: %s, which is not declared as a definition" % (plain.path, plain.name))


if __name__ == "__main__":
    main()
