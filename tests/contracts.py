#!/usr/bin/env python3
"""Every public function has a contract and a row of docs/PROMISES.md with two wrong answers that are edits of its crate; none has a `requires`
but a part, that is one whose row stands under "Parts" and that another crate calls; a function that a page names is there; no proof has an axiom.

A function is public that is `pub` or has a C name, wherever it stands: also in a private module, whether or not it is exported again."""
import glob
import os
import re
import sys

os.chdir(os.path.join(os.path.dirname(os.path.abspath(__file__)), ".."))

LEFT_OUT = re.compile(r'//[^\n]*|/\*.*?\*/|b?"(?:\\.|[^"\\])*"|b?\'(?:\\.|[^\\\'\n])\'', re.DOTALL)
TOKEN = re.compile(r"\w+|\S")
OPENING, CLOSING = "([{", ")]}"
MODIFIERS = {"const", "unsafe", "async", "extern"}


def bare(source):
    """A source with blanks in the place of comments, strings and characters."""
    return LEFT_OUT.sub(lambda match: re.sub(r"\S", " ", match.group()), source)


def closed(tokens, at):
    """Past the bracket that closes the one here."""
    depth = 0
    while True:
        depth += (tokens[at] in OPENING) - (tokens[at] in CLOSING)
        at += 1
        if depth == 0:
            return at


def clauses(tokens, at):
    """The clauses in a head, from its parameters on: `requires` or `ensures`, perhaps with a name, and braces; each with the places of
    its braces. Braces after anything else are the body."""
    found = []
    while tokens[at] != ";":
        kind = next((word for word in (tokens[at - 1], tokens[at - 2]) if word in ("requires", "ensures")), None)
        if tokens[at] == "{" and not kind:
            break
        after = closed(tokens, at) if tokens[at] in OPENING else at + 1
        if tokens[at] == "{":
            found.append((kind, at, after))
        at = after
    return found


def is_public(tokens, fn):
    """Is the function public whose `fn` stands here? Before it are `pub`, perhaps with a part of the crate, and other words."""
    before = fn - 1
    while tokens[before] in MODIFIERS:
        before -= 1
    return tokens[before] == "pub" or "extern" in tokens[before:fn]


def functions(source):
    """Each function of a source: its name, whether it is public, and its clauses as pairs of kind and text."""
    text = "; " + bare(source)
    places = list(TOKEN.finditer(text))
    tokens = [place.group() for place in places]
    for at, token in enumerate(tokens):
        if token == "fn":
            found = [(kind, text[places[first].start():places[last - 1].end()]) for kind, first, last in clauses(tokens, at + 2)]
            yield tokens[at + 1], is_public(tokens, at), found


def public_functions(source):
    """The name of each, with the kinds of its clauses."""
    return [(name, [kind for kind, _ in found]) for name, public, found in functions(source) if public]


# Heads in any layout. Were one of these not found, the test would show nothing.
assert public_functions("""
pub fn plain(a: u32) -> u32 ensures { ⌜ a ⌝ } { a }
pub
    const fn
    tall(
        a: [u8; 4], // } {
        b: &str,
    ) -> u32
    requires small { λ r. ⌜ { a } ⌝ }
    ensures
    { record { a = 1 } } { let x = "}"; pub_fn() }
#[no_mangle] pub extern "C" fn c_name() -> u64 { 0 }
extern "C" fn without_pub() ensures { t } { }
pub(crate) fn inner() { } fn own() { } /* pub fn dropped() { } */
impl T { pub fn method<'a>(&'a self) -> char ensures {
    t
} { '{' } }
""") == [("plain", ["ensures"]), ("tall", ["requires", "ensures"]), ("c_name", []), ("without_pub", ["ensures"]), ("method", ["ensures"])]


# ---- The page

PAGE = "docs/PROMISES.md"
PAGES = ["README.md", PAGE, "docs/RULES.md", "docs/DECISIONS.md", "docs/SPEED.md"]
NAMED = re.compile(r"`(\w+::\w+)`")
ROW = re.compile(r"(?m)^\| `(\w+::\w+)` \|.*$")


def rows_in(page):
    return {match.group(1): match.group() for match in ROW.finditer(page)}


def parts_in(page):
    """The functions that are public for another crate of this repository only."""
    return set(rows_in(re.split(r"(?m)^#+ ", page.partition("\n### Parts\n")[2])[0]))


assert parts_in("| `a::b` | x |\n### Parts\n| `c::d` | x |\n## More\n| `e::f` | x |\n") == {"c::d"}


def is_called_in(crate, function, source):
    """By its path, or as a method where the source names the crate."""
    by_path = re.search(r"\b%s::(?:\{[^}]*)?\b%s\b" % (crate, function), source)
    return by_path or re.search(r"\b%s::" % crate, source) and re.search(r"\.%s\(" % function, source)


assert is_called_in("a", "b", "use a::{c, b};") and is_called_in("a", "b", "use a::T; t.b(1)") and not is_called_in("a", "b", "use a::T; t.c(b)")


def is_called_elsewhere(crate, function):
    others = [path for path in glob.glob("crates/*/src/**/*.rt", recursive=True) if path.split(os.sep)[1] != crate]
    return any(is_called_in(crate, function, bare(open(path, encoding="utf-8").read())) for path in others)


def faults_of(path, function, kinds, row, is_part):
    crate = path.split(os.sep)[1]
    if "requires" in kinds and not is_part:
        yield "%s: %s has a requires" % (path, function)
    if is_part and not is_called_elsewhere(crate, function):
        yield "%s: %s is a part that no other crate calls" % (path, function)
    if "ensures" not in kinds:
        yield "%s: %s has no ensures" % (path, function)
    labels = re.findall(r"`(\w+)`", row.rstrip("| ").split("|")[-1])
    if len(set(labels)) < 2:
        yield "%s: %s has no row with two wrong answers" % (path, function)
    for label in labels:
        if not os.path.exists("crates/%s/must-fail/%s.edit" % (crate, label)):
            yield "%s: %s::%s: %s is no edit of crates/%s" % (PAGE, crate, function, label, crate)


def named_in_vain(public):
    """The functions that a page names, as `crate::function`, and that are not public there."""
    for path in PAGES:
        for name in sorted(set(NAMED.findall(open(path, encoding="utf-8").read())) - public):
            yield "%s: there is no public function %s" % (path, name)


def main():
    faults, calls, public = [], 0, set()
    page = open(PAGE, encoding="utf-8").read()
    rows, parts = rows_in(page), parts_in(page)
    for path in sorted(glob.glob("crates/*/src/**/*.rt", recursive=True)):
        for function, kinds in public_functions(open(path, encoding="utf-8").read()):
            name = "%s::%s" % (path.split(os.sep)[1], function)
            calls += name not in parts
            public.add(name)
            faults += faults_of(path, function, kinds, rows.pop(name, ""), name in parts)
    faults += named_in_vain(public)
    for path in sorted(glob.glob("crates/*/specs/**/*.antt", recursive=True) + glob.glob("crates/*/proofs/**/*.antt", recursive=True)):
        if re.search(r"(?m)^axiom |Prim\.Axiom", open(path, encoding="utf-8").read()):
            faults.append("%s has an axiom" % path)
    if faults or not calls:
        sys.exit("\n".join(faults) or "no public function was found")
    print("%d public functions have a contract and no requires, %d parts a contract; each has two wrong answers of its crate; no axiom"
          % (calls, len(parts)))


if __name__ == "__main__":
    main()
