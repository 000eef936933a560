#!/usr/bin/env python3
"""Brings the names of this repository's definitions and lemmas to one spelling: words in snake case, facts and types in camel case.

usage: python3 tools/spelling.py        once, at the top of the repository, on files whose imports have today's paths

It turns the names in specs/ and proofs/, and those that the clauses of src/ import from them. A name keeps its spelling where a file
imports it from outside the repository, where the prover makes it (the parts of a goal and what is known there), and in code.
It stops, before anything is written, if two names of one file would become one.
"""

import glob
import re
import sys

OURS = {line.split(":")[0] for line in open("crates.txt") if line.strip() and not line.startswith("#")}
NAME = re.compile(r"[^\s(){}\[\];,.«»\"`λ@]+")
# What the rule alone would not give: a fact is spelled as a type; a lemma that would have its function's name is told from it; and a word
# that the toolchain's own script took for one of the library's gets its small letter back.
NAMES = {
    "childrenFit": "ChildrenFit",
    "in-token": "in_token_lem",
    "value-so-far": "value_so_far_lem",
    "input-line": "the_input_line",
    "out-after": "out_is_after",
    "wrong-length": "wrong_length_lem",
    "frames-in-use": "frames_in_use_lem",
    "answer-of-tag": "answer_of_tag_lem",
    "small-operator": "small_operator_lem",
    "let-met": "let_met_lem",
    "limitAnswer": "answer_of_limit",
    "constantValue": "value_of_constant",
    "at_least_lem": "at_least",
    "IsRefused-as": "refused_as_lem",
    "refused-as": "refused_as_lem",
    "None-found": "none_found",
    "Node-at": "node_at",
    "Stops-so": "stops_so",
    "byte-Reads": "byte_reads",
}
# The same, in one file alone.
NAMES_IN = {
    "crates/machine/specs/CallEnds.antt": {"in-range": "all_in_range"},
    "crates/semantics/specs/Simulation.antt": {"with_first": "with_first_lem"},
    "crates/table/specs/Lookup.antt": {"found_below": "found_below_lem"},
}
# A dash joins two names: what one function gives of another. Only the length of what a function gives is said of so here.
JOINED = re.compile(r"length-(\w+)$")


def turned(name, words=frozenset()):
    """The name in today's spelling; `words` are the repository's functions."""
    if name in NAMES:
        return NAMES[name]
    if name[0] in "-+*◌≤<≡=" or name[-1] == "-" or "◌" in name or not re.search(r"\w", name):
        return name
    if re.match(r"[\d]+$", name):
        return name
    joined = JOINED.match(name)
    if joined and joined.group(1) != "is" and turned(joined.group(1)) in words:
        return "length-" + turned(joined.group(1))
    name = name.replace("′", "'").replace("-", "_")
    if name[0].isupper():
        return name
    return re.sub(r"(?<=[a-z0-9'₀-₉])([A-Zℤℕ])", lambda m: "_" + (m.group(1).lower() if m.group(1) not in "ℤℕ" else m.group(1)), name)


def uses(text):
    """Each import of a text: its path and its items."""
    for m in re.finditer(r"^(?:pub )?(?:ghost )?use ([^\s{;]+?)\.\{([^}]*)\}", text, re.M):
        yield m.group(1), [i.strip() for i in m.group(2).split(",") if i.strip()]


def is_ours(path):
    parts = path.split(".")
    return len(parts) > 1 and parts[0] == "Rattle" and parts[1] in OURS


def outside(text):
    """The names of a text that are not the repository's, and the modules outside that it names."""
    names, modules = set(), set()
    for path, items in uses(text):
        if not is_ours(path) or ".declared" in path or path.endswith((".Statement", ".Tie")):
            names |= {i.split(" as ")[0] for i in items}
            # What a file calls an outside name by is its own.
            names -= {i.split(" as ")[1] for i in items if " as " in i}
    for m in re.finditer(r"^use ([^\s{;]+)(?: as (\S+))?$", text, re.M):
        if not is_ours(m.group(1)) or m.group(1).endswith((".Statement", ".Tie")):
            modules.add(m.group(2) or m.group(1).split(".")[-1])
    return names, modules


def replaced(text, keep, modules, words, only=None, here={}):
    """A text of antt with its names turned: but for those to keep, and those of an outside module; where `only` is given, those alone."""
    became = {}
    out, at = [], 0
    for m in NAME.finditer(text):
        name = m.group(0)
        before = text[: m.start()]
        qualified = re.search(r"([\w'₀-₉-]+)\.$", before[-60:])
        skip = name in keep or (qualified and qualified.group(1) in modules) or (only is not None and name not in only)
        new = name if skip else here.get(name) or turned(name, words)
        if new != name:
            became.setdefault(new, set()).add(name)
        out.append(text[at : m.start()])
        out.append(new)
        at = m.end()
    out.append(text[at:])
    return "".join(out), became


def split_comments(text):
    """Pieces of a text: whether each is a comment, and itself."""
    at = 0
    for m in re.finditer(r"^\s*(--|//).*$", text, re.M):
        yield False, text[at : m.start()]
        yield True, m.group(0)
        at = m.end()
    yield False, text[at:]


def commented(piece, known, words):
    """A comment with the names in backticks turned, where they are the repository's."""
    return re.sub(r"`([^`]+)`", lambda m: "`" + replaced(m.group(1), set(), set(), words, known)[0] + "`", piece)


def main():
    specs = sorted(glob.glob("crates/*/specs/*.antt"))
    proofs = sorted(glob.glob("crates/*/proofs/**/*.antt", recursive=True))
    code = sorted(glob.glob("crates/*/src/*.rt"))
    texts = {p: open(p, encoding="utf-8").read() for p in specs + proofs + code}
    fields, ours = set(), set()
    words = {turned(n) for p in specs for n in re.findall(r"^(?:abbrev |unfoldable )(?:pub )?(\S+) :", texts[p], re.M)}
    for p in specs:
        keep, modules = outside(texts[p])
        body = "".join(t for comment, t in split_comments(texts[p]) if not comment)
        ours |= {n for n in NAME.findall(body) if n not in keep and turned(n) != n}
        fields |= set(re.findall(r"^  pub ([^\s:]+) :", body, re.M))
    written, clashes = {}, []
    for p, text in texts.items():
        keep, modules = outside(text)
        only = None
        if p not in specs:
            # A proof cites what the prover made beside what it imports, and code has names of its own.
            only = set()
            for path, items in uses(text):
                if is_ours(path) and not path.endswith((".Statement", ".Tie")):
                    only |= {part for i in items for part in i.split(" as ")}
            if p in proofs:
                only |= fields
        whole, met = [], {}
        for comment, piece in split_comments(text):
            if comment:
                whole.append(commented(piece, ours, words))
                continue
            new, became = replaced(piece, keep, modules, words, only, NAMES_IN.get(p, {}))
            whole.append(new)
            for k, v in became.items():
                met.setdefault(k, set()).update(v)
        present = set(NAME.findall(text)) - set(NAMES_IN.get(p, {}))
        for new, old in met.items():
            if len(old) > 1 or new in present:
                clashes.append(f"{p}: {new} is also {', '.join(sorted(old))}" + (" and itself" if new in present else ""))
        written[p] = "".join(whole)
    # In code a function may have the name of what its contract says that it returns.
    clashes = [c for c in clashes if c.startswith("crates/") and not ("/src/" in c or "/proofs/" in c)]
    for c in clashes:
        print("falls together: " + c)
    if clashes:
        return 1
    for p, text in written.items():
        open(p, "w", encoding="utf-8").write(text)
    return 0


if __name__ == "__main__":
    sys.exit(main())
