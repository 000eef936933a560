"""What the files under specs/, proofs/ and src/ declare, and which own declarations a declaration mentions.

A definition is what is declared with `data`, `record`, `abbrev` or `unfoldable`; any other name with a type is a theorem. Who believes a
definition believes its whole text; who believes a theorem believes what it states, under the parameters of the modules around it."""
import glob
import os
import re

DEFINES = {"data", "record", "abbrev", "unfoldable"}
HEAD = re.compile(r"(?:(?P<kind>data|record|abbrev|unfoldable) )?(?:pub )?(?:(?P<late>data|record) )?(?P<name>\S+)(?= |$)")
LINE = re.compile(r"(?P<indent> *)(?P<rest>.*)")
WORD = re.compile(r"[^\s(){}\[\],;⌜⌝]+")
TAKES = re.compile(r"(?m)^(?:ghost )?use Rattle\.(\w+)\.(specs|proofs)\.(?!declared\b)(\w+)(?:\.\{([^}]*)\}| as (\w+))")


class Declaration:
    def __init__(self, path, kind, name, around):
        self.path, self.kind, self.name = path, kind, name
        # The heads of the modules around it, its own head, and the lines after the head.
        self.around, self.head, self.body = around, "", []

    def is_definition(self):
        return self.kind in DEFINES

    def constructors(self):
        """The names that a data declares: those before the colon in the lines that are indented least."""
        indents = [LINE.match(line).group("indent") for line in self.body]
        first = [LINE.match(line).group("rest") for line, indent in zip(self.body, indents) if indent == min(indents, key=len)]
        return [name for line in first if " : " in line for name in line.split(" : ")[0].split() if name != "pub"]


def without_comments(text):
    return "\n".join(re.sub(r"(^|\s)--( .*|-*)?$", "", line).rstrip() for line in text.split("\n"))


def blocks(lines):
    """Each line that is indented least, with the lines below it that are indented more."""
    found = []
    for line in lines:
        if not line.strip():
            continue
        indent = len(LINE.match(line).group("indent"))
        if found and indent > found[0][0]:
            found[-1][2].append(line)
        else:
            found.append((indent, line.strip(), []))
    return [(first, rest) for _, first, rest in found]


def declarations(path, lines, around=()):
    """All of them in order. A clause goes to the declaration before it."""
    found = []
    for first, rest in blocks(lines):
        word = first.split()[0]
        if word in ("use", "unfolding", "infix", "infixl", "infixr", "mod"):
            continue
        if word == "mutual":
            found += declarations(path, rest, around)
        elif word == "module":
            head = [first] + rest
            end = next(at for at, line in enumerate(head) if line.rstrip().endswith(" where"))
            found += declarations(path, head[end + 1:], around + (" ".join(head[:end + 1]),))
        else:
            match = HEAD.match(first)
            kind = match.group("kind") or match.group("late")
            if kind or first[match.end():].startswith(" :"):
                found.append(Declaration(path, kind or "theorem", match.group("name"), around))
                # The head of a data or record is one line; a type may go on below.
                ends = kind in ("data", "record")
                found[-1].head, found[-1].body = (first, rest) if ends else (" ".join([first] + rest), [])
            else:
                found[-1].body += [first] + rest
    return found


def imports(text):
    """The names that a file takes from other own files, as (path, name), and its short names for whole files."""
    names, files = {}, {}
    for crate, folder, file, listed, alias in TAKES.findall(text):
        path = "crates/%s/%s/%s.antt" % (crate, folder, file)
        if alias:
            files[alias] = path
        for words in filter(None, map(str.split, listed.split(","))):
            names[words[-1]] = (path, words[0])
    return names, files


class File:
    def __init__(self, path):
        text = without_comments(open(path, encoding="utf-8").read())
        self.path = path
        self.names, self.files = imports(text)
        self.declared = declarations(path, text.split("\n"))


class Specs:
    """All files of crates/*/specs and of theorems in crates/*/proofs, and what each name in them stands for."""

    def __init__(self):
        paths = glob.glob("crates/*/specs/*.antt") + glob.glob("crates/*/proofs/*.antt")
        self.files = {path: File(path) for path in sorted(paths) if os.path.basename(path) != "Lib.antt"}
        self.of = {}
        for file in self.files.values():
            for declaration in file.declared:
                for name in [declaration.name] + (declaration.constructors() if declaration.kind == "data" else []):
                    self.of.setdefault((file.path, name), declaration)

    def scope(self, path, names, files):
        """What names stand for in a file: its own and those it takes; of `◌+◌` also the part `+`."""
        pairs = {name: declared for name, declared in names.items()}
        pairs.update({name: (path, name) for where, name in self.of if where == path})
        pairs.update({"%s.%s" % (alias, name): (where, name) for alias, file in files.items() for where, name in self.of if where == file})
        for name, declared in list(pairs.items()):
            pairs.update({part: declared for part in name.split("◌") if part and "◌" in name})
        return {name: self.of[declared] for name, declared in pairs.items() if declared in self.of}

    @staticmethod
    def without_fields(word, scope):
        """The longest beginning of a path that is a name in scope, or else the name before its first step."""
        steps = word.split(".")
        begun = (".".join(steps[:end]) for end in range(len(steps), 0, -1))
        return next((name for name in begun if name in scope), steps[0])

    def mentioned(self, text, scope):
        """The own declarations that a text mentions; not those whose name it binds itself."""
        bound = bound_in(text, scope)
        words = [self.without_fields(word, scope) for word in WORD.findall(text)]
        return [scope[word] for word in words if word in scope and word not in bound]

    def mentioned_by(self, declaration, whole):
        """What else a declaration mentions in its whole text, or in what it states. The fields of a record are its own names."""
        file = self.files[declaration.path]
        scope = self.scope(file.path, file.names, file.files)
        for field in declaration.constructors() if declaration.kind == "record" else []:
            scope.pop(field, None)
        text = "\n".join(list(declaration.around) + [declaration.head] + (declaration.body if whole else []))
        return [other for other in self.mentioned(text, scope) if other is not declaration]

    def mentioned_in_contract(self, source, ensures):
        """What a clause of a function mentions, in a source with its ghost imports."""
        names, files = imports(source)
        return self.mentioned(ensures, self.scope(None, names, files))


def bound_in(text, scope):
    """The names that a text binds: in front of a colon in brackets, after λ and let, and in the patterns of clauses, where a name that is
    a constructor is no variable."""
    bound = set()
    for names in re.findall(r"[({]([^(){}:⌜⌝]+) : ", text) + re.findall(r"λ ([^(){}.]+)\.", text) + re.findall(r"\blet (\S+)", text):
        bound.update(names.split())
    for line in text.split("\n"):
        clause = re.match(r"\s*(\S+) ([^=]*?) = ", line)
        if clause and " : " not in line.split(" = ")[0]:
            patterns = WORD.findall(clause.group(2))
            bound.update(word for word in patterns if word in scope and scope[word].kind != "data")
    return bound
