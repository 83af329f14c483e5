"""The edits that must fail and the right bodies of each crate: the entries of the files edits.txt and right_bodies.txt.

docs/CONTRIBUTING.md says what an entry has.
"""

import os
import re

EDITS, RIGHT_BODIES = "edits.txt", "right_bodies.txt"
BEGINNING = re.compile(r"^(?=name:)", re.MULTILINE)
FORM = re.compile(r"name: \S+\n(only: \S+\n(clause: .+\n)*)+(file: \S+\n(old: .*\nnew:.*\n)+)+")
LINE = re.compile(r"^(name|only|clause|file|old|new): ?(.*)\n", re.MULTILINE)
FILE = re.compile(r"crates/(\w+)/(%s|%s)" % (re.escape(EDITS), re.escape(RIGHT_BODIES)))
LAW = re.compile(r"crates/\w+/src/law(\.rt|/.*)")
FUNCTION = re.compile(r"\bfn (\w+)")
CONTRACT = re.compile(r"^ *pub (?:const |unsafe |extern \"C\" )*fn \w+(?:(?!\bfn ).)*?^ *ensures\b", re.MULTILINE | re.DOTALL)
"""A public function, and its contract up to the first word `ensures`."""


class Edit:
    """A change of a crate's texts, and the functions whose proofs it concerns, each with the clauses that it is meant to break."""

    def __init__(self, crate, file, text):
        self.file, self.text = file, text
        self.only, self.clauses, self.changes = [], {}, []
        changed = old = None
        for word, rest in LINE.findall(text):
            if word == "name":
                self.entry, self.name = rest, "%s/%s:%s" % (crate, file, rest)
            elif word == "only":
                self.only.append(rest)
            elif word == "clause":
                self.clauses.setdefault(self.only[-1], []).append(rest)
            elif word == "file":
                changed = rest
            elif word == "old":
                old = rest
            else:
                self.changes.append((changed, old, rest))

    def applied_to(self, folder, texts):
        """These texts of a crate's folder with this change, or None where an old text does not stand in them just once."""
        texts = dict(texts)
        for name, old, new in self.changes:
            path = os.path.join(folder, name)
            text = texts.get(name) or (read(path) if os.path.exists(path) else "")
            if text.count(old) != 1:
                return None
            texts[name] = text.replace(old, new)
        return texts

    def lacks_clauses(self):
        """Whether it is an edit that must fail, and the entry does not say at which clause of each function."""
        return self.file == EDITS and any(function not in self.clauses for function in self.only)

    def with_clauses(self, clauses):
        """The text of the entry with these clauses of functions of which it names none."""
        lines = []
        for line in self.text.splitlines(True):
            lines.append(line)
            function = line[len("only: ") : -1] if line.startswith("only: ") else None
            if function and function not in self.clauses:
                lines += ["clause: %s\n" % clause for clause in clauses.get(function, ())]
        return "".join(lines)

    def order(self):
        """By what the entries of a file are sorted."""
        return self.only[0], self.entry


def of_crate(top, crate, file):
    """The entries of one of the files of a crate of a tree, in their order. None are there where the file is not."""
    path = os.path.join(top, "crates", crate, file)
    return entries(crate, file, read(path)) if os.path.exists(path) else []


def entries(crate, file, text):
    """The entries of a file's text. A `ValueError` names the first that has not the form of one."""
    parts = [part.rstrip("\n") + "\n" for part in BEGINNING.split(text) if part.strip()]
    for part in parts:
        if not FORM.fullmatch(part):
            raise ValueError("crates/%s/%s: no entry has the form of this: %s" % (crate, file, part.split("\n")[0]))
    return [Edit(crate, file, part) for part in parts]


def text_of(edits):
    """The text of a file with these entries."""
    return "\n".join(edit.text for edit in sorted(edits, key=Edit.order))


def name_clauses(top, crate, name, clauses):
    """Writes into the entry of this name of a crate's edits the clauses of functions of which it names none."""
    edits = of_crate(top, crate, EDITS)
    path = os.path.join(top, "crates", crate, EDITS)
    texts = [edit.with_clauses(clauses) if edit.name == name else edit.text for edit in edits]
    with open(path + ".new", "w", encoding="utf-8", newline="") as file:
        file.write("\n".join(texts))
    os.replace(path + ".new", path)


def wrong(texts):
    """The files of entries that have not the form of one, and the entries that have no name of their own, stand in another
    order, or name a function or a file that is not there.
    """
    for path, crate, file in files(texts):
        try:
            edits = entries(crate, file, texts[path])
        except ValueError as error:
            yield str(error)
            continue
        if texts[path] != text_of(edits) or len({edit.entry for edit in edits}) < len(edits):
            yield "%s is not sorted by functions and names, or has a name twice" % path
        functions = {name for other, text in texts.items() if is_source(other, crate) for name in FUNCTION.findall(text)}
        for edit in edits:
            yield from ("%s: %s is no function" % (edit.name, name) for name in edit.only if name.split("::")[-1] not in functions)
            changed = {"crates/%s/%s" % (crate, name) for name, _, _ in edit.changes}
            yield from ("%s: there is no %s" % (edit.name, name) for name in sorted(changed - set(texts)))


def modules_without(texts):
    """The modules with contracts of public functions that no edit changes, in the crates with edits. Laws have no bodies."""
    for path, crate, file in files(texts):
        if file == EDITS:
            changed = {"crates/%s/%s" % (crate, name) for edit in entries(crate, file, texts[path]) for name, _, _ in edit.changes}
            for source in sorted(other for other in texts if is_source(other, crate) and not LAW.fullmatch(other)):
                if CONTRACT.search(texts[source]) and source not in changed:
                    yield source


def files(texts):
    """The files of entries, each with its path, its crate and its name."""
    for path in sorted(filter(FILE.fullmatch, texts)):
        yield (path, *FILE.fullmatch(path).groups())


def is_source(path, crate):
    """Whether a path is that of a module of a crate."""
    return path.startswith("crates/%s/src/" % crate) and path.endswith(".rt")


def read(path):
    """The text of a file."""
    with open(path, encoding="utf-8", newline="") as file:
        return file.read()
