"""Names of definitions, and of their files in specs/, that stand twice in a crate and those that it uses.

There is to be none. A definition of the kit that some crate there names counts too. Two crates that are used together
by tests alone, or by no crate, may have the same name for two things.
"""

import os
import re
from collections import Counter, defaultdict

from documents import used_crates

SPECS = re.compile(r"crates/(\w+)/specs/")
SOURCES = re.compile(r"crates/(\w+)/(?:specs|src)/")
"""Where a name of the kit's may stand beside the names of a crate's definitions."""

DEFINITION = re.compile(r" *(?:abbrev |unfoldable )*pub (?!mod |use )(?:record |data )?(\w+)")
BLOCK = re.compile(r" *(?:abbrev |unfoldable )*(?:pub )?(?:record|data) ")
"""The first line of what has fields or constructors: the lines below it that are indented more have no definitions."""

COMMENT = re.compile(r"\s*(--.*)?$")
OF_THE_KIT = re.compile(r"use Rattle\.std\.specs\.[\w.]+\.\{([^}]*)\}")
LISTS = "Lib"
"""The name of the list of files that each crate has."""


def repeated_files(texts):
    """The names of files in specs/ that stand twice, the lists of files aside."""
    names = by_crate(texts, lambda path: {os.path.splitext(os.path.basename(path))[0]} - {LISTS})
    return repeated(texts, lambda crates: sum((names[crate] for crate in crates), Counter()))


def repeated_definitions(texts):
    """The names of definitions that stand in two files, or in one and in the kit."""
    names, kits = by_crate(texts, lambda path: set(definitions(texts[path]))), names_of_the_kit(texts)

    def among(crates):
        counts = sum((names[crate] for crate in crates), Counter())
        return counts + Counter(name for name in set().union(*(kits[crate] for crate in crates)) if name in counts)

    return repeated(texts, among)


def definitions(text):
    """The names of the definitions of a file, at any depth of its modules; fields and constructors are none."""
    block = None
    for line in text.splitlines():
        if not COMMENT.match(line):
            depth = len(line) - len(line.lstrip())
            if block is None or depth <= block:
                found = DEFINITION.match(line)
                yield from found.groups() if found else ()
                block = depth if BLOCK.match(line) else None


def names_of_the_kit(texts):
    """For each crate, the names of the kit's definitions that its definitions and its code use."""
    names = defaultdict(set)
    for path, text in texts.items():
        crate = SOURCES.match(path)
        for listed in OF_THE_KIT.findall(text) if crate else ():
            names[crate.group(1)].update(name.split(" as ")[-1].strip() for name in listed.split(","))
    return names


def by_crate(texts, names_in):
    """For each crate, how often each name stands in its files of specs/, by the names in each file."""
    names = defaultdict(Counter)
    for path in texts:
        crate = SPECS.match(path)
        if crate:
            names[crate.group(1)].update(names_in(path))
    return names


def repeated(texts, among):
    """A complaint for each name that stands twice in a crate and those that it uses, by the names of such crates."""
    twice = {}
    for crate, uses in used_crates(texts["crates.txt"]).items():
        counts = Counter() if crate.startswith("test_") else among({crate, *uses})
        twice.update((name, (count, crate)) for name, count in counts.items() if count > 1)
    for name, (count, crate) in sorted(twice.items()):
        yield "%s stands %d times in %s and what it uses" % (name, count, crate)
