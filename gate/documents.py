"""What the documents name in backquotes: paths, laws, definitions, tests and other code.

Each check gives the places that name what is not there, or the code that no README of a crate names.
"""

import fnmatch
import os
import re

import laws
import rooms

QUOTED = re.compile(r"`([^`\n]+)`")
PATH = re.compile(r"(crates|docs|shell|tables|building|gate|suites|bench|src|specs|proofs|must-fail)/\S*|[\w.*/-]+\.(rt|antt|md|py)")
ANY_NAME = re.compile(r"\b[A-Z]+\b")
"""A name in capitals within a path, as in crates/NAME/src, stands for any name."""

MODULES = (".py", ".rs")
FOUND_BY_NAME = re.compile(r"suites/real_data/checks/\w+_checks\.py")
"""Modules that another one finds by what stands in their folder."""

KNOWN_TO_GIT = (".gitignore",)
CODE = re.compile(r"[A-Za-z_]\w*(::\w+)*")
LINK = re.compile(r"\]\(([^)#:]+)\)")
README = re.compile(r"crates/(\w+)/README\.md")
"""The document of a crate, which has its promises."""

CODE_DOCUMENTS = re.compile(README.pattern + r"|docs/(ARCHITECTURE|FORMAT|PROMISES)\.md")
"""The documents that may name no code that is not there."""

LISTED = r"((?:(?:,| and|, and) `\w+`)*)"
"""Further names that are listed after one."""

DEFINITIONS = re.compile(r"`([A-Z]\w*)\.(?!antt|md)(\w+)`" + LISTED)
"""A definition after the name of its file of specs/, as in Layer.IsLayer, and others of that file."""

DEFINED = re.compile(r"\bpub (?:record |data )?(\w+)")
LAWS = re.compile(r"`(?:(\w+)::)?(law(?:::\w+)*)`" + LISTED)
"""A law or a module of laws, by its path, and others of the same module."""

TEST = re.compile(r"#\[test\]\s+(?:#\[.*\]\s+)*fn (\w+)")
CELL_END = re.compile(r" \|(?= |$)")
CONTRACT, TESTS = "Contract", "Tests"
"""The titles of the columns that hold names of functions with contracts and of tests."""

DECLARED = re.compile(r"\b(?:fn|struct|enum|trait|type|mod|const|ensures|for) (\w+)|^impl(?:<[^>]*>)? (?:\w+::)*(\w+)", re.MULTILINE)
"""What code has by a name: an item, a clause, or an impl by its trait and its type."""


def missing_paths(texts):
    """The places in documents that name a path which is the end of no path of the repository, or link to no file."""
    paths = {"/" + part for path in texts for part in with_folders(path)}
    for path in documents(texts):
        for link in LINK.findall(texts[path]):
            if os.path.normpath(os.path.join(os.path.dirname(path), link)) not in texts:
                yield "%s links to %s" % (path, link)
    for place, _, _, name in quotations(texts, documents(texts)):
        if PATH.fullmatch(name) and not is_end(name.rstrip("/"), paths):
            yield "%s names %s" % (place, name)


def unnamed_files(texts):
    """The files outside of the crates that no other of these names, lists of all files aside: a module by its name alone, and a
    command by its path.
    """
    ours = {path: text for path, text in texts.items() if not path.startswith("crates/") and not rooms.README.fullmatch(path)}
    for path in filter(lambda path: not FOUND_BY_NAME.fullmatch(path), ours):
        stem, ending = os.path.splitext(os.path.basename(path))
        name = path if not ending else stem if ending in MODULES else stem + ending
        word = re.compile(r"(?<![\w-])%s(?![\w-])" % re.escape(name))
        if path not in KNOWN_TO_GIT and not any(word.search(text) for other, text in ours.items() if other != path):
            yield path


def with_folders(path):
    """A path and the folders that it lies in, up to the top."""
    while path:
        yield path
        path = os.path.dirname(path)


def is_end(name, paths):
    """Whether a name, in which some parts stand for any name, is the end of one of the paths."""
    if "/" + name in paths:
        return True
    folder, document = os.path.split(name) if name.endswith(".md") else (name, "")
    return bool(fnmatch.filter(paths, "*/" + os.path.join(ANY_NAME.sub("*", folder), document).rstrip("/")))


def missing_laws(texts):
    """The places that name a law or a module of laws by a path which does not lead to it.

    In the README of a crate whose laws have paths of their own, a path from `law` on is one of that crate, elsewhere
    of the crate that re-exports the others. What is listed after it by name alone is in the same module.
    """
    paths = laws.paths(texts)
    for place, crate, _, cell in cells(texts, documents(texts)):
        own = crate if crate in paths else laws.EXPORTER
        for other, path, more in LAWS.findall(cell):
            module = path.rpartition("::")[0]
            for name in [path] + ["%s::%s" % (module, name) for name in QUOTED.findall(more)]:
                if name not in paths.get(other or own, ()):
                    yield "%s names %s" % (place, name)


def missing_definitions(texts):
    """The places that name a definition after a file of specs/ that does not define it, or after two that do.

    In the README of a crate the file is one of that crate or of those below it. What is listed after such a
    definition by name alone is in the same file.
    """
    defined = {path: set(DEFINED.findall(text)) for path, text in texts.items() if "/specs/" in path}
    lower = lower_crates(texts["crates.txt"])
    for place, crate, _, cell in cells(texts, documents(texts)):
        for file, first, more in DEFINITIONS.findall(cell):
            files = [defined.get("crates/%s/specs/%s.antt" % (below, file), ()) for below in lower.get(crate, lower)]
            for name in [first] + QUOTED.findall(more):
                if sum(name in names for names in files) != 1:
                    yield "%s names %s.%s" % (place, file, name)


def lower_crates(listing):
    """For each crate that crates.txt lists, that crate and those below it, the lowest crates coming from the kit."""
    uses = used_crates(listing)

    def below(crate):
        return {crate}.union(*map(below, uses.get(crate, ())))

    return {crate: below(crate) for crate in uses}


def highest_crates(listing):
    """For each crate that crates.txt lists, those of its own that it stands on, without the ones that another of these stands on."""
    uses, lower = used_crates(listing), lower_crates(listing)
    ours = {crate: uses.keys() & set(uses[crate]) for crate in uses}
    return {crate: {name for name in found if not any(name in lower[other] for other in found - {name})} for crate, found in ours.items()}


def used_crates(listing):
    """For each crate that crates.txt lists, the crates that it uses."""
    lines = re.findall(r"^(\w+)(?: staticlib)?:(.*)$", listing, re.MULTILINE)
    return {crate: uses.split() for crate, uses in lines}


def documents(texts):
    """The paths of the documents."""
    return [path for path in texts if path.endswith(".md")]


def code_documents(texts):
    """The paths of the documents that may name no code that is not there."""
    return [path for path in texts if CODE_DOCUMENTS.fullmatch(path)]


def unnamed_laws(texts):
    """The public laws that the README of their crate does not name."""
    return unnamed_there(texts, laws.names(texts))


def unnamed_there(texts, names):
    """Those names, by their files, that the README of the file's crate does not have."""
    known = names_by_crate(texts)
    for path in sorted(filter(names.get, names)):
        there = known.get(path.split("/")[1], ())
        yield from ("%s has %s" % (path, name) for name in names[path] if name not in there)


def names_by_crate(texts):
    """The names that the README of each crate has."""
    return {README.fullmatch(path).group(1): known_names(texts, [path]) for path in filter(README.fullmatch, texts)}


def unnamed_tests(texts):
    """The tests that no README of a crate names."""
    known = known_names(texts, filter(README.fullmatch, texts))
    for path in filter(is_code, sorted(texts)):
        yield from ("%s has %s" % (path, name) for name in TEST.findall(texts[path]) if name not in known)


def known_names(texts, paths):
    """The names that documents have, alone or at the end of a path."""
    return {name.split("::")[-1] for _, _, _, name in quotations(texts, paths)}


def missing_code(texts):
    """The places that name a test or other code that is not there.

    A test is a function. Of all else the last part has to stand in some code or specification.
    """
    code = {path: text for path, text in texts.items() if is_code(path)}
    crates = {path.split("/")[1] for path in code}
    functions = set(re.findall(r"\bfn (\w+)", "".join(code.values())))
    words = set(re.findall(r"\w+", "".join(code.values()))) | crates
    for place, _, column, name in quotations(texts, code_documents(texts)):
        if CODE.fullmatch(name) and not PATH.fullmatch(name):
            if name.split("::")[-1] not in (functions | crates if column == TESTS else words):
                yield "%s names %s" % (place, name)


def missing_contracts(texts):
    """The places in the columns of contracts that name what neither the crate nor one below it has. Laws have a check of
    their own.
    """
    lower = lower_crates(texts["crates.txt"])
    declared = {crate: set(lower) for crate in lower}
    for path in filter(lambda path: path.startswith("crates/") and path.endswith(".rt"), texts):
        declared[path.split("/")[1]].update(name for found in DECLARED.findall(texts[path]) for name in found if name)
    for place, crate, column, name in quotations(texts, filter(README.fullmatch, texts)):
        parts = name.split("::")
        if column == CONTRACT and CODE.fullmatch(name) and "law" not in parts:
            if not all(any(part in declared.get(below, ()) for below in lower[crate]) for part in parts):
                yield "%s names %s" % (place, name)


def is_code(path):
    """Whether a path is one of code or of a specification."""
    return path.startswith("crates/") and (path.endswith(".rt") or path.endswith(".antt") and "/specs/" in path)


def quotations(texts, paths):
    """What documents have in backquotes: the place, the crate whose README it is, its column's title, and the text."""
    for place, crate, title, cell in cells(texts, paths):
        for name in QUOTED.findall(cell):
            yield place, crate, title, name


def cells(texts, paths):
    """The lines of documents, and the cells of those of tables: the place, the crate of a README, the title, the text."""
    for path in paths:
        titles, readme = [], README.fullmatch(path)
        for number, line in enumerate(texts[path].split("\n"), 1):
            parts = CELL_END.split(line) if line.startswith("| ") else [line]
            if not line.startswith("|"):
                titles = []
            elif not titles:
                titles = [part.strip("| ") for part in parts]
            for text, title in zip(parts, titles or [None]):
                yield "%s:%d" % (path, number), readme and readme.group(1), title, text
