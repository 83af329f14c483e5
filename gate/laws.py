"""The laws of the crates, and the paths by which a caller names them."""

import re

EXPORTER = "gix_commitgraph"
"""The crate that re-exports the laws of those below it. They are named by its paths."""

PUBLIC_PATHS = "crates/test_public_paths/src/"
FILE = re.compile(r"crates/\w+/src/(.*/)?law(/.*)?\.rt")
LAW = re.compile(r"^pub fn (\w+)", re.MULTILINE)
PUBLIC = re.compile(r"^pub mod law;", re.MULTILINE)
MODULE = re.compile(r"^pub mod (\w+);", re.MULTILINE)
EXPORT = re.compile(r"^pub use (\w+)::([\w:]+)::(\w+|\{[^}]*\});", re.MULTILINE)
"""A crate, a module of it, and what is re-exported from there."""


def names(texts):
    """The laws, by their files."""
    return {path: LAW.findall(text) for path, text in texts.items() if FILE.fullmatch(path)}


def paths(texts):
    """For each crate whose laws are public, the paths of its laws and of their modules, each from `law` on.

    The crates whose laws are re-exported are left out.
    """
    exported = set(re.findall(r"^pub use (\w+)::law", "".join(texts[path] for path in files_of(texts, EXPORTER)), re.MULTILINE))
    crates = {path.split("/")[1] for path, text in texts.items() if path.endswith("/src/lib.rt") and PUBLIC.search(text)}
    return {crate: set(paths_in(texts, crate, "law")) for crate in crates - exported}


def not_exported(texts):
    """The laws of the crate that re-exports the others which its crate of public paths does not name."""
    named = set(re.findall(r"\w+", "".join(text for path, text in texts.items() if path.startswith(PUBLIC_PATHS))))
    for path in sorted(paths(texts)[EXPORTER]):
        if path.split("::")[-1] not in named:
            yield path


def files_of(texts, crate):
    """The paths of a crate's files of laws."""
    return [path for path in texts if FILE.fullmatch(path) and path.startswith("crates/%s/" % crate)]


def paths_in(texts, crate, module):
    """The paths of a module and of what it has: its laws, its modules, and what it re-exports."""
    text = texts.get("crates/%s/src/%s.rt" % (crate, module.replace("::", "/")), "")
    yield module
    yield from ("%s::%s" % (module, name) for name in LAW.findall(text))
    for name in MODULE.findall(text):
        yield from paths_in(texts, crate, "%s::%s" % (module, name))
    for source, inner, exported in EXPORT.findall(text):
        for name in re.findall(r"\w+", exported):
            there = "%s::%s" % (inner, name)
            for path in paths_in(texts, crate if source == "crate" else source, there):
                yield "%s::%s%s" % (module, name, path[len(there) :])
