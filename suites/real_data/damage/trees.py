"""What stands in the folder `info` of a repository, as a tree.

A tree has the bytes of each file by its path from the folder, and None for a folder in a file's place.
"""

import os
import shutil

from damage.layer import sealed
from histories.repository import ID_LENGTH, write_bytes

FILE = "commit-graph"
GRAPHS = "commit-graphs"
CHAIN = GRAPHS + "/commit-graph-chain"


class Layer:
    """A layer of a chain: what its file is named by, and its bytes."""

    def __init__(self, name, content):
        self.name = name
        self.content = content

    def path(self):
        """Where its file stands."""
        return "%s/graph-%s.graph" % (GRAPHS, self.name)

    def edited(self, at, new):
        """The layer with other bytes at an offset, and the same trailer and name."""
        return Layer(self.name, self.content[:at] + new + self.content[at + len(new) :])

    def sealed(self, object_format):
        """The layer with a right trailer, and the same name."""
        return Layer(self.name, sealed(self.content, object_format))

    def renamed(self, object_format):
        """The layer with the name that its trailer asks for."""
        return Layer(self.content[-ID_LENGTH[object_format] :].hex(), self.content)


def chain(layers):
    """The tree of a chain of layers, the lowest first."""
    lines = [layer.name.encode() for layer in layers]
    return {**{layer.path(): layer.content for layer in layers}, CHAIN: text(lines)}


def of_layers(object_format, files):
    """The tree of a graph of these files, the lowest layer first: a single file, or a chain of files that are named right."""
    if len(files) == 1:
        return {FILE: files[0]}
    return chain([Layer("", file).renamed(object_format) for file in files])


def text(lines):
    """The bytes of a chain file of these lines."""
    return b"".join(line + b"\n" for line in lines)


def without(tree, *paths):
    """The tree without some files."""
    return {path: content for path, content in tree.items() if path not in paths}


def lay_out(folder, tree):
    """Puts a tree into a folder, in the place of the commit-graphs that are there."""
    for name in (FILE, GRAPHS):
        path = os.path.join(folder, name)
        if os.path.isdir(path):
            shutil.rmtree(path)
        elif os.path.exists(path):
            os.remove(path)
    for name, content in tree.items():
        path = os.path.join(folder, name)
        os.makedirs(path if content is None else os.path.dirname(path), exist_ok=True)
        if content is not None:
            write_bytes(path, content)
