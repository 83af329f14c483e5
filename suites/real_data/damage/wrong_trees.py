"""Folders of commit-graphs with one thing wrong, each with its name and what `verify` has to say of it.

They are made from a right chain of three layers. Layers, lines and positions count from 0.
"""

from typing import NamedTuple, Optional

from damage.layer import Outline, big_endian, contents, with_chunks
from damage.trees import CHAIN, FILE, GRAPHS, Layer, chain, text, without
from histories.repository import ID_LENGTH

NOT_OPENED = "refused open 2\n"
HIGH = "a layer with a high generation"
UNOPENED = "a layer that does not open"
BASES = "a layer with wrong bases"
COUNT = "a layer with a wrong number of bases"
LIST = "a layer with a list of bases that is too long"
MORE_LINES = "short lines after the last layer's"
NO_FILES = "refused open 6 graph 1\n"
NO_FILE = "a line that names no file"


class WrongTree(NamedTuple):
    """A tree of a folder `info`, the answer to it, and what differences in verdict are listed under."""

    name: str
    tree: dict
    answer: str
    listed_as: Optional[str] = None


class Right:
    """A right chain of layers, and what else the damaged ones are made from.

    The texts are those of `verify` for each number of lowest layers. The strangers are the lowest
    layers of a chain of other commits, and of one of the other hash.
    """

    def __init__(self, object_format, layers, texts, strangers):
        self.object_format = object_format
        self.layers = layers
        self.texts = texts
        self.stranger, self.other_kind = strangers
        self.tree = chain(layers)
        self.lines = [layer.name.encode() for layer in layers]
        counts = [len(Outline(layer.content, object_format).chunks["OIDL"]) for layer in layers]
        size = Outline(layers[0].content, object_format).id_length
        self.starts = [sum(counts[:number]) // size for number in range(len(counts) + 1)]

    def with_lines(self, *lines, end=b"\n"):
        """The tree with other lines in the chain file."""
        return {**self.tree, CHAIN: b"".join(line + end for line in lines)}

    def with_layer(self, number, layer):
        """The tree of a chain with another layer."""
        return chain([*self.layers[:number], layer, *self.layers[number + 1 :]])

    def rebuilt(self, number, content):
        """The tree of a chain with other bytes of a layer; all checksums, names and base ids are right."""
        return chain(self.rebuilt_layers(number, content))

    def rebuilt_layers(self, number, content):
        """The layers of that chain."""
        layers = [*self.layers[:number], Layer("", content).sealed(self.object_format).renamed(self.object_format)]
        for layer in self.layers[number + 1 :]:
            base_ids = b"".join(bytes.fromhex(below.name) for below in layers)
            place = Outline(layer.content, self.object_format).chunks["BASE"]
            rebased = layer.edited(place.start, base_ids)
            layers.append(rebased.sealed(self.object_format).renamed(self.object_format))
        return layers


def all_wrong(right):
    """All such folders that are made from a right chain."""
    makers = (files, lines, orders, strangers, files_beside)
    numbers = range(len(right.layers))
    damaged_layers = [
        case for maker in (layers, bases, base_counts) for number in numbers for case in maker(right, number)
    ]
    return [case for maker in makers for case in maker(right)] + damaged_layers


def files(right):
    """Files that lack, and folders in their places."""
    tree, lowest = right.tree, right.layers[0].path()
    cases = [
        WrongTree("no graphs at all", {}, NOT_OPENED),
        WrongTree("no chain file", without(tree, CHAIN), NOT_OPENED, "a chain without its chain file"),
        WrongTree("a folder for the chain file", {**without(tree, CHAIN), CHAIN: None}, NOT_OPENED),
        WrongTree("a folder for the lowest layer", {**without(tree, lowest), lowest: None}, NOT_OPENED),
    ]
    for number, layer in enumerate(right.layers):
        lacking = without(tree, layer.path())
        cases.append(WrongTree("no layer %d" % number, lacking, NOT_OPENED, "a chain that lacks a layer"))
        stub = {**tree, layer.path(): b""}
        cases.append(WrongTree("an empty layer %d" % number, stub, unopened(number, 1), UNOPENED))
    return cases


def unopened(number, condition):
    """The refusal of a layer by a condition of opening."""
    return "refused open 5 layer %d file %s\n" % (number, condition)


def lines(right):
    """Chain files with other lines than names of layers, or with other ends of lines."""
    first, *others = right.lines
    missing = b"0" * len(first)
    cases = [
        WrongTree("an empty chain file", right.with_lines(), NO_FILES),
        WrongTree("a line first that names no file", right.with_lines(missing, *others), NOT_OPENED, NO_FILE),
        WrongTree("a line last that names no file", right.with_lines(*right.lines, missing), NOT_OPENED, NO_FILE),
        WrongTree("a line that is empty", right.with_lines(first, b"", *others), NOT_OPENED, NO_FILE),
        WrongTree("a line with a space at its end", right.with_lines(first + b" ", *others), NOT_OPENED, NO_FILE),
        WrongTree("no text after no file", right.with_lines(missing, b"\xff"), NOT_OPENED, NO_FILE),
        WrongTree("lines that end with 0d 0a", right.with_lines(*right.lines, end=b"\r\n"), right.texts[-1]),
        WrongTree("a chain file with no last 0a", {**right.tree, CHAIN: b"\n".join(right.lines)}, right.texts[-1]),
        WrongTree("an empty line last", right.with_lines(*right.lines, b""), NOT_OPENED, MORE_LINES),
        WrongTree("a short line last", right.with_lines(*right.lines, b"ab"), NOT_OPENED, MORE_LINES),
        WrongTree("a short line last, no text", right.with_lines(*right.lines, b"\xff"), torn_line(3), MORE_LINES),
    ]
    for number, line in enumerate(right.lines):
        cut = b"".join(other + b"\n" for other in right.lines[:number]) + line[: len(line) // 2]
        name = "a chain file cut within line %d" % number
        cases.append(WrongTree(name, {**right.tree, CHAIN: cut}, NOT_OPENED, "a chain file cut short"))
    for number in range(len(right.lines) + 1):
        torn = right.lines[:number] + [b"\xff" * len(first)] + right.lines[number + 1 :]
        name = "line %d of the chain is no text" % number
        cases.append(WrongTree(name, right.with_lines(*torn), torn_line(number), "a line that is no text"))
    return cases


def torn_line(number):
    """The refusal of a line of the chain file that is no text."""
    return "refused open 4 line %d\n" % number


def orders(right):
    """Right layers in wrong orders, or in part."""
    first, second, third = right.lines
    return [
        WrongTree("a chain without its last line", right.with_lines(first, second), right.texts[1]),
        WrongTree("a chain without its first line", right.with_lines(second, third), based_wrongly(0)),
        WrongTree("a chain without its middle line", right.with_lines(first, third), based_wrongly(1)),
        WrongTree("two lines exchanged", right.with_lines(second, first, third), based_wrongly(0)),
        WrongTree("a line twice", right.with_lines(first, first, second, third), based_wrongly(1)),
        WrongTree("the last line twice", right.with_lines(first, second, third, third), based_wrongly(3)),
        WrongTree("a line 256 times", right.with_lines(*[first] * 256), based_wrongly(1), "a line twice"),
        WrongTree("a line 257 times", right.with_lines(*[first] * 257), "refused verify 1\n", "a line twice"),
    ]


def based_wrongly(number):
    """The refusal of a layer for the number of its bases."""
    return "refused verify 2 layer %d\n" % number


def strangers(right):
    """Layers of other chains, and layers under other names than their own."""
    lowest, middle, highest = right.layers
    over_stranger = chain([right.stranger, middle, highest])
    under_each_other = chain([Layer(lowest.name, middle.content), Layer(middle.name, lowest.content), highest])
    other_kind = Layer((right.other_kind.name * 2)[: len(lowest.name)], right.other_kind.content)
    cases = [
        WrongTree("a lowest layer of other commits", over_stranger, "refused verify 3 layer 1 index 0\n"),
        WrongTree("a layer of the other hash", chain([lowest, other_kind]), "refused open 6 graph 3\n"),
        WrongTree("two layers under each other's names", under_each_other, based_wrongly(0)),
    ]
    for number, layer in enumerate(right.layers):
        answer = "refused verify 4 layer %d fault 2\n" % number
        for name in ("0" * len(layer.name), right.stranger.name, "ab"):
            title = "layer %d under the name %s" % (number, name[:8])
            other = right.with_layer(number, Layer(name, layer.content))
            listed_as = "a layer under another name" if layer != highest else "the last layer under another name"
            cases.append(WrongTree(title, other, answer, listed_as))
        capitals = right.with_layer(number, Layer(layer.name.upper(), layer.content))
        cases.append(WrongTree("layer %d under its name in capitals" % number, capitals, right.texts[-1]))
    return cases


def files_beside(right):
    """A single file beside a chain: it decides where it opens, else the chain does."""
    file, whole = right.layers[0].content, right.texts[-1]
    damaged = file[:-1] + bytes([file[-1] ^ 1])
    nothing_below = without(right.tree, right.layers[0].path())
    return [
        WrongTree("a file beside a chain", {**right.tree, FILE: file}, right.texts[0]),
        WrongTree("a file within the folder of a chain", {**right.tree, GRAPHS + "/" + FILE: file}, whole),
        WrongTree("a file with a wrong checksum beside a chain", {**right.tree, FILE: damaged}, unverified(0)),
        WrongTree("a file that does not open beside a chain", {**right.tree, FILE: file[:-1]}, whole),
        WrongTree("an empty file beside a chain", {**right.tree, FILE: b""}, whole),
        WrongTree("a folder for the file beside a chain", {**right.tree, FILE: None}, whole),
        WrongTree("a file that does not open, and no chain", {FILE: file[:-1]}, NOT_OPENED),
        WrongTree("a folder for the file, and no chain", {FILE: None}, NOT_OPENED),
        WrongTree("a file that does not open beside a torn chain", {**nothing_below, FILE: file[:-1]}, NOT_OPENED),
        WrongTree("a file beside a torn chain", {**nothing_below, FILE: file}, right.texts[0]),
        WrongTree("an empty file beside an empty chain", {FILE: b"", CHAIN: text([])}, NO_FILES),
    ]


def unverified(number):
    """The refusal of a layer for its checksum."""
    return "refused verify 4 layer %d fault 1\n" % number


def layers(right, number):
    """Damages of one layer, whose trailer and name stay or are set right again."""
    layer, kind, start, stop = right.layers[number], right.object_format, *right.starts[number : number + 2]
    record = Outline(layer.content, kind).chunks["CDAT"].start
    size, end = Outline(layer.content, kind).id_length, Outline(layer.content, kind).end
    no_tree = layer.edited(record, bytes(size)).sealed(kind)
    no_parent = layer.edited(record + size, big_endian(stop, 4)).sealed(kind)
    date = int.from_bytes(layer.content[record + size + 8 : record + size + 16], "big")
    other_time = layer.edited(record + size + 8, big_endian(date ^ 1, 8)).sealed(kind)
    too_high = layer.edited(record + size + 8, big_endian(date + 2**34, 8)).content
    above = "refused verify 3 layer %d index %d\n" % (number + 1, number)
    last = number == len(right.layers) - 1
    cases = [
        (other_time.renamed(kind), "another time", right.texts[-1] if last else above, "a layer with another time"),
        (other_time, "another time and the old name", "refused verify 4 layer %d fault 2\n" % number, None),
        (layer.edited(record, bytes(size)), "no tree and the old trailer", unverified(number), None),
        (no_tree.renamed(kind), "no tree", "refused verify 5 position %d fault 3\n" % start, None),
        (no_parent.renamed(kind), "no parent", "refused verify 7 position %d parent %d\n" % (start, stop), None),
        (layer.edited(0, b"CGPX"), "another signature", unopened(number, 2), UNOPENED),
        (layer.edited(layer.content.index(b"CDAT"), b"NONE"), "no commit data", unopened(number, 8), UNOPENED),
        (Layer(layer.name, layer.content[:1099]), "1099 bytes", unopened(number, 1), UNOPENED),
        (Layer(layer.name, layer.content[: end - 1]), "a cut chunk", unopened(number, "5 chunk 5"), UNOPENED),
        (Layer(layer.name, layer.content[:-1]), "a cut trailer", unopened(number, 15), UNOPENED),
        (Layer(layer.name, layer.content + b"\0"), "a byte more", unopened(number, 15), UNOPENED),
    ]
    title, high_tree = "layer %d with %%s" % number, right.rebuilt(number, too_high)
    found = [WrongTree(title % "a high generation", high_tree, generation_fault(start, date >> 34), HIGH)]
    for other, name, answer, listed_as in cases:
        found.append(WrongTree(title % name, right.with_layer(number, other), answer, listed_as))
    return found


def generation_fault(position, expected):
    """The refusal of a commit for its generation."""
    return "refused verify 8 position %d expected %d\n" % (position, expected)


def bases(right, number):
    """Damages of what a layer says of its bases; the lowest has none."""
    layer, kind = right.layers[number], right.object_format
    outline = Outline(layer.content, kind)
    if "BASE" not in outline.chunks:
        return []
    place, entry = outline.chunks["BASE"], layer.content.index(b"BASE")
    others = {
        "bases of an unknown id": (layer.edited(entry, b"ZZZZ"), 16),
        "four bytes less of bases": (layer.edited(entry + 4, big_endian(place.start + 4, 8)), 6),
    }
    cases = [(name, other, unopened(number, condition)) for name, (other, condition) in others.items()]
    for index, at in enumerate(place[:: outline.id_length]):
        other = layer.edited(at, bytes([layer.content[at] ^ 1]))
        answer = "refused verify 3 layer %d index %d\n" % (number, index)
        cases.append(("another base %d" % index, other.sealed(kind).renamed(kind), answer))
        cases.append(("another base %d and the old trailer" % index, other, answer))
    title = "layer %d with %%s" % number
    return [WrongTree(title % name, right.with_layer(number, other), answer, BASES) for name, other, answer in cases]


def base_counts(right, number):
    """Wrong numbers of bases in chains whose checksums, names and base ids are right."""
    layer, kind = right.layers[number].content, right.object_format
    chunks = [pair for pair in contents(layer, kind) if pair[0] != b"BASE"]
    ids = b"".join(bytes.fromhex(below.name) for below in right.layers[:number])
    size = ID_LENGTH[kind]
    more, part = ids + b"\x5a" * size, ids + b"\x5a" * (size - 1)
    counted = unopened(number, 7 if ids else 16)
    cases = [
        ("a base more in its header and its list", number + 1, more, based_wrongly(number), COUNT),
        ("a base more in its header", number + 1, ids, counted, COUNT),
        ("a base id too many", number, more, unopened(number, 7), LIST),
        ("a part of a base id too many", number, part, unopened(number, 6), LIST),
    ]
    if ids:
        cases += [
            ("a base less in its header", number - 1, ids, counted, COUNT),
            ("a base less in its header and its list", number - 1, ids[:-size], based_wrongly(number), BASES),
        ]
    found = []
    for name, count, listed, answer, listed_as in cases:
        listed_chunks = chunks + ([(b"BASE", listed)] if listed else [])
        other = with_chunks(layer[:7] + bytes([count]) + layer[8:], kind, listed_chunks)
        found.append(WrongTree("layer %d with %s" % (number, name), right.rebuilt(number, other), answer, listed_as))
    return found
