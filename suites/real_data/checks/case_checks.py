"""Checks what `git cgraph` says of a commit-graph to which something happened that happens to files, and what is so after the
commands that it gives: they make the commit-graph right, for Git too, and keep its filters and its split.
"""

import os
import re
import shutil
import socket
import tempfile
from functools import partial
from typing import Callable, NamedTuple

from checks.cgraph_checks import Installed
from histories import shapes
from histories.repository import read_bytes, write_bytes
from wrappers.clone import run
from wrappers.json_answers import difference

NOBODY = 65534
"""A user who may read no file of another's."""

PAGE = b"<!DOCTYPE html>\n<html><head><title>404 Not Found</title></head>\n<body>" + b"<p>Not found.</p>\n" * 100 + b"</body></html>\n"
NOT_OPENED = "refused open [12]"
DENIED = "may not be read (permission denied)"
LINE_1 = "git cgraph: line 1 of the chain file %s\ngit cgraph: the chain file is '{chain}'\n"


class Case(NamedTuple):
    """Something that happens to a file: a name, the file, the change to it, a pattern of the line of `verify`, what is said of
    the file, and the status. The file is `{file}`, `{chain}` or a layer, such as `{0}`; so it is in what is said.
    """

    name: str
    file: str
    change: Callable
    line: str
    said: str
    status: int = 1


def becomes(content):
    """A change: the file has these bytes."""
    return lambda path: write_bytes(path, content)


def by(function):
    """A change of a file's bytes."""
    return lambda path: write_bytes(path, function(read_bytes(path)))


def by_lines(function):
    """A change of a file's lines, which have their ends."""
    return by(lambda content: b"".join(function(content.splitlines(True))))


def zeroed(start):
    """A change: a block of bytes is zero, from a place on, which counts from the end where it is negative."""
    return by(lambda content: content[: start % len(content)] + (bytes(512) + content[start % len(content) + 512 :])[: len(content)])


def flipped(place):
    """A change of one bit."""
    return by(lambda content: content[: place % len(content)] + bytes([content[place] ^ 1]) + content[place % len(content) + 1 :])


def to_nothing(path):
    """A link to nothing in the place of a file."""
    os.remove(path)
    os.symlink("nothing", path)


def to_folder(path):
    """A folder in the place of a file."""
    os.remove(path)
    os.mkdir(path)


def to_socket(path):
    """A socket in the place of a file; where it is made first, its path is short."""
    os.remove(path)
    with tempfile.TemporaryDirectory() as folder, socket.socket(socket.AF_UNIX) as made:
        made.bind(os.path.join(folder, "s"))
        shutil.move(os.path.join(folder, "s"), path)


def closed(path):
    """No right to read a file."""
    os.chmod(path, 0)


def of_file(name, change, line, said="", status=1):
    """What happens to the file `commit-graph`."""
    return Case(name, "{file}", change, line, "the file '{file}' " + said if said else "the file is '{file}'", status)


def of_chain(name, change, line, said, status=1):
    """What happens to the chain file."""
    return Case("a chain file with " + name, "{chain}", change, line, said, status)


def of_layer(number, name, change, line, said="", status=1):
    """What happens to a layer."""
    hindered = "the file '{%d}', which line %d of '{chain}' names, %s" % (number, number + 1, said)
    named = "layer %d is '{%d}', by line %d of '{chain}'" % (number, number, number + 1)
    return Case("layer %d %s" % (number, name), "{%d}" % number, change, line, hindered if said else named, status)


ON_FILE = (
    of_file("an empty file", becomes(b""), "refused open 5 layer 0 file 1"),
    of_file("half of the file", by(lambda content: content[: len(content) // 2]), "refused open 5 layer 0 file .*"),
    of_file("the last byte gone", by(lambda content: content[:-1]), "refused open 5 layer 0 file 15"),
    of_file("a byte appended", by(lambda content: content + b"\n"), "refused open 5 layer 0 file 15"),
    of_file("the first block zeroed", zeroed(0), "refused open 5 layer 0 file 2"),
    of_file("a block of the ids zeroed", zeroed(1300), "refused verify 4 layer 0 fault 1"),
    of_file("the last block zeroed", zeroed(-512), "refused verify 4 layer 0 fault 1"),
    of_file("a bit of an id changed", flipped(1300), "refused verify 4 layer 0 fault 1"),
    of_file("a bit of the checksum changed", flipped(-1), "refused verify 4 layer 0 fault 1"),
    of_file("a page of HTML in its place", becomes(PAGE), "refused open 5 layer 0 file 2"),
    of_file("a link to nothing in its place", to_nothing, NOT_OPENED, "is a link to what is not there"),
    of_file("a folder in its place", to_folder, NOT_OPENED, "is a folder, not a file"),
    of_file("a socket in its place", to_socket, NOT_OPENED, "is not a file"),
    of_file("no right to read it", closed, NOT_OPENED, DENIED, 128),
)

ON_CHAIN = (
    of_layer(0, "missing", os.remove, NOT_OPENED, "is missing"),
    of_layer(1, "missing", os.remove, NOT_OPENED, "is missing"),
    of_layer(2, "missing", os.remove, NOT_OPENED, "is missing"),
    of_layer(1, "a link to nothing", to_nothing, NOT_OPENED, "is a link to what is not there"),
    of_layer(1, "a folder", to_folder, NOT_OPENED, "is a folder, not a file"),
    of_layer(1, "a socket", to_socket, NOT_OPENED, "is not a file"),
    of_layer(1, "that may not be read", closed, NOT_OPENED, DENIED, 128),
    of_layer(1, "empty", becomes(b""), "refused open 5 layer 1 file 1"),
    of_layer(2, "without its last byte", by(lambda content: content[:-1]), "refused open 5 layer 2 file 15"),
    of_layer(0, "with a byte appended", by(lambda content: content + b"\0"), "refused open 5 layer 0 file 15"),
    of_layer(2, "with a block of zeros", zeroed(1300), "refused verify 4 layer 2 fault 1"),
    of_layer(1, "a page of HTML", becomes(PAGE), "refused open 5 layer 1 file 2"),
    of_chain("a digit changed", by(lambda content: bytes([content[0] ^ 1]) + content[1:]), NOT_OPENED, "which line 1 of '{chain}' names, is missing"),
    of_chain("two lines exchanged", by_lines(lambda lines: [lines[1], lines[0], lines[2]]), "refused verify 2 layer 0", "layer 0 is '{1}', by line 1"),
    of_chain("a line twice", by_lines(lambda lines: [lines[0], *lines]), "refused verify 2 layer 1", "layer 1 is '{0}', by line 2 of '{chain}'"),
    of_chain("its first line gone", by_lines(lambda lines: lines[1:]), "refused verify 2 layer 0", "layer 0 is '{1}', by line 1 of '{chain}'"),
    of_chain("a blank line", by_lines(lambda lines: [lines[0], b"\n", *lines[1:]]), NOT_OPENED, "which line 2 of '{chain}' names, is missing"),
    of_chain("CR before the line ends", by(lambda content: content.replace(b"\n", b"\r\n")), "refused git 2 line 0", LINE_1 % "ends with CR and LF, so that Git finds no layer of that name"),
    of_chain("no line", becomes(b""), "refused open 6 graph 1", "the chain file is '{chain}'"),
    of_chain("no text", becomes(b"\xff\xfe\n"), "refused open 4 line 0", LINE_1 % "is not UTF-8"),
    of_chain("a page of HTML", becomes(PAGE), NOT_OPENED, "which line 1 of '{chain}' names, is missing"),
    of_chain("a link to nothing in its place", to_nothing, NOT_OPENED, "the file '{chain}' is a link to what is not there"),
    of_chain("a folder in its place", to_folder, NOT_OPENED, "the file '{chain}' is a folder, not a file"),
    Case("a file beside the chain that may not be read", "{file}", lambda path: (write_bytes(path, b"CGPH"), closed(path)), NOT_OPENED, "the file '{file}' " + DENIED, 128),
    of_chain("no right to read it", closed, NOT_OPENED, "the file '{chain}' " + DENIED, 128),
)


class Place:
    """A repository whose commit-graph is one file or a chain of three layers, with filters, and what stands in its folder."""

    def __init__(self, installed, repository, is_chain):
        self.repository = repository
        self.variables = {**installed.variables, "PATH": installed.variables["PATH"] + ":" + os.environ["PATH"]}
        history, ids = shapes.diamonds(24), []
        for stop in (30, 60, len(history)) if is_chain else (len(history),):
            ids += repository.add(history[:stop], len(ids))[len(ids) :]
            repository.write_graph("--changed-paths", *(["--split=no-merge"] if is_chain else []))
        self.info = os.path.realpath(repository.info_path())
        self.files = {path: read_bytes(path) for path in self.stored()}
        layers = [checksum for checksum, _ in repository.chain()] if is_chain else []
        self.layers = [os.path.join(self.info, "commit-graphs/graph-%s.graph" % name) for name in layers]

    def stored(self):
        """The paths of all files of the commit-graph."""
        paths = [os.path.join(at, name) for at, _, names in os.walk(self.info) for name in names]
        return [path for path in paths if os.path.basename(path).startswith(("commit-graph", "graph-")) and os.path.isfile(path)]

    def filtered(self):
        """Whether the files are of a chain, and have filters, by their tables of chunks: what is known of them."""
        starts = [read_bytes(path)[:256] for path in self.stored()]
        return any(path.endswith(".graph") for path in self.stored()), any(b"BDAT" in start for start in starts)

    def reset(self):
        """Puts back what was there at first."""
        shutil.rmtree(self.info)
        for path, content in self.files.items():
            os.makedirs(os.path.dirname(path), exist_ok=True)
            write_bytes(path, content)

    def named(self, text):
        """A text with paths in the place of names."""
        file, chain = (os.path.join(self.info, name) for name in ("commit-graph", "commit-graphs/commit-graph-chain"))
        return text.format(*self.layers, file=file, chain=chain)

    def run(self, *command):
        """The answer of a command there, as a user who may not read what nobody may."""
        trusted = {"GIT_CONFIG_COUNT": "1", "GIT_CONFIG_KEY_0": "safe.directory", "GIT_CONFIG_VALUE_0": "*"}
        streams = {"preexec_fn": partial(os.setuid, NOBODY)} if os.geteuid() == 0 else {}
        return run(command, {**self.variables, **trusted}, cwd=self.repository.folder, **streams)

    def own(self, *command):
        """The answer of a command there, as the user to whom it belongs."""
        return run(command, self.variables, cwd=self.repository.folder)


def check_all(programs, results, folder, new):
    """Each case in repositories of both kinds of hash. All may write where files of a moment are made."""
    installed = Installed(os.path.join(folder, "installed"), programs)
    os.chmod(installed.clone.temporary, 0o777)
    for kind in ("sha1", "sha256"):
        for cases, is_chain in ((ON_FILE, False), (ON_CHAIN, True)):
            place = Place(installed, new(kind, "cases, %s" % ("a chain" if is_chain else "a file")), is_chain)
            for case in cases:
                check_case(results, place, case)
    check_other(installed, results, new)


def check_case(results, place, case):
    """What is said of a case, how `list` ends, what programs are told, and what is so after the commands."""
    title = "git cgraph, %s, %s" % (place.repository.object_format, case.name)
    place.reset()
    case.change(place.named(case.file))
    answer = place.run("git", "cgraph", "verify")
    right = answer.status == case.status and re.fullmatch(case.line + "\n", answer.out) and place.named(case.said) in answer.err
    results.check(title, None if right else "it is %r, expected %r" % (answer, case))
    results.check(title + ", --json", difference("verify", answer, place.run("git", "cgraph", "verify", "--json")))
    if re.match("refused (open [126]\\b|git)", answer.out):
        check_list(results, title, place, answer)
    known = bool(place.layers), place.filtered()[1]
    cure = "".join(line + "\n" for line in answer.err.splitlines() if line.startswith("    "))
    cured = place.own("sh", "-e", "-c", cure)
    if case.status == 128:
        place.reset()
    verdicts = [place.own("git", *words, "verify") for words in (["cgraph"], ["commit-graph"])]
    right = cure and cured.status == 0 and all(verdict.status == 0 and not verdict.err for verdict in verdicts)
    kept = place.filtered() == (known if case.status == 1 else (known[0], True))
    results.check(title + ", the cure", None if right and kept else "%r gives %r and %r" % (cure, cured, verdicts))


def check_list(results, title, place, verified):
    """Where a file cannot be read, `list` lists the layers below it and no others, and says the same."""
    answer = place.run("git", "cgraph", "list")
    lines = [line for line in answer.out.splitlines() if not re.match(r"(layer|base|\d+) ", line)]
    right = answer.status == 128 and lines in (verified.out.splitlines(), ["refused open 2"])
    right = right and answer.err.splitlines()[1:] == verified.err.splitlines()[1:]
    results.check(title + ", list", None if right else "it is %r, and verify %r" % (answer, verified))


def check_other(installed, results, new):
    """The commit-graph of another repository is right by itself, and has none of the commits; one of the other hash is refused."""
    place = Place(installed, new("sha1", "cases, of others"), False)
    for kind, shape in (("sha1", shapes.linear(30)), ("sha256", shapes.linear(30))):
        other = new(kind, "cases, another %s" % kind)
        other.add(shape)
        write_bytes(place.named("{file}"), other.new_graph())
        first = place.own("git", "cgraph", "verify", *(["--objects"] if kind == "sha1" else []))
        wanted = "refused objects 4 position 0\n" if kind == "sha1" else "refused git 1\n"
        right = first[:2] == (1, wanted)
        cure = "".join(line + "\n" for line in first.err.splitlines() if line.startswith("    "))
        cured = place.own("sh", "-e", "-c", cure)
        verdicts = [place.own("git", *words).status for words in (["cgraph", "verify", "--objects"], ["commit-graph", "verify"])]
        right = right and cure and cured.status == 0 and verdicts == [0, 0]
        results.check("git cgraph, the commit-graph of another repository, %s" % kind, None if right else "it is %r, then %r" % (first, verdicts))
