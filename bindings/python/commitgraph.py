"""Git's commit-graph files, read and checked by proved code.

    with commitgraph.open(".git/objects/info") as graph:
        for position in range(len(graph)):
            print(graph.id(position).hex(), graph.parents(position))

A graph is checked as it is opened. An Error has a `code` of Code; its text names the file and the commit, and what to type. A
NeitherError tells why neither the file nor the chain of a folder opens. A file that cannot be read is an OSError. `lookup_all`,
`ids` and `compare_all` ask about many commits in one call; `visits` and `flag` stop a search or a check before its end. `write_file`
and `write_layer` make the bytes that Git writes of commits.

Threads may share a graph: any number of them may ask it at a time, and a call that has begun comes to its end also where another
thread closes the graph. A graph is not copied or pickled.

It calls libcommitgraph.so.1, which is looked for in the folder that COMMITGRAPH_LIB names; where that is not set, in this clone, where
`building/library` makes it, and then where the system looks. The calls are proved, this module is not: test_commitgraph.py tests it.
"""

import ctypes
import enum
import errno
import io
import os
import pathlib
import shlex
import stat
import string
from collections.abc import Iterator, Sequence
from ctypes import POINTER, c_bool, c_char_p, c_size_t, c_uint8, c_uint32, c_uint64, c_void_p
from itertools import islice
from typing import NamedTuple, NoReturn

VERSION = 100
"""The version of the library that this module is for."""
INSTALLED = "libcommitgraph.so.1"
"""The name of the library where it is installed."""


class Code(enum.IntEnum):
    """The numbers of causes, as commitgraph.h has them."""

    # gate/refusal_table.py writes them here, of tables/refusals.tsv.
    OK = 0
    OUT_OF_MEMORY = 1
    CLOSED_GRAPH = 2
    NOT_CHECKED = 3
    NO_SUCH_POSITION = 4
    PATH_NOT_UTF8 = 5
    NO_DATES = 6
    MORE_PARENTS = 7
    PATH_WANTED = 8
    NO_SUCH_LAYER = 9
    STOPPED = 10
    OPEN_NOTHING_FOUND = 21
    OPEN_NOT_OPENED = 22
    OPEN_READ_FAILED = 23
    OPEN_CHAIN_NOT_TEXT = 24
    FILE_TOO_SHORT = 101
    FILE_SIGNATURE = 102
    FILE_VERSION = 103
    FILE_HASH = 104
    FILE_BASE_SIZE = 106
    FILE_BASE_COUNT = 107
    FILE_NO_COMMIT_DATA = 108
    FILE_COMMIT_DATA_SIZE = 109
    FILE_NO_FAN = 110
    FILE_FAN_SIZE = 111
    FILE_NO_IDS = 112
    FILE_IDS_SIZE = 113
    FILE_TOO_MANY_EDGES = 114
    FILE_TRAILER = 115
    FILE_BASE_MISSING = 116
    FILE_FAN_FALLS = 117
    FILE_ID_COUNT = 118
    FILE_RECORD_COUNT = 119
    CHUNK_NONE = 151
    CHUNK_TABLE_TOO_SMALL = 152
    CHUNK_EARLY_END = 153
    CHUNK_DUPLICATE = 154
    CHUNK_OUT_OF_FILE = 155
    CHUNK_FALLING = 156
    CHUNK_NO_END = 157
    GRAPH_NO_FILES = 201
    GRAPH_TOO_MANY_COMMITS = 202
    GRAPH_HASH_MISMATCH = 203
    CHECK_TOO_MANY_FILES = 301
    CHECK_BASE_COUNT = 302
    CHECK_BASE_ID = 303
    CHECK_PARENT_OUT_OF_RANGE = 307
    CHECK_GENERATION = 308
    CHECK_DUPLICATE_ID = 311
    CHECK_CHECKSUM = 341
    CHECK_FILE_NAME = 342
    CHECK_FAN = 343
    CHECK_NULL_ID = 351
    CHECK_ORDER = 352
    CHECK_NULL_TREE = 353
    PARENT_SECOND_WITHOUT_FIRST = 361
    PARENT_FIRST_IS_EDGE_INDEX = 362
    PARENT_NO_EDGE_LIST = 363
    PARENT_EDGE_OVERFLOW = 364
    DATES_DATA_SIZE = 401
    DATES_OVERFLOW_SIZE = 402
    DATES_OVERFLOW_INDEX = 403
    DATES_TOO_LARGE = 404
    DATES_WRONG = 405
    FILTERS_INDEX_SIZE = 501
    FILTERS_DATA_SIZE = 502
    FILTERS_VERSION = 503
    FILTERS_HASHES = 504
    FILTERS_NO_BITS = 505
    FILTERS_FALLS = 506
    FILTERS_PAST_END = 507
    FILTERS_LEFT_OVER = 508
    FILTERS_SETTINGS = 509
    OBJECT_OTHER_CONTENTS = 606
    OBJECT_UNREADABLE = 607
    OBJECT_TREE = 608
    OBJECT_PARENT = 609
    OBJECT_TIME = 610
    WRITE_KIND = 701
    WRITE_NULL_ID = 702
    WRITE_NULL_TREE = 703
    WRITE_TIME = 704
    WRITE_TWICE = 705
    WRITE_BELOW = 706
    WRITE_PARENT = 707
    WRITE_CYCLE = 708
    WRITE_NOTHING = 709
    WRITE_NO_IDS = 712
    WRITE_TOO_MANY_COMMITS = 721
    WRITE_TOO_MANY_EDGES = 722
    WRITE_TOO_MANY_LAYERS = 723


def _sentence(code: int) -> str:
    """What happened, as the library says it."""
    return str(_library.cg_strerror(code), "utf-8")


def _advice(code: int) -> str:
    """What to do, as the library says it; empty where it says nothing."""
    return str(_library.cg_advice(code), "utf-8")


class Error(Exception):
    """Why a graph was not opened, a question has no answer, or no layer was written; with what it is about: the layer and the
    `path` of its file, or the line of a chain file; the position, and the id of the `commit` there; or the number of a question or
    of a commit that was handed in, and `other`, as in commitgraph.h. `advice` says what to do, with the commands to type."""

    def __init__(
        self,
        code: int,
        layer: int = 0,
        position: int = 0,
        path: str = "",
        number: int | None = None,
        other: int = 0,
        commit: bytes = b"",
    ) -> None:
        self._given: tuple[object, ...] = (code, layer, position, path, number, other, commit)
        self.code, self.layer, self.position, self.path = Code(code), layer, position, path
        self.number, self.other, self.commit = number or 0, other, commit
        self.advice, self._happened = self._to_do(), self._said(number is not None)
        super().__init__(_advised(self._happened, self.advice))

    def __reduce__(self) -> tuple[type["Error"], tuple[object, ...]]:
        """By which it is copied, and handed from one process to another."""
        return type(self), self._given

    def _to_do(self) -> str:
        return "hand in at least one" if self._is_of_no_bytes() else _advice(self.code)

    def _is_of_no_bytes(self) -> bool:
        """Whether no layer was handed in, where another refusal of the same number names a chain file."""
        return self.code == Code.GRAPH_NO_FILES and not self.path

    def _said(self, is_numbered: bool) -> str:
        """What happened, alone."""
        said = (self.path + ": " if self.path else "") + _sentence(self.code)
        if self._is_of_no_bytes():
            said = "no layer is handed in"
        elif self.code == Code.OPEN_CHAIN_NOT_TEXT:
            said += f": line {self.layer}, counted from 0"
        elif Code.WRITE_KIND <= self.code <= Code.WRITE_CYCLE or self.code == Code.WRITE_NO_IDS:
            said += f": commit {self.number} of those that were handed in, counted from 0"
        elif self.code == Code.NO_SUCH_POSITION and is_numbered:
            said += f": number {self.number} of those asked, counted from 0"
        elif self.code == Code.NO_SUCH_POSITION and self.position:
            said += f": {self.position}"
        elif self.commit:
            said += f"; the commit at position {self.position} is {self.commit.hex()}"
        return said


def _advised(said: str, advice: str) -> str:
    return said + ("; what to do: " + advice if advice else "")


class NeitherError(Error):
    """Of an info folder neither the file nor the chain was opened, and neither is missing: `file` and `chain` say why each was not, of
    which one at most is an OSError. The rest is that of the chain, or of the file where the chain could not be read."""

    def __init__(self, file: Exception, chain: Exception) -> None:
        self.file, self.chain = file, chain
        told = chain if isinstance(chain, Error) else file
        assert isinstance(told, Error)
        super().__init__(told.code, told.layer, told.position, told.path)
        self._given = (file, chain)

    def _to_do(self) -> str:
        return _advice(Code.OPEN_CHAIN_NOT_TEXT)

    def _said(self, is_numbered: bool) -> str:
        return _neither(self.file, self.chain)


def _neither(file: Exception, chain: Exception) -> str:
    """What happened where neither the file of an info folder nor its chain was opened."""
    return f"neither the file nor the chain was opened: {_alone(file)}; {_alone(chain)}"


def _alone(refusal: Exception) -> str:
    """What happened, without what to do."""
    if isinstance(refusal, OSError):
        return f"cannot read {refusal.filename}: {os.strerror(refusal.errno)}"
    return refusal._happened if isinstance(refusal, Error) else str(refusal)


# gate/declarations.py makes these numbers, structs and calls of commitgraph.h.

ANYTHING = 0
FILE = 1
NOTHING = 0
READ = 1
FOLDER = 2
UNOPENED = 3
UNREAD = 4
NO_MEMORY = 5


class _Graph(ctypes.Structure):
    _fields_ = (("address", c_void_p), ("opened", c_bool))


class _File(ctypes.Structure):
    _fields_ = (("bytes", c_void_p), ("len", c_size_t), ("path", c_void_p), ("path_len", c_size_t))


class _Error(ctypes.Structure):
    _fields_ = (("code", c_uint32), ("layer", c_uint64))


class _Known(ctypes.Structure):
    _fields_ = (("path", c_void_p), ("path_len", c_size_t), ("bytes", c_void_p), ("len", c_size_t), ("kind", c_uint32))


class _PathError(ctypes.Structure):
    _fields_ = (("code", c_uint32), ("layer", c_uint64), ("length", c_uint64))


class _Flag(ctypes.Structure):
    _fields_ = (("address", c_void_p), ("kept", c_bool))


class _Limit(ctypes.Structure):
    _fields_ = (("visits", c_uint64), ("flag", _Flag))


class _Layer(ctypes.Structure):
    _fields_ = (("first", c_uint32), ("num_commits", c_uint32), ("bases", c_uint32), ("hash", c_uint32))


class _Lent(ctypes.Structure):
    _fields_ = (("bytes", c_void_p), ("len", c_size_t))


class _Answered(ctypes.Structure):
    _fields_ = (("code", c_uint32), ("answered", c_uint64))


class _Commit(ctypes.Structure):
    _fields_ = (("time", c_uint64), ("generation", c_uint32))


class _ParentCount(ctypes.Structure):
    _fields_ = (("code", c_uint32), ("count", c_uint64))


class _Verdict(ctypes.Structure):
    _fields_ = (
        ("code", c_uint32),
        ("num_commits", c_uint32),
        ("longest", c_uint32),
        ("has_longest", c_uint32),
        ("position", c_uint32),
        ("other", c_uint32),
        ("called", c_uint32),
        ("layer", c_uint64),
        ("index", c_uint64),
        ("kinds", c_uint64),
    )


class _Leads(ctypes.Structure):
    _fields_ = (("code", c_uint32), ("found", c_bool))


class _Bases(ctypes.Structure):
    _fields_ = (("code", c_uint32), ("ahead", c_uint32), ("behind", c_uint32), ("visits", c_uint64), ("length", c_uint64))


class _Two(ctypes.Structure):
    _fields_ = (("first", c_uint32), ("other", c_uint32))


class _Compared(ctypes.Structure):
    _fields_ = (("code", c_uint32), ("answered", c_uint64), ("length", c_uint64))


class _NewCommit(ctypes.Structure):
    _fields_ = (
        ("id", c_void_p),
        ("id_len", c_size_t),
        ("tree", c_void_p),
        ("tree_len", c_size_t),
        ("parents", c_void_p),
        ("parents_len", c_size_t),
        ("time", c_uint64),
    )


class _Bytes(ctypes.Structure):
    _fields_ = (("address", c_void_p), ("kept", c_bool))


class _WriteError(ctypes.Structure):
    _fields_ = (
        ("code", c_uint32),
        ("position", c_uint32),
        ("commit", c_uint64),
        ("other", c_uint64),
        ("layer", c_uint64),
        ("expected", c_uint64),
    )


class _Line(ctypes.Structure):
    _fields_ = (("found", c_bool), ("end", c_size_t), ("next", c_size_t))


CALLS = {
    "cg_version": (c_uint32, ()),
    "cg_open": (_Error, (POINTER(_File), c_size_t, POINTER(_Graph))),
    "cg_open_known": (
        _PathError,
        (c_void_p, c_size_t, c_uint32, POINTER(_Known), c_size_t, c_void_p, c_size_t, POINTER(_Graph)),
    ),
    "cg_open_checked": (_Error, (POINTER(_File), c_size_t, c_bool, POINTER(_Verdict), c_void_p, c_size_t, POINTER(_Graph))),
    "cg_flag_new": (c_uint32, (POINTER(_Flag),)),
    "cg_flag_raise": (c_bool, (_Flag,)),
    "cg_flag_free": (c_bool, (POINTER(_Flag),)),
    "cg_check_within": (c_uint32, (POINTER(_Graph), c_bool, _Limit, POINTER(_Verdict), c_void_p, c_size_t, POINTER(_Graph))),
    "cg_close": (c_bool, (POINTER(_Graph),)),
    "cg_num_commits": (c_uint32, (_Graph,)),
    "cg_id_len": (c_size_t, (_Graph,)),
    "cg_layer": (c_bool, (_Graph, c_uint64, POINTER(_Layer))),
    "cg_lookup": (c_uint32, (_Graph, c_void_p, c_size_t)),
    "cg_lookup_all": (c_uint64, (_Graph, c_void_p, c_size_t, c_size_t, c_void_p, c_size_t)),
    "cg_id_at": (c_size_t, (_Graph, c_uint32, c_void_p, c_size_t)),
    "cg_tree_at": (c_size_t, (_Graph, c_uint32, c_void_p, c_size_t)),
    "cg_ids_at": (_Answered, (_Graph, c_void_p, c_size_t, c_void_p, c_size_t)),
    "cg_commit_at": (c_bool, (_Graph, c_uint32, POINTER(_Commit))),
    "cg_parents": (_ParentCount, (_Graph, c_uint32, c_void_p, c_size_t)),
    "cg_is_ancestor_within": (_Leads, (_Graph, c_uint32, c_uint32, _Limit)),
    "cg_merge_bases": (_Bases, (_Graph, c_uint32, c_void_p, c_size_t, c_void_p, c_size_t)),
    "cg_merge_bases_within": (_Bases, (_Graph, c_uint32, c_void_p, c_size_t, _Limit, c_void_p, c_size_t)),
    "cg_merge_bases_of": (_Compared, (_Graph, POINTER(_Two), c_size_t, POINTER(_Bases), c_size_t, c_void_p, c_size_t)),
    "cg_write": (_WriteError, (_Graph, POINTER(_NewCommit), c_size_t, POINTER(_Bytes))),
    "cg_lend_bytes": (c_bool, (_Bytes, POINTER(_Lent))),
    "cg_bytes_free": (c_bool, (POINTER(_Bytes),)),
    "cg_chain_line": (_Line, (c_void_p, c_size_t, c_size_t)),
    "cg_strerror": (c_char_p, (c_uint32,)),
    "cg_advice": (c_char_p, (c_uint32,)),
}
"""What each call that is used here answers and takes."""


CLONE = pathlib.Path(__file__).resolve().parent / "../.."
"""The clone that this file is in, if it is in one."""


def _path() -> str:
    """The path of the library, or its name for the system, where neither a folder is named nor this clone has built it."""
    named, built = os.environ.get("COMMITGRAPH_LIB"), CLONE / "crates/commitgraph_c/out/libcommitgraph.so"
    if named:
        installed = os.path.join(named, INSTALLED)
        return installed if os.path.exists(installed) else os.path.join(named, built.name)
    return str(built) if built.exists() else INSTALLED


def _load() -> ctypes.CDLL:
    path = _path()
    try:
        library = ctypes.CDLL(path)
    except OSError as error:
        raise ImportError(f"{error}; what to do: {_how_to_install()}", path=path) from error
    version = getattr(library, "cg_version", lambda: 0)()
    if version != VERSION:
        raise ImportError(f"{path} is of version {version}, and not {VERSION}; what to do: {_how_to_install()}", path=path)
    for name, (answer, taken) in CALLS.items():
        call = getattr(library, name, None)
        if call is None:
            raise ImportError(f"{path} is older than this module, and has no {name}; what to do: {_how_to_install()}", path=path)
        call.restype, call.argtypes = answer, taken
    return library


def _how_to_install() -> str:
    """How the library comes to where it is looked for."""
    script = (CLONE / "building/library").resolve()
    build = "run " + (shlex.quote(str(script)) if script.exists() else "building/library in a clone of Nolavimure")
    first = "unset COMMITGRAPH_LIB and " if os.environ.get("COMMITGRAPH_LIB") else ""
    return f"{first}{build}, which proves and builds it; or after building/install --library PREFIX let COMMITGRAPH_LIB name the folder PREFIX/lib"


_library = _load()


class Record(NamedTuple):
    """What the record of a commit says, but for its ids and its parents."""

    time: int
    """Seconds since 1970-01-01 00:00:00 UTC."""
    generation: int


class Comparison(NamedTuple):
    """What a commit and some others have in common, and how far they have come apart."""

    bases: list[int]
    """The positions of the merge bases, the least first."""
    ahead: int
    """How many commits the first leads to, and none of the others does."""
    behind: int
    """How many commits some of the others leads to, and the first does not."""


class NewCommit(NamedTuple):
    """A commit that a layer is to have, with the ids of its parents, first parent first."""

    id: bytes
    tree: bytes
    parents: Sequence[bytes]
    time: int
    """Seconds since 1970-01-01 00:00:00 UTC."""


class _OpenGraph(_Graph):
    """A graph that is open for C, until nothing refers to it any more: a call that runs does, since it was handed this."""

    def __del__(self) -> None:
        _library.cg_close(self)


class _NewFlag(_Flag):
    """A flag that is there for C as long as something refers to it."""

    def __del__(self) -> None:
        _library.cg_flag_free(self)


class Flag:
    """A flag by which one thread stops what another one asks. It is never lowered."""

    def __init__(self) -> None:
        self._flag = _NewFlag(None, False)
        code = _library.cg_flag_new(self._flag)
        if code:
            raise Error(code)

    def raise_(self) -> None:
        """Raises the flag, for good: calls that look at it stop, and so do later ones."""
        _library.cg_flag_raise(self._flag)

    def __reduce__(self) -> NoReturn:
        raise TypeError("a Flag cannot be copied or pickled; what to do: hand the flag itself to each thread")


def _limit(visits: int | None, flag: Flag | None) -> _Limit:
    most = 2**64 - 1 if visits is None else min(max(visits, 0), 2**64 - 1)
    return _Limit(most, flag._flag if flag else _Flag(None, False))


class Graph:
    """A commit-graph that its check has found right. Positions count from 0 over all layers. Any number of threads may ask it at a
    time, and any of them may close it."""

    def __init__(self, layers: Sequence[tuple[bytes, str]], distinct_ids: bool = False) -> None:
        """The graph of layers, each given by its bytes and the path of its file, the lowest first; with `distinct_ids` only
        where no id stands in two layers."""
        self._graph = _OpenGraph(None, False)
        files, _kept = _files(layers)
        verdict, counts = _Verdict(), (c_uint32 * 2)()
        error = _library.cg_open_checked(files, len(layers), distinct_ids, verdict, counts, 0, self._graph)
        if error.code:
            raise _fault(error.code, verdict, layers)

    @classmethod
    def _checked(cls, opened: _Graph, distinct_ids: bool, limit: _Limit, layers: Sequence[tuple[bytes, str]]) -> "Graph":
        """The graph that was opened of these layers, which is checked, and closed where it is refused."""
        graph = cls.__new__(cls)
        graph._graph = _OpenGraph(None, False)
        verdict, counts = _Verdict(), (c_uint32 * 2)()
        code = _library.cg_check_within(opened, distinct_ids, limit, verdict, counts, 0, graph._graph)
        if code:
            raise _fault(code, verdict, layers)
        return graph

    def close(self) -> None:
        """Closes the graph, which answers nothing after that. Calls that other threads have begun come to their end, and with the
        last of them its memory goes."""
        self._graph = _OpenGraph(None, False)

    def __enter__(self) -> "Graph":
        return self

    def __exit__(self, *_: object) -> None:
        self.close()

    def __reduce__(self) -> NoReturn:
        raise TypeError("a Graph cannot be copied or pickled; what to do: use the graph itself, or open it once more")

    def __len__(self) -> int:
        return int(_library.cg_num_commits(self._graph))

    def lookup(self, commit: bytes | str) -> int | None:
        """The position of the commit with an id, which is given as bytes or in hexadecimal. ValueError is raised where a text is no
        id: it has 40 or 64 digits."""
        name, graph = _id_of(commit) if isinstance(commit, str) else commit, self._graph
        if not graph.opened:
            raise Error(Code.CLOSED_GRAPH)
        return _found(_library.cg_lookup(graph, _at(name), len(name)))

    def lookup_all(self, commits: Sequence[bytes]) -> list[int | None]:
        """The positions of the commits with these ids, as `lookup` finds each."""
        graph = self._graph
        size = _library.cg_id_len(graph)
        if any(len(commit) != size for commit in commits):
            return [self.lookup(commit) for commit in commits]
        ids, out = b"".join(commits), (c_uint32 * (len(commits) + 1))()
        _library.cg_lookup_all(graph, _at(ids), len(ids), size, out, len(commits))
        return [_found(position) for position in out[: len(commits)]]

    def id(self, position: int) -> bytes:
        """The id of the commit at a position."""
        return self._written(_library.cg_id_at, position)

    def ids(self, positions: Sequence[int]) -> list[bytes]:
        """The ids of the commits at these positions."""
        graph, count = self._graph, len(positions)
        size = _library.cg_id_len(graph)
        out = (c_uint8 * (size * count + 1))()
        told = _library.cg_ids_at(graph, _places(positions), count, out, size * count)
        if told.code:
            raise Error(told.code, number=told.answered)
        return [bytes(out[start : start + size]) for start in range(0, size * count, size or 1)]

    def tree(self, position: int) -> bytes:
        """The id of its root tree."""
        return self._written(_library.cg_tree_at, position)

    def record(self, position: int) -> Record:
        """What its record says."""
        graph, commit = self._graph, _Commit()
        if not _library.cg_commit_at(graph, _place(position), commit):
            raise _none_at(graph, position)
        return Record(commit.time, commit.generation)

    def parents(self, position: int) -> list[int]:
        """The positions of its parents, the first parent first."""
        graph, room = self._graph, 2
        while True:
            out = (c_uint32 * room)()
            told = _library.cg_parents(graph, _place(position), out, room)
            if told.code:
                raise Error(told.code, position=position)
            if told.count <= room:
                return out[: told.count]
            room = told.count

    def is_ancestor(self, ancestor: int, descendant: int, visits: int | None = None, flag: Flag | None = None) -> bool:
        """Whether a commit is an ancestor of another, in the order of `git merge-base --is-ancestor`. It is an error with
        `Code.STOPPED` where more commits than `visits` would have to be visited, or the flag was raised."""
        graph = self._graph
        told = _library.cg_is_ancestor_within(graph, _place(ancestor), _place(descendant), _limit(visits, flag))
        if told.code:
            raise _unanswered(graph, told.code, ancestor, descendant)
        return bool(told.found)

    def compare(
        self, first: int, others: Sequence[int], visits: int | None = None, flag: Flag | None = None
    ) -> Comparison:
        """The merge bases that `git merge-base --all FIRST OTHERS..` names, and how far the commits have come apart. It is stopped as
        `is_ancestor` is, and with `visits` or `flag` goes by generation numbers alone."""
        graph, asked, room, limit = self._graph, _places(others), 64, _limit(visits, flag)
        while True:
            out = (c_uint32 * room)()
            if visits is None and flag is None:
                told = _library.cg_merge_bases(graph, _place(first), asked, len(others), out, room)
            else:
                told = _library.cg_merge_bases_within(graph, _place(first), asked, len(others), limit, out, room)
            if told.code:
                raise _unanswered(graph, told.code, first, *others)
            if told.length <= room:
                return Comparison(out[: told.length], told.ahead, told.behind)
            room = told.length

    def compare_all(self, pairs: Sequence[tuple[int, int]]) -> list[Comparison]:
        """The comparison of the commits of each pair, as `compare` makes it of one."""
        asked, room = (_Two * (len(pairs) + 1))(*(_Two(_place(one), _place(two)) for one, two in pairs)), len(pairs) + 1
        graph, answers = self._graph, (_Bases * (len(pairs) + 1))()
        while True:
            out = (c_uint32 * room)()
            told = _library.cg_merge_bases_of(graph, asked, len(pairs), answers, len(pairs), out, room)
            if told.code:
                raise Error(told.code, number=told.answered)
            if told.length <= room:
                bases = iter(out[: told.length])
                return [Comparison(list(islice(bases, it.length)), it.ahead, it.behind) for it in answers[: len(pairs)]]
            room = told.length

    def write_layer(self, commits: Sequence[NewCommit]) -> bytes:
        """The bytes of the file of a layer with these commits, in any order, on top of this graph: see `write_file`."""
        graph = self._graph
        if not graph.opened:
            raise Error(Code.CLOSED_GRAPH)
        return _written_file(graph, commits)

    def _written(self, call: "ctypes._FuncPointer", position: int) -> bytes:
        graph = self._graph
        size = _library.cg_id_len(graph)
        out = (c_uint8 * (size + 1))()
        if call(graph, _place(position), out, size) == 0:
            raise _none_at(graph, position)
        return bytes(out[:size])


def _unanswered(graph: _Graph, code: int, *positions: int) -> Error:
    """Why a question about the commits at these positions has no answer. Where the graph has no such position, it is the first."""
    count = _library.cg_num_commits(graph)
    return Error(code, position=next((position for position in positions if _place(position) >= count), 0))


def _none_at(graph: _Graph, position: int) -> Error:
    """Why a call that tells no code has nothing to tell of a position."""
    return Error(Code.NO_SUCH_POSITION if graph.opened else Code.CLOSED_GRAPH, position=position)


def _files(layers: Sequence[tuple[bytes, str]]) -> "tuple[ctypes.Array[_File], object]":
    """Layers for C, and what has to be kept as long as C reads them."""
    kept = [(data, path.encode("utf-8", "replace")) for data, path in layers]
    return (_File * len(kept))(*(_File(_at(data), len(data), _at(path), len(path)) for data, path in kept)), kept


def _is_of_commit(code: int) -> bool:
    """Whether a refusal is of one commit, at its position."""
    return (
        Code.CHECK_PARENT_OUT_OF_RANGE <= code <= Code.CHECK_DUPLICATE_ID
        or Code.CHECK_NULL_ID <= code <= Code.PARENT_EDGE_OVERFLOW
        or Code.DATES_OVERFLOW_INDEX <= code <= Code.DATES_WRONG
    )


OF_NO_LAYER = (Code.GRAPH_NO_FILES, Code.GRAPH_TOO_MANY_COMMITS, Code.CHECK_TOO_MANY_FILES)
"""The numbers above 100 of what is wrong with no layer by itself."""


def _fault(code: int, verdict: _Verdict, layers: Sequence[tuple[bytes, str]]) -> Error:
    """The refusal of layers, with the file and the commit of which it speaks: the graph of the same layers, which is opened without a
    check, has the commit."""
    layer, path, commit = verdict.layer, "", b""
    if _is_of_commit(code):
        (files, _kept), graph = _files(layers), _Graph(None, False)
        _library.cg_open(files, len(layers), graph)
        layer, commit = _commit_at(graph, verdict.position)
        _library.cg_close(graph)
        path = layers[layer][1] if commit else ""
    elif code == Code.CHECK_TOO_MANY_FILES:
        path = _beside(layers[0][1])
    elif code == Code.PATH_NOT_UTF8 or code > 100 and code not in OF_NO_LAYER:
        path = layers[layer][1]
    return Error(code, layer, verdict.position, path, commit=commit)


def _commit_at(graph: _Graph, position: int) -> tuple[int, bytes]:
    """The layer of a position, and the id there, or none where no graph is open."""
    layer, told, out = 0, _Layer(), (c_uint8 * 32)()
    while _library.cg_layer(graph, layer, told) and position - told.first >= told.num_commits:
        layer += 1
    size = _library.cg_id_at(graph, position, out, _library.cg_id_len(graph))
    return layer, bytes(out[:size])


def _beside(path: str) -> str:
    """The path of the chain file beside a layer, or its own."""
    return os.path.join(os.path.dirname(path), "commit-graph-chain") if path else ""


def write_file(commits: Sequence[NewCommit]) -> bytes:
    """The bytes of the file with these commits, in any order, as the only layer: what Git writes of them, without changed-path
    filters. The checksum, by which the file of a chain is named graph-X.graph, is its end."""
    return _written_file(_Graph(None, False), commits)


def _written_file(below: _Graph, commits: Sequence[NewCommit]) -> bytes:
    for number, one in enumerate(commits):
        if any(len(parent) != len(one.id) for parent in one.parents):
            raise Error(Code.WRITE_NO_IDS, number=number)
    ids = b"".join(part for one in commits for part in (one.id, one.tree, *one.parents))
    handed, place = (_NewCommit * (len(commits) + 1))(), _at(ids)
    for one, to in zip(commits, handed):
        place = _hand_in(one, to, place)
    file, lent = _Bytes(None, False), _Lent(_at(b""), 0)
    told = _library.cg_write(below, handed, len(commits), file)
    if told.code:
        commit = _commit_at(below, told.position)[1] if _is_of_commit(told.code) else b""
        raise Error(told.code, told.layer, told.position, number=told.commit, other=told.other, commit=commit)
    try:
        _library.cg_lend_bytes(file, lent)
        return ctypes.string_at(lent.bytes, lent.len)
    finally:
        _library.cg_bytes_free(file)


def _hand_in(commit: NewCommit, to: _NewCommit, place: int) -> int:
    """Tells C of a commit whose ids stand from an address on, one after another, and answers where they end."""
    sizes = (("id", len(commit.id)), ("tree", len(commit.tree)), ("parents", len(commit.id) * len(commit.parents)))
    for name, size in sizes:
        setattr(to, name, place)
        setattr(to, name + "_len", size)
        place += size
    to.time = commit.time if 0 <= commit.time < 2**64 else 2**64 - 1
    return place


def _id_of(text: str) -> bytes:
    """The id that hexadecimal digits spell."""
    if len(text) not in (40, 64) or not set(text) <= set(string.hexdigits):
        raise ValueError(f"{text!r} is no id, which has 40 or 64 hexadecimal digits; what to do: give those that `git rev-parse` prints")
    return bytes.fromhex(text)


NOWHERE = 0xFFFFFFFF
"""No position, as commitgraph.h has it."""


def _found(position: int) -> int | None:
    return None if position == NOWHERE else int(position)


def _place(position: int) -> int:
    """A position that C can be handed, which is none where this one is none."""
    return position if 0 <= position < NOWHERE else NOWHERE


def _places(positions: Sequence[int]) -> "ctypes.Array[c_uint32]":
    return (c_uint32 * (len(positions) + 1))(*map(_place, positions))


def _at(data: bytes) -> int:
    """The address of bytes, which is not null, also where there are none."""
    return ctypes.cast(ctypes.c_char_p(data), c_void_p).value or 1


def chain_lines(text: bytes) -> Iterator[bytes]:
    """The lines of a chain file, commit-graph-chain, each of which names a layer."""
    start = 0
    while (line := _library.cg_chain_line(_at(text), len(text), start)).found:
        yield text[start : line.end]
        start = line.next


class _Standing:
    """What stands at a path that the library names: a file is read whole, or it is kept why it was not."""

    def __init__(self, root: bytes, path: bytes) -> None:
        self.path, self.kind, self.data = path, NOTHING, b""
        whole = os.path.join(root, path) if path else root
        self.error: OSError = IsADirectoryError(errno.EISDIR, os.strerror(errno.EISDIR), os.fsdecode(whole))
        try:
            if stat.S_ISDIR(os.stat(whole).st_mode):
                self.kind = FOLDER
                return
            self.kind = UNOPENED
            with io.open(whole, "rb") as file:
                self.kind = UNREAD
                self.data = file.read()
                self.kind = READ
        except MemoryError:
            self.kind = NO_MEMORY
        except ValueError:
            self.error = FileNotFoundError(errno.ENOENT, os.strerror(errno.ENOENT), os.fsdecode(whole))
        except OSError as error:
            self.kind, self.error = NO_MEMORY if error.errno == errno.ENOMEM else self.kind, error

    def lent(self) -> _Known:
        return _Known(_at(self.path), len(self.path), _at(self.data), len(self.data), self.kind)


def _is_text(name: bytes) -> bool:
    try:
        name.decode("utf-8")
    except UnicodeDecodeError:
        return False
    return True


def _root_and_asked(path: bytes) -> tuple[bytes, bytes]:
    """The folder at which paths for the library begin, and the path that it is asked for, which has to be text. Where the folder alone
    is no text, the path is the file's name, since the check compares the name of a layer's file with its checksum."""
    folder, name = os.path.split(path)
    if _is_text(path):
        return b"", path
    return (folder, name) if name and _is_text(name) else (path, b"")


def _opened(root: bytes, asked: bytes, place: int, known: list[_Standing]) -> _Graph:
    """The graph at a path, by as many calls as there are paths of which the library has to know. They begin at the root."""
    room = ctypes.create_string_buffer(4096)
    while True:
        lent, graph = (_Known * (len(known) + 1))(*(it.lent() for it in known)), _Graph(None, False)
        told = _library.cg_open_known(_at(asked), len(asked), place, lent, len(known), room, len(room), graph)
        if told.code == Code.OK:
            return graph
        if told.length > len(room):
            room = ctypes.create_string_buffer(told.length)
        elif told.code == Code.PATH_WANTED:
            known += _learnt(root, room.raw[: told.length])
        else:
            file = asked if told.code == Code.OPEN_NOTHING_FOUND else room.raw[: told.length]
            raise _refusal(told, root, file, known)


def _learnt(root: bytes, path: bytes) -> Iterator[_Standing]:
    """What stands at a path; and, so that no layer is opened once for each one above it, where a chain file names layers. Each file is
    read once, however many lines name it."""
    found = _Standing(root, path)
    yield found
    folder = path.removesuffix(b"commit-graph-chain")
    layers: dict[bytes, _Standing] = {}
    for name in chain_lines(found.data) if folder != path else ():
        if name not in layers:
            layers[name] = _Standing(root, folder + b"graph-" + name + b".graph")
        yield layers[name]


def _refusal(told: _PathError, root: bytes, path: bytes, known: list[_Standing]) -> Exception:
    """Why no graph was opened, and the path of the file that it is about."""
    whole = os.fsdecode(os.path.join(root, path) if path else root)
    if told.code in (Code.OPEN_NOTHING_FOUND, Code.OPEN_NOT_OPENED, Code.OPEN_READ_FAILED):
        said = (it.error for it in known if it.path == path)
        error = next(said, FileNotFoundError(errno.ENOENT, os.strerror(errno.ENOENT), whole))
        return _unread(error.errno, error.strerror, told.code, error.filename)
    is_of_chain = told.code == Code.OPEN_CHAIN_NOT_TEXT or told.code >= Code.GRAPH_NO_FILES
    return Error(told.code, told.layer, path="" if told.code == Code.OUT_OF_MEMORY else _beside(whole) if is_of_chain else whole)


def _unread(number: int, said: str, code: int, path: str | bytes) -> OSError:
    """What the system says of a file that was not read, by its number, and what to do."""
    return OSError(number, f"{said}; what to do: {_advice(code)}; the path is", os.fsdecode(path))


def _opened_asked(root: bytes, asked: bytes, known: list[_Standing]) -> _Graph:
    """The graph that was asked for. The refusal of an info folder's file is not hidden by that of its chain."""
    try:
        return _opened(root, asked, ANYTHING, known)
    except (Error, OSError) as chain:
        raise _with_file(root, asked, known, chain) from None


def _with_file(root: bytes, asked: bytes, known: list[_Standing], chain: Exception) -> Exception:
    """Why nothing was opened, by why the chain of an info folder was not, or what else was asked for."""
    file = next((it.path for it in known if it.path != asked and it.path.endswith(b"commit-graph")), None)
    if file is None or _is_of_memory(chain):
        return chain
    try:
        _library.cg_close(_opened(root, file, FILE, known))
    except (Error, OSError) as error:
        return _of_both(error, chain)
    return chain


def _of_both(file: Exception, chain: Exception) -> Exception:
    """Why neither the file of an info folder nor its chain was opened, by why each was not."""
    if _is_missing(file) or _is_of_memory(file):
        return chain
    if _is_missing(chain):
        return file
    if isinstance(file, OSError) and isinstance(chain, OSError):
        code = Code.OPEN_READ_FAILED if chain.errno == errno.EIO else Code.OPEN_NOT_OPENED
        return _unread(chain.errno, _neither(file, chain), code, chain.filename)
    return NeitherError(file, chain)


def _is_missing(error: Exception) -> bool:
    """Whether a file is not there, or what should be its folder is none."""
    return isinstance(error, (FileNotFoundError, NotADirectoryError))


def _is_of_memory(error: Exception) -> bool:
    return isinstance(error, Error) and error.code == Code.OUT_OF_MEMORY


def _layers(root: bytes, asked: bytes, known: list[_Standing]) -> list[tuple[bytes, str]]:
    """The layers of the graph that was opened, the lowest first, by their bytes and paths: those that a chain file names, which stand
    behind it, since it is asked for only where the chain is opened; else the one file."""
    read = [it for it in known if it.kind == READ]
    is_chain = [it.path != asked and it.path.endswith(b"commit-graph-chain") for it in read]
    if any(is_chain):
        read = read[is_chain.index(True) + 1 :]
    else:
        read = [it for it in read if it.path == asked or it.path.endswith(b"commit-graph")][:1]
    return [(it.data, os.fsdecode(os.path.join(root, it.path) if it.path else root)) for it in read]


def open(
    path: str | os.PathLike[str], distinct_ids: bool = False, visits: int | None = None, flag: Flag | None = None
) -> Graph:
    """Opens the graph at a path, of a file, of a folder with a chain or of an info folder, and checks it. The check is stopped as
    `Graph.is_ancestor` is; the digests of files are not.

    OSError is raised where a file cannot be read, and Error where the graph is refused. Where neither the file nor the chain of an
    info folder is opened, what is raised tells both, if neither is missing: a NeitherError, or an OSError where neither can be
    read."""
    root, asked = _root_and_asked(os.fsencode(path))
    known: list[_Standing] = []
    opened = _opened_asked(root, asked, known)
    return Graph._checked(opened, distinct_ids, _limit(visits, flag), _layers(root, asked, known))
