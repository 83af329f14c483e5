"""Checks `paths`, which holds changed-path filters against the trees of their commits, beside Git, which writes both.

What an answer has to be is made from the bytes of the trees, by a plain walk of all leaves, and from the bits of the filters. Where
filters are as Git writes them, all are right; where one bit is cleared, or filters are exchanged, the first path that is lacked is
told. With `--exact` each has to be the one that Git writes: so one more bit is told too, and a byte that has all bits, and filters that
were made by other numbers. Also over a worktree that has Git leave a submodule out; over trees that are missing, damaged, deep or many;
and over streams that are not what Git writes.
"""

import hashlib
import os
import random
import tempfile
from typing import NamedTuple

from checks import newer_checks
from checks.runs import check_runs
from damage.layer import contents
from expected import filters, judge
from histories.repository import ID_LENGTH, PERSON, read_bytes, write_bytes

SETTINGS = (1, 7, 10)
"""The version of the filters that Git 2.39.5 writes, the number of hashes and the bits per path."""

MOST_NAMES, MOST_TREES = 2048, 2**22
"""A path has at most so many names, and for a commit at most so many trees are read, if it is not said how many."""

CLEARED, ADDED, EXCHANGED = 150, 50, 40
"""So many times one bit is cleared, so many times one is set, or all, and so many times two filters are exchanged."""

EXACT = "--exact"
"""The word by which each filter has to be the one that Git writes."""

DIRECTORY = 0o40000
"""The mode of a directory."""

LINKED, FILE, EXECUTABLE, SUBMODULE = "120000", "100644", "100755", "160000"

ODD = [b"a b", b"quo\"te", b"back\\slash", b"tab\there", b"new\nline", b"bell\x07\x08\x0b\x0c\r\x1f\x7f", "größe".encode(), b"\x80\xfe\xff"]
"""Names of files that stand in quotes otherwise than they are."""

ESCAPES = {7: "a", 8: "b", 9: "t", 10: "n", 11: "v", 12: "f", 13: "r", 34: '"', 92: "\\"}
"""Bytes for which a letter stands in quotes, or they themselves, behind a backslash."""


def check_kind(histories, results, new):
    """The checks of ids of one kind."""
    repository = new("trees")
    add_commits(repository)
    held = Held(histories, repository)
    title = "%s, paths, %%s" % repository.object_format
    check_right(results, title, held)
    check_cleared(results, title, held)
    check_other(results, title, held)
    check_limits(results, title, held)
    check_streams(results, title, held)
    check_ignored(histories, results, title, new("ignored"))
    check_contents(histories, results, title, new("contents"))
    check_deep(histories, results, title, new("deep"))
    check_many(histories, results, title, new("many"))


class Entry(NamedTuple):
    """What a tree has of a name: the mode as it counts, and the id."""

    mode: int
    id: str


class Held:
    """A graph of one file, the trees of its commits, and what `paths` has to say of them."""

    def __init__(self, histories, repository):
        self.histories, self.repository = histories, repository
        self.kind, self.size = repository.object_format, ID_LENGTH[repository.object_format]
        self.trees, self.leaves = trees_of(repository), {None: {}}
        self.commits = repository.words()
        self.layer = repository.new_graph("--changed-paths")
        self.path = os.path.join(repository.folder, "graph")

    def pair(self, commit):
        """The trees of the first parent and of a commit."""
        said = self.commits[commit]
        return self.commits[said.parents[0]].tree if said.parents else None, said.tree

    def all_leaves(self, tree):
        """All leaves of a tree, by their paths."""
        if tree not in self.leaves:
            found = {}
            for name, entry in self.trees[tree]:
                if entry.mode == DIRECTORY:
                    found.update((name + b"/" + path, leaf) for path, leaf in self.all_leaves(entry.id).items())
                else:
                    found[name] = entry
            self.leaves[tree] = found
        return self.leaves[tree]

    def changed(self, commit):
        """The paths that a commit changes, in the order of their bytes."""
        old, new = map(self.all_leaves, self.pair(commit))
        return sorted(path for path in {*old, *new} if old.get(path) != new.get(path))

    def needed(self, old, new):
        """The trees that have to be read for a pair of them, an id each time."""
        if old == new:
            return []
        old_names, new_names = (dict(directories(self.trees[tree])) if tree else {} for tree in (old, new))
        below = [self.needed(old_names.get(name), new_names.get(name)) for name in {*old_names, *new_names}]
        return [tree for tree in (old, new) if tree] + [tree for some in below for tree in some]

    def lacked(self, commit, own, settings):
        """The first path that a filter lacks, or None."""
        for path in self.changed(commit):
            for end in [*filters.slashes(path), len(path)]:
                if filters.answer(own, settings, path[:end]) == "Absent":
                    return path[:end]
        return None

    def gone_through(self, old, new, before=b""):
        """The trees of a pair that are read, and the paths that are changed, as they come: None for a path, and an id for a tree."""
        yield from (tree for tree in (old, new) if tree)
        old_keys, new_keys = ({key_of(name, entry): (name, entry) for name, entry in self.trees[tree]} if tree else {} for tree in (old, new))
        for key in sorted({*old_keys, *new_keys}):
            one, other = old_keys.get(key, (None, None)), new_keys.get(key, (None, None))
            if one == other:
                continue
            if key.endswith(b"/"):
                yield from self.gone_through(one[1] and one[1].id, other[1] and other[1].id, before + key)
            else:
                yield None

    def written(self, commit, settings, most):
        """The filter that Git writes for a commit, by the numbers that filters begin with, or None where more trees have to be read than so
        many; and whether just the trees are read that the commit needs: where more paths are changed than have a filter, some are left."""
        paths = trees = 0
        for tree in self.gone_through(*self.pair(commit)):
            trees, paths = trees + (tree is not None), paths + (tree is None)
            if trees > most:
                return None, False
            if paths > filters.MOST_PATHS:
                return b"\xff", False
        return filters.made(self.changed(commit), settings, settings[0] == 1), True

    def reads(self, layer):
        """The commits for which trees are needed, by their positions, each with its filter."""
        stored, settings = filters.stored(layer, self.kind)
        return settings, [(place, commit, own) for place, (commit, own) in enumerate(stored.items()) if own.strip(b"\xff")]

    def expected(self, layer, most=MOST_TREES):
        """What has to be said of the filters of a layer: the status and the line; and the trees that may be asked for."""
        stored, _ = filters.stored(layer, self.kind)
        settings, reads = self.reads(layer)
        asked = set()
        for place, commit, own in reads:
            needed = self.needed(*self.pair(commit))
            asked.update(needed)
            path = self.lacked(commit, own, settings)
            if path is not None:
                return 1, "refused paths 11 position %d path %s" % (place, quoted(path)), asked
            if len(needed) > most:
                return 1, "refused paths 10 position %d" % place, asked
        word = "none" if settings is None else "commits %d" % sum(map(bool, stored.values()))
        return 0, "filters " + word, asked

    def expected_exactly(self, layer, most=MOST_TREES):
        """The same where each filter has to be the one that Git writes; and the trees that have to be asked for."""
        stored, settings = filters.stored(layer, self.kind)
        may, must = set(), set()
        for place, (commit, own) in enumerate(stored.items()):
            if not own:
                continue
            made, are_all_read = self.written(commit, settings, most)
            needed = self.needed(*self.pair(commit))
            may.update(needed)
            if made != own:
                return 1, "refused paths %d position %d" % (10 if made is None else 12, place), may, must
            must.update(needed if are_all_read else ())
        word = "none" if settings is None else "commits %d" % sum(map(bool, stored.values()))
        return 0, "filters " + word, may, must

    def run(self, layer, *options):
        """The answer about a layer, and the trees that were asked for; Git hands them over."""
        return ring(self.histories, self.repository, layer, *options)

    def judged(self, layer, *options, most=MOST_TREES):
        """A run over a layer, and what judges its answer."""
        judge_of = self.complaint_of_exact if EXACT in options else self.complaint
        return (lambda: self.run(layer, *options)), (lambda told: judge_of(layer, told, most))

    def complaint_of_exact(self, layer, told, most):
        """What is wrong with an answer where each filter has to be the one that Git writes."""
        answer, asked = told
        status, line, may, must = self.expected_exactly(layer, most)
        if len(asked) != len(set(asked)) or not must <= set(asked) <= may:
            return "%d trees are asked for, and %d up to %d are needed" % (len(asked), len(must), len(may))
        return judge.exactly(status, line + "\n", "", answer)

    def complaint(self, layer, told, most):
        """What is wrong with an answer."""
        answer, asked = told
        status, line, needed = self.expected(layer, most)
        if len(asked) != len(set(asked)) or not set(asked) <= needed or (status == 0 and set(asked) != needed):
            return "%d trees are asked for, and %d are needed" % (len(asked), len(needed))
        return judge.exactly(status, line + "\n", "", answer)

    def filters_changed(self, change):
        """The layer with other filters, by a function of the list of those that stand."""
        stored, settings = filters.stored(self.layer, self.kind)
        return filters.with_filters(self.layer, self.kind, change(list(stored.values())), settings)


def ring(histories, repository, layer, *options):
    """The answer of `paths` about a graph of these bytes, and the trees that were asked for; Git hands them over."""
    with tempfile.NamedTemporaryFile(dir=repository.folder, prefix="graph-") as file:
        file.write(layer)
        file.flush()
        return newer_checks.ring(histories, repository, ("paths", *options), file.name, [])


def over(held, layer, stream):
    """The answer about a layer over a stream that is there already, and the trees that were asked for."""
    with tempfile.NamedTemporaryFile(dir=held.repository.folder, prefix="graph-") as file:
        file.write(layer)
        file.flush()
        return newer_checks.over(held.histories, ("paths",), file.name, [], stream)


def quoted(path):
    """A path as Git quotes it."""
    return '"%s"' % "".join(
        "\\" + ESCAPES[byte] if byte in ESCAPES else chr(byte) if 32 <= byte < 127 else "\\%03o" % byte for byte in path
    )


def trees_of(repository):
    """The entries of each tree of a repository, by its id."""
    listed = repository.git("cat-file", "--batch-all-objects", "--batch-check").decode().split("\n")
    ids = [line.split()[0] for line in listed if line.split()[1:2] == ["tree"]]
    batch, trees, at = repository.git("cat-file", "--batch", stdin="".join(one + "\n" for one in ids).encode()), {}, 0
    for one in ids:
        end = batch.index(b"\n", at)
        size = int(batch[at:end].split()[2])
        trees[one] = list(entries_of(batch[end + 1 : end + 1 + size], ID_LENGTH[repository.object_format]))
        at = end + 1 + size + 1
    return trees


def entries_of(tree, size):
    """The names of a tree that can be read, each with its entry."""
    while tree:
        head, rest = tree.split(b"\0", 1)
        mode, name = head.split(b" ", 1)
        kind = int(mode, 8) & 0o170000
        executable = 0o111 if int(mode, 8) & 0o100 and kind == 0o100000 else 0
        counts = {0o100000: 0o100644 | executable, 0o120000: kind, DIRECTORY: kind}.get(kind, 0o160000)
        yield name, Entry(counts, rest[:size].hex())
        tree = rest[size:]


def key_of(name, entry):
    """By what an entry stands in its tree."""
    return name + b"/" if entry.mode == DIRECTORY else name


def directories(tree):
    """The directories of a tree, by their names, each with its id."""
    return [(name, entry.id) for name, entry in tree if entry.mode == DIRECTORY]


def check_right(results, title, held):
    """Filters as Git writes them, in one file and in a chain, and none."""
    repository = held.repository
    plain, all_trees = repository.new_graph(), ("--trees", str(2**32 - 1))
    runs = [held.judged(layer, *exact) for layer in (held.layer, plain) for exact in ((), (EXACT,))]
    runs += [held.judged(held.layer, *all_trees), held.judged(held.layer, EXACT, *all_trees)]
    check_runs(results, title % "filters of Git", runs)
    told = held.expected_exactly(held.layer)[1]
    results.check(title % "they are those that were calculated", None if told.startswith("filters ") else told)
    tips, layers = sorted(held.commits)[:: max(1, len(held.commits) // 3)], []
    os.remove(repository.graph_path())
    for number in range(1, len(tips) + 1):
        repository.write_graph("--split=no-merge", "--changed-paths", tips=tips[:number])
    repository.write_graph("--split=no-merge", "--changed-paths")
    layers = [content for _, content in repository.chain()]
    computed = sum(bool(own) for layer in layers for own in filters.stored(layer, held.kind)[0].values())
    for words in (("paths",), ("paths", EXACT)):
        answer, asked = newer_checks.ring(held.histories, repository, words, repository.info_path(), [])
        wrong = judge.exactly(0, "filters commits %d\n" % computed, "", answer)
        twice = None if len(asked) == len(set(asked)) else "a tree is asked for twice"
        results.check(title % "%s of a chain of %d layers" % (" ".join(words), len(layers)), wrong or twice)


def check_cleared(results, title, held):
    """One bit of a filter is cleared, and two filters are exchanged."""
    chance, stored = random.Random(81), list(filters.stored(held.layer, held.kind)[0].values())
    bits = [(place, bit) for place, own in enumerate(stored) for bit in range(8 * len(own)) if own[bit // 8] >> bit % 8 & 1]
    runs = []
    for place, bit in chance.sample(bits, min(CLEARED, len(bits))):
        own = bytearray(stored[place])
        own[bit // 8] ^= 1 << bit % 8
        layer = held.filters_changed(lambda all, place=place, own=bytes(own): [*all[:place], own, *all[place + 1 :]])
        runs += [held.judged(layer), held.judged(layer, EXACT)]
    check_runs(results, title % "a bit of a filter is cleared", runs)
    runs = []
    for one, other in [chance.sample(range(len(stored)), 2) for _ in range(EXCHANGED)]:
        order = list(range(len(stored)))
        order[one], order[other] = other, one
        layer = held.filters_changed(lambda all, order=order: [all[place] for place in order])
        runs += [held.judged(layer), held.judged(layer, EXACT)]
    for change in (lambda own: own and b"\0" * len(own), lambda own: b"", lambda own: b"\xff"):
        layer = held.filters_changed(lambda all, change=change: list(map(change, all)))
        runs += [held.judged(layer), held.judged(layer, EXACT)]
    check_runs(results, title % "filters are exchanged, empty, or have no bits or all", runs)


def check_other(results, title, held):
    """Filters that lack nothing, and are not those that Git writes: with one more bit, with all bits in one byte or in all, with one more
    byte, or made by other numbers than the graph says; and those that are made by the numbers that it says."""
    chance, (stored, settings) = random.Random(82), filters.stored(held.layer, held.kind)
    own, runs = list(stored.values()), []
    bits = [(place, bit) for place, one in enumerate(own) for bit in range(8 * len(one)) if not one[bit // 8] >> bit % 8 & 1]
    others = [(place, set_bit(own[place], bit)) for place, bit in bits]
    full = [(place, b"\xff" * size) for place, one in enumerate(own) for size in {1, len(one), len(one) + 1} if b"\xff" * size not in (b"", one)]
    complaints = []
    for place, other in chance.sample(others, min(ADDED, len(others))) + chance.sample(full, min(ADDED, len(full))):
        layer = held.filters_changed(lambda all, place=place, other=other: [*all[:place], other, *all[place + 1 :]])
        runs += [held.judged(layer), held.judged(layer, EXACT)]
        complaints.append(other_alone(held, layer, place))
    results.check(title % "filters of more bits are right, and told as other ones", next(filter(None, complaints), None))
    check_runs(results, title % "filters of more bits", runs)
    runs = []
    for numbers in ((1, 7, 11), (1, 6, 10), (2, 7, 10), (1, 1, 1), (2, 9, 23)):
        kept = filters.with_filters(held.layer, held.kind, own, numbers)
        runs += [held.judged(kept, EXACT)] + [held.judged(kept)] * (list(numbers[:2]) == list(settings[:2]))
        made = [filters.made(held.changed(commit), numbers, numbers[0] == 1) for commit in stored]
        layer = filters.with_filters(held.layer, held.kind, made, numbers)
        runs += [held.judged(layer), held.judged(layer, EXACT)]
        told = held.expected_exactly(layer)[0]
        results.check(title % "filters by the numbers %r are those of Git" % (numbers,), None if told == 0 else "they are to be refused")
    check_runs(results, title % "filters by other numbers", runs)


def other_alone(held, layer, place):
    """What is wrong with what is expected of a filter at a place that is right, and another one than Git writes."""
    told = held.expected(layer)[:2], held.expected_exactly(layer)[:2]
    right = told[0][0] == 0 and told[1] == (1, "refused paths 12 position %d" % place)
    return None if right else "the filter at %d is to be told as %r" % (place, told)


def set_bit(own, bit):
    """A filter with one bit set."""
    changed = bytearray(own)
    changed[bit // 8] |= 1 << bit % 8
    return bytes(changed)


def check_limits(results, title, held):
    """So many trees are enough for each commit, and fewer are not."""
    most = max(len(held.needed(*held.pair(commit))) for _, commit, _ in held.reads(held.layer)[1])
    numbers = (0, 1, 2, most - 1, most, most + 1)
    runs = [held.judged(held.layer, *exact, "--trees", str(number), most=number) for exact in ((), (EXACT,)) for number in numbers]
    check_runs(results, title % "so many trees at most", runs)


def check_streams(results, title, held):
    """Streams that are not what Git writes: what is told of the first entry that is not right."""
    _, requests = held.run(held.layer)
    entries = [newer_checks.entry_of(held.repository, tree) for tree in requests]
    first = {}
    for place, commit, _ in held.reads(held.layer)[1]:
        for tree in held.needed(*held.pair(commit)):
            first.setdefault(tree, place)
    runs = [(lambda: over(held, held.layer, b"".join(entries) + b"more"), Told(0, held.expected(held.layer)[1]))]
    for number in sorted({0, 1, 2, len(entries) // 2, len(entries) - 1}):
        entry, tree = entries[number], requests[number]
        before, after = b"".join(entries[:number]), b"".join(entries[number + 1 :])
        for reason, other in streams(entry, entries[(number + 1) % len(entries)], after, tree):
            line = "refused paths %d position %d id %s" % (reason, first[tree], tree)
            runs.append((lambda stream=before + other: over(held, held.layer, stream), Told(1, line)))
    check_runs(results, title % "streams", runs)
    unread = os.open(held.repository.folder, os.O_RDONLY)
    write_bytes(held.path, held.layer)
    answer = held.histories.run("paths", held.path, stdin=unread)
    os.close(unread)
    asked, _, rest = answer.out.decode().partition("\n\n")
    wrong = None if asked and requests[: len(asked.split())] == asked.split() else "these are asked for: %s" % asked
    results.check(title % "no read succeeds", wrong or judge.exactly(1, "refused read 2\n", "", answer._replace(out=rest.encode())))


def streams(entry, next_entry, after, tree):
    """What may stand in the place of an entry and of all behind it, each with the number of its refusal."""
    head, body = entry.split(b"\n", 1)
    for size in (0, 1, len(head), len(head) + 1, len(entry) // 2, len(entry) - 1):
        yield 1, entry[:size]
    for part in (b"\n", b"no entry\n", head + b" \n" + body, head.replace(b" ", b"  ", 1) + b"\n" + body):
        yield 2, part + after
    yield 2, entry[:-1] + b" " + after
    yield 3, next_entry + entry + after
    yield 4, tree.encode() + b" missing\n" + after
    yield 5, head.replace(b"tree", b"blob") + b"\n" + body + after
    yield 6, head + b"\n" + bytes([body[0] ^ 1]) + body[1:] + after


class Told:
    """Says what is wrong where this has to be told."""

    def __init__(self, status, line):
        self.status, self.line = status, line

    def __call__(self, told):
        return judge.exactly(self.status, self.line + "\n", "", told[0])


def check_ignored(histories, results, title, repository):
    """A submodule that the worktree has Git ignore: where Git leaves it out of a filter, the filter lacks it."""
    module = "1" * 2 * ID_LENGTH[repository.object_format]
    other = "2" * 2 * ID_LENGTH[repository.object_format]
    modules = b'[submodule "s"]\n\tpath = s\n\turl = ./s\n\tignore = all\n'
    steps = [[(FILE, b".gitmodules", modules), (SUBMODULE, b"s", module)], [(FILE, b"a", b"a")], [(SUBMODULE, b"s", other), (FILE, b"b", b"b")]]
    import_commits(repository, [Step(files, (), (number - 1,) if number else ()) for number, files in enumerate(steps)])
    worktree = os.path.join(repository.folder, "worktree")
    os.makedirs(worktree)
    write_bytes(os.path.join(worktree, ".gitmodules"), modules)
    tip = max(repository.words().items(), key=lambda item: item[1].time)[0]
    place = ("-c", "core.bare=false", "--work-tree=" + worktree)
    repository.git(*place, "read-tree", tip)
    repository.git(*place, "commit-graph", "write", "--no-progress", "--reachable", "--changed-paths")
    ignoring = read_bytes(repository.graph_path())
    hidden = len(repository.git("log", "--format=%H", tip, "--", "s").split()) < 2
    held = Held(histories, repository)
    check_runs(results, title % "a submodule that Git ignores", [held.judged(ignoring), held.judged(ignoring, EXACT)])
    lacks = held.expected(ignoring)[1]
    complaint = "Git lists %s, and it is to be told %r" % ("too few commits" if hidden else "both commits", lacks)
    results.check(title % "what Git leaves out is told", None if hidden == lacks.endswith('path "s"') else complaint)


BROKEN = (
    (b"100644 a\0", 7, 0),
    (b"100644a\0" + b"\x11" * 32, 7, 0),
    (b" a\0" + b"\x11" * 32, 7, 0),
    (b"100648 a\0" + b"\x11" * 32, 7, 0),
    (b"100644 \0" + b"\x11" * 32, 7, 0),
    (b"100644 a/b\0" + b"\x11" * 32, 7, 0),
    (b"100644 a", 7, 0),
)
"""Contents of one entry that are no tree, with the number of the refusal and of the entry. Ids of 20 bytes have the first ones."""


def check_contents(histories, results, title, repository):
    """Commits whose trees are no trees, other objects, or not there; and entries out of order, and of odd modes."""
    size, kind = ID_LENGTH[repository.object_format], repository.object_format
    one = b"\x11" * size
    good = b"100644 a\0" + one
    rows = [(begun[: begun.find(b"\0") + 1] + (one if len(begun) > 20 else one[1:]) if b"\0" in begun else begun, number, entry) for begun, number, entry in BROKEN]
    rows += [(good + begun, number, entry + 1) for begun, number, entry in rows if begun.startswith(b"100644a")]
    rows += [
        (b"100644 b\0" + one + good, 8, 1),
        (good + good, 8, 1),
        (b"40000 a\0" + one + b"100644 a.\0" + one, 8, 1),
        (b"100644 a\0" + one + b"100644 a.b\0" + one + b"40000 a\0" + one + b"100644 a0\0" + one + b"100644 a.\0" + one, 8, 4),
        (good + b"100644 b", 7, 1),
    ]
    runs = []
    for tree, number, entry in rows:
        name = object_of(repository, "tree", tree)
        line = "refused paths %d position 0 entry %d id %s" % (number, entry, name)
        runs.append(told_of_root(histories, repository, name, b"\0", 1, line))
    modes = b"100600 a\0" + one + b"100664 b\0" + one + b"0000100755 c\0" + one + b"7 d\0" + one + b"160000 e\0" + one
    name = object_of(repository, "tree", modes)
    made = filters.made([b"a", b"b", b"c", b"d", b"e"], SETTINGS, True)
    runs.append(told_of_root(histories, repository, name, made, 0, "filters commits 1"))
    runs.append(told_of_root(histories, repository, name, b"\0", 1, 'refused paths 11 position 0 path "a"'))
    blob = object_of(repository, "blob", b"blob\n")
    runs.append(told_of_root(histories, repository, blob, b"\0", 1, "refused paths 5 position 0 id " + blob))
    none = "3" * 2 * size
    runs.append(told_of_root(histories, repository, none, b"\0", 1, "refused paths 4 position 0 id " + none))
    runs.append(told_of_root(histories, repository, none, b"\xff", 0, "filters commits 1"))
    check_runs(results, title % "trees that are none, and modes", runs)


def object_of(repository, kind, content):
    """The id of an object that is written, whatever its contents."""
    words = ("hash-object", "-w", "-t", kind, "--literally", "--stdin")
    return repository.git(*words, stdin=content).decode().strip()


def told_of_root(histories, repository, tree, own, status, line, options=()):
    """A run over a commit without parents with this tree and this filter, and what judges its answer."""
    commit = "tree %s\nauthor %s 1 +0000\ncommitter %s 1 +0000\n\nm\n" % (tree, PERSON, PERSON)
    name = object_of(repository, "commit", commit.encode())
    place = os.path.join(repository.folder, "of-%s-%s" % (name, hashlib.sha1(own).hexdigest()))
    repository.write_graph(tips=[name])
    layer = filters.with_filters(read_bytes(repository.graph_path()), repository.object_format, [own], SETTINGS)
    os.remove(repository.graph_path())
    write_bytes(place, layer)
    return (lambda: newer_checks.ring(histories, repository, ("paths", *options), place, [])), Told(status, line)


def check_deep(histories, results, title, repository):
    """A path of as many names as may be, and of one more."""
    runs = []
    for names in (MOST_NAMES, MOST_NAMES + 1):
        tree = object_of(repository, "tree", b"100644 f\0" + b"\x11" * ID_LENGTH[repository.object_format])
        tree = nested(repository, tree, names - 1)
        path = b"d/" * (names - 1) + b"f"
        made = filters_of(path)
        if names == MOST_NAMES:
            runs.append(told_of_root(histories, repository, tree, made, 0, "filters commits 1"))
            runs.append(told_of_root(histories, repository, tree, b"\0", 1, 'refused paths 11 position 0 path "d"'))
        else:
            runs.append(told_of_root(histories, repository, tree, made, 1, "refused paths 9 position 0"))
            runs.append(told_of_root(histories, repository, tree, b"\0", 1, "refused paths 9 position 0"))
    check_runs(results, title % "paths of many names", runs)


def check_many(histories, results, title, repository):
    """Commits that change some 512 paths: with files alone, with files in one directory, and with a directory for each file."""
    steps = []
    for count in (255, 256, 257, 509, 510, 511, 512, 513, 514, 600):
        for form in (b"%d", b"d/%d", b"d%d/f"):
            steps.append(Step([(FILE, form % number, b"1") for number in range(count)], (), ()))
            steps.append(Step([], tuple(form % number for number in range(count)), (len(steps) - 1,)))
    import_commits(repository, steps)
    held = Held(histories, repository)
    check_runs(results, title % "some 512 paths", [held.judged(held.layer), held.judged(held.layer, EXACT)])
    told = held.expected_exactly(held.layer)[1]
    results.check(title % "the filters of some 512 paths are those that were calculated", None if told.startswith("filters ") else told)
    all_bits = held.filters_changed(lambda all: [b"\xff" for _ in all])
    check_runs(results, title % "all bits in the place of some 512 paths", [held.judged(all_bits), held.judged(all_bits, EXACT)])


def filters_of(path):
    """A filter with the bits of a path and of all directories that lead to it, and with one bit that is clear."""
    put = filters.entries([path])
    size = 4 * len(put)
    bits = 0
    for entry in put:
        for probe in filters.probes(entry, SETTINGS[1], True):
            bits |= 1 << probe % (8 * size)
    return bits.to_bytes(size, "little")


def nested(repository, tree, depth):
    """A tree of so many directories, each in the one before, with a tree in the last. They are written in one go."""
    kind, lines = repository.object_format, []
    for _ in range(depth):
        lines.append("040000 tree %s\td\n" % tree)
        content = b"40000 d\0" + bytes.fromhex(tree)
        tree = hashlib.new(kind, b"tree %d\0" % len(content) + content).hexdigest()
    written = repository.git("mktree", "--missing", "--batch", stdin="\n".join(lines).encode()).decode().split()
    if written[-1] != tree:
        raise RuntimeError("git mktree: %s" % written[-1])
    return tree


class Step(NamedTuple):
    """A commit: what it writes, which paths it removes, and the places of its parents."""

    files: list
    removed: tuple
    parents: tuple


def add_commits(repository):
    """Makes commits of all shapes: roots, merges, none changed, modes, links, submodules, directories in place of files and the other way
    round, odd names, many files and deep ones."""
    module, other = ("%d" % digit * 2 * ID_LENGTH[repository.object_format] for digit in (1, 2))
    names = [(FILE, name, name) for name in ODD] + [(FILE, b"odd " + name + b"/" + name, b"x") for name in ODD]
    steps = [
        Step([(FILE, b"a", b"1"), (FILE, b"dir/b", b"1"), (FILE, b"dir/sub/c", b"1"), (LINKED, b"link", b"a"), (SUBMODULE, b"s", module)], (), ()),
        Step(names, (), (0,)),
        Step([(EXECUTABLE, b"a", b"1")], (), (1,)),
        Step([(FILE, b"dir", b"a file")], (b"dir",), (2,)),
        Step([(FILE, b"a/inner", b"2"), (SUBMODULE, b"s", other)], (b"a",), (3,)),
        Step([(FILE, b"own/root", b"1"), (FILE, b"a", b"1")], (), ()),
        Step([(FILE, b"merged", b"1")], (), (4, 5)),
        Step([], (), (6,)),
        Step([], (), (7, 5)),
        Step([(FILE, b"many/%d/%d" % (number % 7, number), b"%d" % number) for number in range(600)], (), (8,)),
        Step([(FILE, b"/".join([b"deep"] * 40 + [b"file"]), b"1"), (LINKED, b"s", b"dir"), (FILE, b"link", b"a")], (b"s",), (9,)),
        Step([], (b"many", b"a", b"dir"), (10,)),
        Step([(FILE, b"x", b"1"), (FILE, b"x.y", b"1"), (FILE, b"x0", b"1")], (), (11,)),
        Step([(FILE, b"x/y", b"1"), (FILE, b"x.y/z", b"1")], (b"x", b"x.y"), (12,)),
        Step([], (b"link", b"s", *ODD[:4]), (13, 2, 5)),
    ]
    chance = random.Random(repository.object_format + " trees")
    for number in range(40):
        folders = [b"/".join([b"f%d" % chance.randrange(3)] * chance.randrange(1, 5)) + b"/" for _ in range(3)]
        files = [(chance.choice((FILE, EXECUTABLE)), folder + b"n%d" % chance.randrange(4), b"%d" % number) for folder in folders]
        steps.append(Step(files, (), (len(steps) - 1,)))
    import_commits(repository, steps)


def import_commits(repository, steps):
    """Makes commits, each at its place, by git fast-import."""
    stream = []
    for place, step in enumerate(steps):
        text = b"commit %d\n" % place
        stream.append(b"reset refs/heads/tip-%d\n\n" % place if not step.parents else b"")
        stream.append(b"commit refs/heads/tip-%d\nmark :%d\n" % (place, place + 1))
        stream.append(b"committer %s %d +0000\ndata %d\n%s" % (PERSON.encode(), 1000 + place, len(text), text))
        stream += [b"%s :%d\n" % (b"merge" if number else b"from", parent + 1) for number, parent in enumerate(step.parents)]
        stream += [b"D %s\n" % quoted(path).encode() for path in step.removed]
        for mode, path, content in step.files:
            if mode == SUBMODULE:
                stream.append(b"M %s %s %s\n" % (mode.encode(), content.encode(), quoted(path).encode()))
            else:
                stream.append(b"M %s inline %s\ndata %d\n%s\n" % (mode.encode(), quoted(path).encode(), len(content), content))
        stream.append(b"\n")
    repository.git("fast-import", "--quiet", "--force", stdin=b"".join(stream))
