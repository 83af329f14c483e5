"""What the calls of the library for C are asked of a shape. Each function makes a call, and gives what was answered and what the plan
says."""

import collections
import ctypes
import struct

from sizes.library import EVERYTHING, NOWHERE, told
from sizes.shapes import MANY

PATH = b"a"


class NotOpened(Exception):
    """The library does not open a graph, or refuses it."""


class Asked:
    """The graph of a shape in the library: opened, opened and checked, and, checked too, the layers below the new one."""

    def __init__(self, library, shape):
        self.library, self.shape, self.plan, self.held = library, shape, shape.plan, []
        self.files = self.lend(shape.files)
        self.graph, self.checked = self.opened(), self.opened_checked(self.files)
        below = shape.below_files
        self.below = self.checked if below == shape.files else self.opened_checked(self.lend(below))
        self.order = shape.order()
        self.tip = self.order[-1] if len(shape.layers) > 1 else shape.count - 1

    def lend(self, paths):
        """The layers of the files at these paths, as the calls take them."""
        files = self.library.room("cg_file", len(paths))
        for place, path in enumerate(paths):
            with open(path, "rb") as file:
                content = file.read()
            name = path.encode()
            self.held += [content, name]
            files[place].bytes = ctypes.cast(content, ctypes.c_void_p)
            files[place].len, files[place].path_len = len(content), len(name)
            files[place].path = ctypes.cast(name, ctypes.c_void_p)
        return files

    def room(self, name, count):
        """Room for so many values of a type, at least one."""
        return self.library.room(name, count)

    def new(self, name):
        """A struct of this name, of zeros."""
        return self.library.types[name]()

    def opened(self, call="cg_open"):
        """A graph that is opened by one of the two calls for that, and is not checked."""
        graph = self.new("cg_graph")
        error = getattr(self.library, call)(self.files, len(self.files), ctypes.byref(graph))
        if told(error) != (0, 0):
            raise NotOpened("%s answers %s" % (call, told(error)))
        return graph

    def opened_checked(self, files):
        """A graph that is opened and checked."""
        graph, verdict = self.new("cg_graph"), self.new("cg_verdict")
        taken = files, len(files), True, ctypes.byref(verdict), None, 0, ctypes.byref(graph)
        error = self.library.cg_open_checked(*taken)
        if told(error) != (0, 0):
            raise NotOpened("cg_open_checked answers %s and %s" % (told(error), told(verdict)))
        return graph

    def close(self):
        """Gives all graphs back."""
        for graph in {id(graph): graph for graph in (self.graph, self.checked, self.below)}.values():
            self.library.cg_close(ctypes.byref(graph))

    def place(self, number):
        """The position of a commit."""
        return self.plan.positions[number]

    def places(self, numbers):
        """The positions of commits, as the calls take them."""
        return (ctypes.c_uint32 * max(1, len(numbers)))(*map(self.place, numbers))

    def limit(self):
        """A limit that no call comes to."""
        limit = self.new("cg_limit")
        limit.visits = 3 * self.shape.count
        return limit

    def counted(self):
        """The statistics of a check, and how many commits have each number of parents."""
        counts = collections.Counter(len(parents) for parents in self.plan.parents[: self.shape.count])
        count, longest = self.shape.count, max(self.plan.generations[: self.shape.count]) - 1
        return (0, count, longest, 1, 0, 0, count, 0, 0, len(counts)), sorted(counts.items())


def verdict_of(asked, call):
    """What a check answers that is called with room for its verdict and its counts, and what it has to."""
    right, kinds = asked.counted()
    verdict, counts = asked.new("cg_verdict"), asked.room("cg_count", len(kinds))
    code = call(ctypes.byref(verdict), counts, len(kinds))
    return (code, told(verdict), list(map(told, counts))), (0, right, kinds)


def opening(call):
    """Opens the graph by a call, and counts what it has."""

    def opens(asked):
        graph = asked.opened(call)
        seen = asked.library.cg_num_commits(graph), asked.library.cg_num_layers(graph), asked.library.cg_close(ctypes.byref(graph))
        return seen, (asked.shape.count, len(asked.shape.layers), True)

    return opens


def open_chain(asked, times=1):
    """Opens the graph of a chain that names each file so many times, one file after another, and counts what it has."""
    places = [place for _ in range(times) for place in range(len(asked.files))]
    graph, numbers = asked.new("cg_graph"), (ctypes.c_uint64 * len(places))(*places)
    error = asked.library.cg_open_chain(asked.files, len(asked.files), numbers, len(places), ctypes.byref(graph))
    seen = told(error), asked.library.cg_num_commits(graph), asked.library.cg_num_layers(graph)
    asked.library.cg_close(ctypes.byref(graph))
    return seen, ((0, 0), times * asked.shape.count, len(places))


def open_repeated(asked):
    """Opens one that names each file many times."""
    return open_chain(asked, MANY)


def open_known(asked):
    """Opens the highest layer alone, by what is known of its path."""
    files, graph, known, path = asked.files, asked.new("cg_graph"), asked.new("cg_known"), asked.room("uint8_t", 1)
    last = files[len(files) - 1]
    known.path, known.path_len, known.bytes, known.len, known.kind = last.path, last.path_len, last.bytes, last.len, 1
    told_of_path = (last.path, last.path_len, 1, ctypes.byref(known), 1, path, 1, ctypes.byref(graph))
    seen = told(asked.library.cg_open_known(*told_of_path)), asked.library.cg_num_commits(graph)
    asked.library.cg_close(ctypes.byref(graph))
    return seen, ((0, 0, 0), asked.shape.top)


def open_checked(asked):
    """Opens and checks the graph."""
    graph = asked.new("cg_graph")

    def call(verdict, counts, count):
        return told(asked.library.cg_open_checked(asked.files, len(asked.files), True, verdict, counts, count, ctypes.byref(graph)))

    (error, verdict, counts), (_, right, kinds) = verdict_of(asked, call)
    return (error, verdict, counts, asked.library.cg_close(ctypes.byref(graph))), ((0, 0), right, kinds, True)


def check(asked, within=False):
    """Checks a graph that is opened and lent."""
    opened, graph = asked.opened("cg_open_lent"), asked.new("cg_graph")

    def call(verdict, counts, count):
        room = verdict, counts, count, ctypes.byref(graph)
        if within:
            return asked.library.cg_check_within(ctypes.byref(opened), True, asked.limit(), *room)
        return asked.library.cg_check(ctypes.byref(opened), True, *room)

    seen, right = verdict_of(asked, call)
    return (*seen, asked.library.cg_close(ctypes.byref(graph))), (*right, True)


def check_within(asked):
    """Checks a graph within a limit."""
    return check(asked, within=True)


def verify(asked):
    """Checks a graph that stays open."""
    return verdict_of(asked, lambda *room: asked.library.cg_verify(asked.graph, True, *room))


def verify_layer(asked):
    """Checks the highest layer alone."""
    verdict, shape, plan = asked.new("cg_layer_verdict"), asked.shape, asked.plan
    code = asked.library.cg_verify_layer(asked.graph, len(shape.layers) - 1, ctypes.byref(verdict))
    numbers = asked.order[-shape.top :]
    generations = [plan.generations[number] for number in numbers]
    most = max(len(plan.parents[number]) for number in numbers)
    return (code, told(verdict)), (0, (0, shape.top, min(generations), max(generations), most, 0, 0))


def flag(asked):
    """Makes a flag, which stops a call once it is raised."""
    library, made = asked.library, asked.new("cg_flag")
    seen = [library.cg_flag_new(ctypes.byref(made))]
    limit = asked.limit()
    limit.flag = made
    first, last = asked.place(asked.shape.walk[-1]), asked.place(asked.shape.walk[0])
    seen.append(told(library.cg_is_ancestor_within(asked.checked, first, last, limit)))
    seen.append(library.cg_flag_raise(made))
    seen.append(told(library.cg_is_ancestor_within(asked.checked, first, last, limit)))
    return [*seen, library.cg_flag_free(ctypes.byref(made))], [0, (0, True), True, (library.CG_STOPPED, False), True]


def layer(asked):
    """What is told of the highest layer."""
    out, layers = asked.new("cg_layer_info"), asked.shape.layers
    seen = asked.library.cg_layer(asked.graph, len(layers) - 1, ctypes.byref(out)), told(out)
    kind = 1 if asked.plan.kind == "sha1" else 2
    return seen, (True, (asked.shape.count - layers[-1], layers[-1], len(layers) - 1, kind))


def read_id(asked, call, *words):
    """The id that a call writes."""
    out = asked.room("uint8_t", asked.plan.size)
    length = call(asked.graph, *words, out, asked.plan.size)
    return bytes(out)[:length]


def layer_checksum(asked):
    """The checksum of the highest layer."""
    contents = asked.shape.contents
    return read_id(asked, asked.library.cg_layer_checksum, len(contents) - 1), contents[-1][-asked.plan.size :]


def base_id_at(asked):
    """The last base id of the highest layer, which is none where that is the only one."""
    last, contents = len(asked.shape.layers) - 1, asked.shape.contents
    seen = read_id(asked, asked.library.cg_base_id_at, last, max(0, last - 1))
    return seen, contents[-2][-asked.plan.size :] if last else b""


def sample(asked):
    """Some commits of all layers, as many of each shape that has as many."""
    count, number = asked.shape.count, min(MANY, asked.shape.count)
    return [asked.order[place * count // number] for place in range(number)]


def lookup(asked):
    """The positions of some ids, one at a time, and of one that is not there."""
    ids = [asked.plan.ids[number] for number in sample(asked)]
    seen = [asked.library.cg_lookup(asked.graph, commit, len(commit)) for commit in [*ids, b"\xfe" * asked.plan.size]]
    return seen, [*map(asked.place, sample(asked)), NOWHERE]


def lookup_all(asked):
    """The positions of all ids in one call, in the order of time."""
    size, count = asked.plan.size, asked.shape.count
    ids, out = b"".join(asked.plan.ids[:count]), asked.room("uint32_t", count)
    number = asked.library.cg_lookup_all(asked.graph, ids, len(ids), size, out, count)
    return (number, list(out)), (count, asked.plan.positions[:count])


def ids_at(asked):
    """The ids at all positions in one call."""
    count, size = asked.shape.count, asked.plan.size
    positions, out = (ctypes.c_uint32 * count)(*range(count)), asked.room("uint8_t", count * size)
    seen = asked.library.cg_ids_at(asked.graph, positions, count, out, count * size)
    return (told(seen), bytes(out)), ((0, count), b"".join(asked.plan.ids[number] for number in asked.order))


def lent(asked, call, right):
    """The bytes of an id that is lent."""
    nothing, out = asked.room("uint8_t", 1), asked.new("cg_lent")
    out.bytes = ctypes.addressof(nothing)
    seen = call(asked.graph, asked.place(asked.tip), ctypes.byref(out))
    return (seen, ctypes.string_at(out.bytes, out.len) if seen else b""), (True, right)


def commit_at(asked):
    """What the record of the last commit says."""
    out = asked.new("cg_commit")
    seen = asked.library.cg_commit_at(asked.graph, asked.place(asked.tip), ctypes.byref(out)), told(out)
    return seen, (True, (asked.plan.times[asked.tip], asked.plan.generations[asked.tip]))


def commits(asked):
    """What all records say."""
    count = asked.shape.count
    out = asked.room("cg_commit", count)
    number = asked.library.cg_commits(asked.graph, 0, out, count)
    return (number, list(map(told, out))), (
        count,
        [(asked.plan.times[number], asked.plan.generations[number]) for number in asked.order],
    )


def parents(asked, call):
    """The parents of the last commit."""
    right = asked.plan.parents[asked.tip]
    out = asked.room("uint32_t", len(right))
    seen = call(asked.graph, asked.place(asked.tip), out, len(right))
    return (told(seen), list(out)), ((0, len(right)), list(map(asked.place, right)))


def first_parent(asked):
    """The first parents from the end of the walk down to a commit that has none."""
    at, seen, right = asked.place(asked.tip), [], []
    number = asked.tip
    for _ in range(MANY):
        parent = asked.library.cg_first_parent(asked.graph, at)
        seen.append(told(parent))
        right.append((0, asked.place(asked.plan.parents[number][0]) if asked.plan.parents[number] else NOWHERE))
        if seen != right or not asked.plan.parents[number]:
            return seen, right
        at, number = parent.position, asked.plan.parents[number][0]
    return seen, right


def parents_from(asked):
    """The parents of all commits in one call."""
    count, above = asked.shape.count, [asked.plan.parents[number] for number in asked.order]
    positions = [asked.place(parent) for parents in above for parent in parents]
    answers, out = asked.room("cg_parent_count", count), asked.room("uint32_t", len(positions))
    block = asked.library.cg_parents_from(asked.graph, 0, answers, count, out, len(positions))
    seen = told(block), [(answer.code, answer.count) for answer in answers], list(out)
    return seen, ((count, len(positions)), [(0, len(parents)) for parents in above], positions)


def ancestor_walk(asked, within=False):
    """The walk, and that there is none between two commits."""
    walk, (first, second) = asked.shape.walk, asked.shape.apart
    out, limit = asked.room("uint32_t", len(walk)), [asked.limit()] if within else []
    call = asked.library.cg_ancestor_walk_within if within else asked.library.cg_ancestor_walk
    seen = call(asked.checked, asked.place(walk[0]), asked.place(walk[-1]), *limit, out, len(walk))
    none = call(asked.checked, asked.place(second), asked.place(first), *limit, None, 0)
    bounded = len(walk) - 1 <= seen.visits <= asked.shape.count
    return (seen.code, seen.length, bounded, list(out), none.code, none.length), (
        *(0, len(walk), True, list(map(asked.place, walk)), 0, 0),
    )


def is_ancestor(asked, within=False):
    """Whether a commit is an ancestor of another: yes, and no."""
    walk, (first, second) = asked.shape.walk, asked.shape.apart
    limit = [asked.limit()] if within else []
    call = asked.library.cg_is_ancestor_within if within else asked.library.cg_is_ancestor
    pairs = (walk[-1], walk[0]), (first, second)
    seen = [told(call(asked.checked, asked.place(one), asked.place(other), *limit)) for one, other in pairs]
    return seen, [(0, True), (0, False)]


def are_ancestors(asked):
    """The same of many pairs in one call, in turns."""
    walk, (first, second) = asked.shape.walk, asked.shape.apart
    pairs = asked.room("cg_pair", MANY)
    for place in range(MANY):
        one, other = (first, second) if place % 2 else (walk[-1 - place % len(walk)], walk[0])
        pairs[place].ancestor, pairs[place].descendant = asked.place(one), asked.place(other)
    out = asked.room("uint8_t", MANY)
    seen = asked.library.cg_are_ancestors(asked.checked, pairs, MANY, out, MANY)
    return (told(seen), list(out)), ((0, MANY), [1, 0] * (MANY // 2))


def merge_bases(asked, within=False):
    """The merge bases of a commit and others."""
    shape, bases = asked.shape, asked.room("uint32_t", len(asked.shape.bases))
    call = asked.library.cg_merge_bases_within if within else asked.library.cg_merge_bases
    taken = asked.checked, asked.place(shape.first), asked.places(shape.others), len(shape.others)
    seen = call(*taken, *([asked.limit()] if within else []), bases, len(shape.bases))
    bounded = shape.ahead + shape.behind + len(shape.bases) <= seen.visits <= 3 * shape.count
    return (seen.code, seen.ahead, seen.behind, bounded, seen.length, list(bases)), (
        *(0, shape.ahead, shape.behind, True, len(shape.bases), list(map(asked.place, shape.bases))),
    )


def merge_bases_of(asked):
    """The merge bases of many pairs: of each of the others with itself, and last of the ends of the walk."""
    others = [asked.shape.others[place % len(asked.shape.others)] for place in range(MANY - 1)]
    pairs, answers, out = asked.room("cg_two", MANY), asked.room("cg_bases", MANY), asked.room("uint32_t", MANY)
    for place, number in enumerate(others):
        pairs[place].first = pairs[place].other = asked.place(number)
    walk = asked.shape.walk
    pairs[MANY - 1].first, pairs[MANY - 1].other = asked.place(walk[0]), asked.place(walk[-1])
    seen = asked.library.cg_merge_bases_of(asked.checked, pairs, MANY, answers, MANY, out, MANY)
    lengths = [(answer.code, answer.length) for answer in answers]
    return (told(seen), lengths, list(out)), ((0, MANY, MANY), [(0, 1)] * MANY, list(map(asked.place, [*others, walk[-1]])))


def corrected_dates(asked):
    """The corrected dates of all commits."""
    count = asked.shape.count
    out = asked.room("uint64_t", count)
    seen = asked.library.cg_corrected_dates(asked.graph, out, count)
    return (told(seen), list(out)), ((0, 0, 0, 0, count), [asked.plan.dates[number] for number in asked.order])


def probe_path(asked):
    """What the filters of all commits say of a path: a filter of zeros has none, one of ones each, and of others nothing is said."""
    count, filters = asked.shape.count, asked.plan.filters or {}
    positions, out = (ctypes.c_uint32 * count)(*range(count)), asked.room("uint8_t", count)
    seen = asked.library.cg_probe_path(asked.graph, PATH, len(PATH), positions, count, out, count)
    plain = {b"": 2, b"\0": 0, b"\xff": 1}
    right = [plain.get(filters.get(number, b"")[:1] if number in filters else b"", 2) for number in asked.order]
    unsure = [number for number in asked.order if len(set(filters.get(number, b""))) > 1]
    for number in unsure:
        right[asked.place(number)] = out[asked.place(number)]
    return (told(seen), list(out)), ((0, 0, 0, 0, count), right)


def matches(asked):
    """What some commits are beside their contents."""
    numbers = sorted({*range(min(4, asked.shape.count)), asked.tip})
    seen = []
    for number in numbers:
        contents = asked.plan.contents(number)
        seen.append(told(asked.library.cg_matches(asked.graph, asked.place(number), contents, len(contents))))
    return seen, [(0, 0)] * len(numbers)


def handed(asked, numbers):
    """Commits as they are handed in, and what keeps their bytes."""
    plan, size = asked.plan, asked.plan.size
    ids = b"".join(plan.ids)
    trees = b"".join(map(plan.tree, numbers))
    listed = b"".join(plan.ids[parent] for number in numbers for parent in plan.parents[number])
    at = [ctypes.cast(text, ctypes.c_void_p).value for text in (ids, trees, listed)]
    rows, passed = [], 0
    for place, number in enumerate(numbers):
        length = size * len(plan.parents[number])
        row = at[0] + size * number, size, at[1] + size * place, size, at[2] + passed, length, plan.times[number]
        rows.append(struct.pack("7Q", *row))
        passed += length
    return ctypes.create_string_buffer(b"".join(rows), 56 * len(rows)), (ids, trees, listed)


def written(asked, below, numbers):
    """The bytes of a layer of some commits, and what else the calls answer that lead there."""
    library, made = asked.library, asked.new("cg_bytes")
    commits, _held = handed(asked, numbers)
    error = library.cg_write(below, commits, len(numbers), ctypes.byref(made))
    length = library.cg_bytes_copy(made, 0, None, 0)
    out = asked.room("uint8_t", length)
    copied = library.cg_bytes_copy(made, 0, out, length)
    return told(error), bytes(out)[:copied], library.cg_bytes_free(ctypes.byref(made))


def lend_bytes(asked):
    """The new layer on top of those below it, as it is lent."""
    library, made, lent_bytes = asked.library, asked.new("cg_bytes"), asked.new("cg_lent")
    commits, _held = handed(asked, list(asked.shape.new))
    error = library.cg_write(asked.below, commits, len(asked.shape.new), ctypes.byref(made))
    seen = library.cg_lend_bytes(made, ctypes.byref(lent_bytes)), ctypes.string_at(lent_bytes.bytes, lent_bytes.len)
    return (told(error), *seen, library.cg_bytes_free(ctypes.byref(made))), ((0,) * 6, True, asked.shape.written, True)


def write_on(asked):
    """The new layer on top of those below it."""
    return written(asked, asked.below, list(asked.shape.new)), ((0,) * 6, asked.shape.written, True)


def write_all(asked):
    """All commits in one file, handed in by their positions."""
    seen = written(asked, asked.new("cg_graph"), asked.order)
    return seen, ((0,) * 6, asked.shape.one_file(), True)


def chain_line(asked):
    """The lines of a text: one of as many letters as there are commits, and some of a few."""
    texts = [b"a" * asked.shape.count, *(b"%x" % number for number in range(MANY))]
    text, start, seen, right, end = b"\n".join(texts), 0, [], [], -1
    for line in texts:
        found = asked.library.cg_chain_line(text, len(text), start)
        seen.append(told(found))
        end, start = end + 1 + len(line), found.next
        right.append((True, end, min(end + 1, len(text))))
    return (seen, asked.library.cg_chain_line(text, len(text), start).found), (right, False)


def id_at(asked, call, right):
    """The id at the position of the last commit, or that of its tree."""
    return read_id(asked, call, asked.place(asked.tip)), right


def generation_at(asked):
    """The generation number of the last commit."""
    return asked.library.cg_generation_at(asked.graph, asked.place(asked.tip)), asked.plan.generations[asked.tip]
