"""The table: each command, each question and each call of the library for C, the shapes that it is asked about, and what it has to
answer of each by the plan. What is new joins by a row.

A row of a command has its words, and a function each for what standard input has and for the answer; the status is 1 after `no`,
`none` and a refusal, and else 0. A row of a question has its line. A row of a call has a function of `exports.py` or one here, which makes the call,
and gives what was answered beside what it has to be. A call of Rust is made by `test_calls`, in a folder with the files that it needs.
"""

import collections
import ctypes
import os
from functools import partial
from typing import Any, Callable, NamedTuple, Tuple

from sizes import answers, exports

EACH = ("long", "octopus", "big", "wide", "chain", "padded")
"""All shapes."""

UNREAD = ("long", "octopus", "big", "wide", "chain")
"""The shapes but the one that takes longest, because it is the largest file."""


class Row(NamedTuple):
    """What one row asks. `name` is that of a command, behind it `--unchecked` where that is asked, of a question as `ask find`, or of a
    call; and behind a colon what tells the row from others of that name. `ask` gives the words behind the command, or the ids of the
    question, or the folder in which `test_calls` makes a call of Rust, or makes the call."""

    name: str
    shapes: Tuple[str, ...]
    ask: Callable[..., Any]
    answer: Callable[..., Any] = None
    given: Callable[..., Any] = None


def hexes(shape, *numbers):
    """The ids of commits, in digits."""
    return [shape.plan.hex(number) for number in numbers]


def ends(shape):
    """The ids of the first and the last commit of the walk."""
    return hexes(shape, shape.walk[0], shape.walk[-1])


def below(shape):
    """The same in the other order: an ancestor, and its descendant."""
    return ends(shape)[::-1]


def apart(shape):
    """The ids of two commits of which the second does not lead to the first."""
    return hexes(shape, *shape.apart)


def asked_bases(shape):
    """The ids of a commit and of others."""
    return hexes(shape, shape.first, *shape.others)


def tip(shape):
    """The commit of the last position, or the last of all where there is one layer."""
    return shape.order()[-1] if len(shape.layers) > 1 else shape.count - 1


def last(shape):
    """The id of the commit at the last position."""
    return hexes(shape, shape.order()[-1])


def path(*more):
    """The words of a command that takes a path, and then what these functions give."""
    return lambda shape: [shape.path, *(word for part in more for word in part(shape))]


def gathered(shape, numbers, known=()):
    """The commits that are asked for where these are in a question, in order: those that are not known, and all that they lead to."""
    wanted, asked, seen = collections.deque(numbers), [], set(known)
    while wanted:
        number = wanted.popleft()
        if number not in seen:
            seen.add(number)
            asked.append(number)
            wanted.extend(shape.plan.parents[number])
    return asked


class Newer(NamedTuple):
    """A question about newer commits, of which these functions give the numbers, and what is answered once they were asked for. They
    stand on no graph, or on that of the shape, and are those of the new layer then."""

    numbers: Callable[..., Any]
    answer: Callable[..., Any]
    on_graph: bool = False

    def row(self, name, shapes):
        """Its row."""
        return Row(name, shapes, self.ask, self.text, self.given)

    def ask(self, shape):
        """The words."""
        return [shape.path] * self.on_graph + hexes(shape, *self.numbers(shape))

    def gathered(self, shape):
        """The commits that are asked for."""
        return gathered(shape, self.numbers(shape), range(shape.count) if self.on_graph else ())

    def text(self, shape):
        """The lines that ask for them, an empty one, and the answer."""
        return answers.lines([*hexes(shape, *self.gathered(shape)), ""]) + "".join(self.answer(shape))

    def given(self, shape):
        """The file with their entries."""
        place = "on the graph" if self.on_graph else "alone"
        return shape.stream(" ".join(["newer", place, *map(str, self.numbers(shape)[:2])]), self.gathered(shape))


def newest(shape):
    """The oldest commit on the walk, and the last one of the new layer."""
    return [shape.walk[-1], shape.plan.count - 1]


def newest_first(shape):
    """The same two, the last one first."""
    return newest(shape)[::-1]


def oldest(shape):
    """The line of the id of the oldest commit on the walk."""
    return answers.ids(shape, shape.walk[-1:])


def compared_newest(shape):
    """What the last commit of the new layer and the oldest on the walk, to which it leads, have in common."""
    last, first = newest_first(shape)
    ahead = len(gathered(shape, [last])) - len(gathered(shape, [first]))
    base = "base %d %s" % (shape.plan.positions[first], shape.plan.hex(first))
    return answers.lines([base, "ahead %d behind 0" % ahead, "visits %d-%d" % (ahead, 3 * shape.plan.count)])


def checked_pairs(shape, exact):
    """The commits whose filters need trees, by their positions, each behind its first parent, if it has one: those that have a clear bit,
    or all that were computed, where they have to be those that Git writes."""
    filters = shape.plan.filters or {}
    needing = [number for number in shape.order() if filters.get(number, b"").strip(b"" if exact else b"\xff")]
    return [[*shape.plan.parents[number][:1], number] for number in needing]


def asked_trees(shape, exact):
    """The commits whose root trees are asked for, in order: each once, and where there are no trees those of the first pair alone."""
    pairs = checked_pairs(shape, exact)
    return list(dict.fromkeys(number for pair in (pairs if shape.plan.trees else pairs[:1]) for number in pair))


def trees(shape, exact=False):
    """The file with what Git writes of these trees."""
    place = os.path.join(shape.folder, "trees for %s filters" % ("Git's" if exact else "right"))
    with open(place, "wb") as file:
        file.writelines(map(shape.plan.tree_entry, asked_trees(shape, exact)))
    return place


def held(shape, exact=False):
    """The lines that ask for these trees, an empty one, and what is told of the filters, which are those that Git writes where there are
    trees."""
    ids = [shape.plan.tree(number).hex() for number in asked_trees(shape, exact)]
    lacking = ids and not shape.plan.trees
    position = shape.plan.positions[checked_pairs(shape, exact)[0][-1]] if lacking else None
    told = "refused paths 4 position %d id %s" % (position, ids[0]) if lacking else answers.checked(shape).splitlines()[-1]
    return answers.lines([*ids, "", told])


def yes(shape):
    return "yes\n"


def no(shape):
    return "no\n"


def none(shape):
    return "none\n"


def stored(shape):
    """The commits that are asked about, in the order of their positions, as a program reads them."""
    return shape.stream("stored", shape.order())


def added(shape):
    """The commits of the new layer."""
    return shape.stream("added", shape.new)


def highest(shape):
    """The file of the highest layer."""
    return shape.files[-1]


def walked(shape):
    """The lines of the ids on the walk."""
    return answers.ids(shape, shape.walk)


def bases(shape):
    """The lines of the ids of the merge bases."""
    return answers.ids(shape, shape.bases)


def found(shape):
    """The line of the last commit."""
    return answers.found(shape, tip(shape))


def counted(shape):
    """The line of the number of commits."""
    return "ok commits %d\n" % shape.count


def last_ids(shape):
    """The lines of the ids of the second half of all positions."""
    return answers.ids(shape, shape.order()[shape.count // 2 :])


def half(shape):
    """The positions of the second half."""
    return [str(shape.count // 2), str(shape.count)]


def stored_half(shape):
    """The commits at these."""
    return shape.stream("half", shape.order()[shape.count // 2 :])


def counted_half(shape):
    """The line of their number."""
    return "ok commits %d\n" % (shape.count - shape.count // 2)


def reversed_pair(shape):
    """The same two in the other order: no walk leads from the first to the second."""
    return apart(shape)[::-1]


def for_rust(shape):
    """The folder with the files of the calls of Rust."""
    return shape.for_rust()


def begun(text):
    """What `test_calls` writes: the line before a call, an empty one, and what the call answers."""
    return "begun\n\n%s\n" % text


def base(name):
    """The name of a command, a question or a call, without what tells a row from others of that name."""
    return name.partition(": ")[0]


COMMANDS = (
    Row("list", UNREAD, lambda shape: [], lambda shape: answers.listed(shape, len(shape.layers) - 1), highest),
    Row("verify", EACH, path(), answers.verified),
    Row("distinct", UNREAD, path(), answers.verified),
    Row("find", EACH, path(lambda shape: hexes(shape, tip(shape))), found),
    Row("find: last", EACH, path(last), lambda shape: answers.found(shape, shape.order()[-1])),
    Row("find: none", UNREAD, path(lambda shape: ["fe" * shape.plan.size]), none),
    Row("ancestor", UNREAD, path(ends), answers.walk_of_positions),
    Row("is-ancestor", UNREAD, path(below), yes),
    Row("is-ancestor: no", UNREAD, path(apart), no),
    Row("is-ancestor --unchecked", EACH, path(below), yes),
    Row("is-ancestor --unchecked: no", EACH, path(apart), no),
    Newer(lambda shape: [shape.walk[-1], shape.walk[0]], yes).row("is-ancestor --newer", UNREAD),
    Newer(lambda shape: shape.apart, no).row("is-ancestor --newer: no", UNREAD),
    Newer(newest, yes, on_graph=True).row("is-ancestor --newer: on a graph", UNREAD),
    Newer(newest, yes, on_graph=True).row("is-ancestor --unchecked --newer", UNREAD),
    Row("walk", UNREAD, path(ends), walked),
    Row("walk: none", UNREAD, path(reversed_pair), none),
    Row("walk --unchecked", EACH, path(ends), walked),
    Newer(lambda shape: [shape.walk[0], shape.walk[-1]], walked).row("walk --newer", UNREAD),
    Newer(lambda shape: [shape.walk[0], shape.walk[-1]], walked).row("walk --unchecked --newer", UNREAD),
    Newer(newest_first, compared_newest, on_graph=True).row("merge-base --newer", UNREAD),
    Newer(newest_first, compared_newest, on_graph=True).row("merge-base --unchecked --newer", UNREAD),
    Newer(newest_first, oldest).row("merge-base-ids --newer", UNREAD),
    Newer(newest_first, oldest, on_graph=True).row("merge-base-ids --unchecked --newer", UNREAD),
    Row("merge-base", UNREAD, path(asked_bases), answers.compared),
    Row("merge-base --unchecked", EACH, path(asked_bases), answers.compared),
    Row("merge-base-ids", UNREAD, path(asked_bases), bases),
    Row("merge-base-ids --unchecked", EACH, path(asked_bases), bases),
    Row("check", UNREAD, path(), answers.checked),
    Row("show", UNREAD, path(), lambda shape: answers.lines(answers.shown(shape))),
    Row("ids", UNREAD, path(), lambda shape: answers.ids(shape, shape.order())),
    Row("ids: half", UNREAD, path(half), last_ids),
    Row("objects", UNREAD, path(), counted, stored),
    Row("objects: half", UNREAD, path(half), counted_half, stored_half),
    Row("paths", UNREAD, path(), held, trees),
    Row("paths --exact", UNREAD, path(), partial(held, exact=True), partial(trees, exact=True)),
    Row("write", UNREAD, lambda shape: [], lambda shape: shape.one_file(), stored),
    Row("write: on top", UNREAD, lambda shape: [shape.below], lambda shape: shape.written, added),
    Row("merge", UNREAD, path(), lambda shape: shape.one_file(shape.plan.filters)),
)
"""The commands."""

QUESTIONS = (
    Row("ask find", EACH, lambda shape: hexes(shape, tip(shape)), found),
    Row("ask find: last", EACH, last, lambda shape: answers.found(shape, shape.order()[-1])),
    Row("ask is-ancestor", EACH, below, yes),
    Row("ask is-ancestor: no", UNREAD, apart, no),
    Row("ask walk", EACH, ends, walked),
    Row("ask walk: none", UNREAD, reversed_pair, none),
    Row("ask merge-base", EACH, asked_bases, answers.compared),
    Row("ask parents", EACH, lambda shape: hexes(shape, tip(shape)), lambda shape: answers.parents(shape, tip(shape))),
    Row("ask parents: last", EACH, last, lambda shape: answers.parents(shape, shape.order()[-1])),
    Row("ask reload", EACH, lambda shape: [], counted),
)
"""The questions, which are asked one after another in one run, and then all once more; checked and unchecked."""

CALLS = (
    Row("cg_version", EACH, lambda asked: (asked.library.cg_version(), asked.library.version)),
    Row("cg_open", EACH, exports.opening("cg_open")),
    Row("cg_open_lent", EACH, exports.opening("cg_open_lent")),
    Row("cg_open_chain", EACH, exports.open_chain),
    Row("cg_open_chain: many", EACH, exports.open_repeated),
    Row("cg_open_known", EACH, exports.open_known),
    Row("cg_open_checked", EACH, exports.open_checked),
    Row("cg_check", EACH, exports.check),
    Row("cg_check_within", EACH, exports.check_within),
    Row("cg_close", EACH, lambda asked: (asked.library.cg_close(ctypes.byref(asked.opened())), True)),
    Row("cg_flag_new", EACH, exports.flag),
    Row("cg_flag_raise", EACH, exports.flag),
    Row("cg_flag_free", EACH, exports.flag),
    Row("cg_num_commits", EACH, lambda asked: (asked.library.cg_num_commits(asked.graph), asked.shape.count)),
    Row("cg_id_len", EACH, lambda asked: (asked.library.cg_id_len(asked.graph), asked.plan.size)),
    Row("cg_num_layers", EACH, lambda asked: (asked.library.cg_num_layers(asked.graph), len(asked.shape.layers))),
    Row("cg_layer", EACH, exports.layer),
    Row("cg_layer_checksum", EACH, exports.layer_checksum),
    Row("cg_base_id_at", EACH, exports.base_id_at),
    Row("cg_lookup", EACH, exports.lookup),
    Row("cg_lookup_all", EACH, exports.lookup_all),
    Row("cg_id_at", EACH, lambda asked: exports.id_at(asked, asked.library.cg_id_at, asked.plan.ids[asked.tip])),
    Row("cg_tree_at", EACH, lambda asked: exports.id_at(asked, asked.library.cg_tree_at, asked.plan.tree(asked.tip))),
    Row("cg_lend_id", EACH, lambda asked: exports.lent(asked, asked.library.cg_lend_id, asked.plan.ids[asked.tip])),
    Row("cg_lend_tree", EACH, lambda asked: exports.lent(asked, asked.library.cg_lend_tree, asked.plan.tree(asked.tip))),
    Row("cg_ids_at", EACH, exports.ids_at),
    Row("cg_commit_at", EACH, exports.commit_at),
    Row("cg_generation_at", EACH, exports.generation_at),
    Row("cg_commits", EACH, exports.commits),
    Row("cg_parents", EACH, lambda asked: exports.parents(asked, asked.library.cg_parents)),
    Row("cg_first_parents", EACH, lambda asked: exports.parents(asked, asked.library.cg_first_parents)),
    Row("cg_first_parent", EACH, exports.first_parent),
    Row("cg_parents_from", EACH, exports.parents_from),
    Row("cg_verify", EACH, exports.verify),
    Row("cg_verify_layer", EACH, exports.verify_layer),
    Row("cg_ancestor_walk", EACH, exports.ancestor_walk),
    Row("cg_ancestor_walk_within", EACH, lambda asked: exports.ancestor_walk(asked, within=True)),
    Row("cg_is_ancestor", EACH, exports.is_ancestor),
    Row("cg_is_ancestor_within", EACH, lambda asked: exports.is_ancestor(asked, within=True)),
    Row("cg_are_ancestors", EACH, exports.are_ancestors),
    Row("cg_merge_bases", EACH, exports.merge_bases),
    Row("cg_merge_bases_within", EACH, lambda asked: exports.merge_bases(asked, within=True)),
    Row("cg_merge_bases_of", EACH, exports.merge_bases_of),
    Row("cg_corrected_dates", EACH, exports.corrected_dates),
    Row("cg_probe_path", EACH, exports.probe_path),
    Row("cg_matches", EACH, exports.matches),
    Row("cg_write", EACH, exports.write_on),
    Row("cg_write: all", EACH, exports.write_all),
    Row("cg_bytes_copy", EACH, exports.write_on),
    Row("cg_lend_bytes", EACH, exports.lend_bytes),
    Row("cg_bytes_free", EACH, exports.write_on),
    Row("cg_chain_line", EACH, exports.chain_line),
)
"""The calls of the library for C."""

RUST = "test_calls"
"""The program that makes calls of Rust."""

RUST_CALLS = (
    Row("Checked::new", EACH, for_rust, lambda shape: begun("Ok(%d)" % shape.count)),
    Row("merge_bases", EACH, for_rust, lambda shape: begun(answers.common(shape))),
    Row("CheckedGraph::push", EACH, for_rust, lambda shape: begun("(Ok(()), %d)" % shape.plan.count)),
)
"""Calls of Rust that no command and no call of the library makes."""

ROWS = (*COMMANDS, *QUESTIONS, *CALLS, *RUST_CALLS)
"""All rows."""
