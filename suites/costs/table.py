"""The table: for each command, question, call of the library for C and call of Rust that none of them makes, how its instructions and
the bytes that it asks of the heap may grow with shapes that are made to do harm. The table of suites/sizes says what each is asked.
A command that checks its graph once needs no row here, and no call that costs the same whatever the graph; what may cost more, or is
to cost less, has one, and so has a question.
"""

from typing import NamedTuple, Tuple

from costs.growth import BY_BYTES, BY_PARENTS, CONSTANT, IN_STEPS, LINEAR, LOGARITHMIC, N_LOG_N, SQUARE, Growth
from sizes import library
from sizes import table as asked

SIZES = {
    **{"lines": 500, "layers": 25, "alike": 25, "parents": 200, "lists": 100, "prefix": 1000, "steps": 1000, "tower": 1000},
    **{"marks": 100_000, "message": 300_000, "padding": 300_000, "filters": 100_000, "trees": 500},
}
"""Each shape, and the first of its three sizes."""

MOST = {"layers": 64, "alike": 64}
"""The most that the first size is also where larger ones are asked for: a chain has at most 256 layers."""

COMMITS = ("lines", "prefix", "steps", "tower")
"""The shapes in which only commits become more: an id is found in a logarithm of them."""

FLAT = (*COMMITS, "parents", "padding")
"""Those whose layers do not become more."""

CALLED = (*FLAT, "layers", "lists")
"""The shapes that the calls are asked about."""

FEW = ("padding", "filters")
"""Those whose commits do not become more."""

UNCHECKED = " --unchecked"

ONCE = 45
"""The digests of a check take 25 instructions for each byte, and with all else it takes up to 37. So what checks a graph takes no more than
this, and a second check of the whole more."""

ONCE_IN_LAYERS = 50
"""The same of a chain, whose small files take some more."""


class Row(NamedTuple):
    """How the costs of a command, a question or a call may grow with some shapes. `name` is that of a row in the table of suites/sizes,
    and behind the name of a question `--unchecked` where it is asked of a graph that is not checked."""

    name: str
    shapes: Tuple[str, ...]
    instructions: Growth
    memory: Growth

    def flags(self):
        """The words behind `ask`."""
        return [UNCHECKED.strip()] if self.name.endswith(UNCHECKED) else []

    def asked(self):
        """The row with the name in the other table."""
        is_question = self.name.startswith("ask ")
        return self._replace(name=self.name.replace(UNCHECKED, "") if is_question else self.name)


STATED = (
    Row("list", ("lines", "parents"), LINEAR.at_most(6), LINEAR),
    Row("list", ("layers",), LINEAR, LINEAR),
    Row("list", ("lists",), BY_PARENTS, IN_STEPS.at_most(0.5)),
    Row("list", ("padding",), LINEAR.at_most(0.5), LINEAR),
    Row("verify", ("lines", "parents", "prefix", "lists", *FEW), LINEAR.at_most(ONCE), LINEAR),
    Row("verify", ("layers",), BY_BYTES.at_most(ONCE_IN_LAYERS), LINEAR),
    Row("distinct", ("lines", "prefix", "tower"), LINEAR.at_most(ONCE), LINEAR),
    Row("distinct", ("layers",), BY_BYTES.at_most(ONCE_IN_LAYERS), LINEAR),
    Row("find", ("lines", "tower"), LOGARITHMIC, LINEAR.at_most(0.01)),
    Row("find", ("prefix", "steps"), LOGARITHMIC, LINEAR),
    Row("find", ("alike",), LINEAR, BY_BYTES),
    Row("find", FEW, CONSTANT, CONSTANT),
    Row("ancestor", ("lines", "lists"), LINEAR.at_most(ONCE), LINEAR),
    Row("is-ancestor", ("lines", "lists"), LINEAR.at_most(ONCE), LINEAR),
    Row("is-ancestor --unchecked", ("lines", "steps", "parents", "lists"), LINEAR, LINEAR),
    Row("is-ancestor --unchecked", ("layers",), BY_BYTES, BY_BYTES),
    Row("is-ancestor --unchecked", ("tower",), LOGARITHMIC, LOGARITHMIC),
    Row("is-ancestor --unchecked", FEW, CONSTANT, CONSTANT),
    Row("walk", ("lines", "lists"), LINEAR.at_most(38), LINEAR),
    Row("walk --unchecked", ("lines", "lists"), LINEAR, LINEAR),
    Row("walk --unchecked", ("layers",), LINEAR, BY_BYTES),
    Row("walk --unchecked", ("tower",), LOGARITHMIC, LOGARITHMIC),
    Row("walk --unchecked", FEW, CONSTANT, CONSTANT),
    Row("is-ancestor --newer", ("lines", "parents", "tower"), N_LOG_N, LINEAR),
    Row("is-ancestor --newer", ("lists",), BY_PARENTS, BY_PARENTS),
    Row("walk --newer", ("lines", "parents"), N_LOG_N, LINEAR),
    Row("merge-base --newer", ("lines",), LINEAR.at_most(ONCE), LINEAR),
    Row("merge-base-ids --newer", ("lines", "parents"), N_LOG_N, LINEAR),
    Row("is-ancestor --unchecked --newer", ("lines", "parents", "tower"), N_LOG_N, LINEAR),
    Row("walk --unchecked --newer", ("lines", "parents"), N_LOG_N, LINEAR),
    Row("merge-base --unchecked --newer", ("lines",), LINEAR.at_most(ONCE), LINEAR),
    Row("merge-base-ids --unchecked --newer", ("lines", "parents"), N_LOG_N, LINEAR),
    Row("merge-base", ("lines", "lists"), LINEAR.at_most(ONCE), LINEAR),
    Row("merge-base", ("parents",), LINEAR.at_most(85), LINEAR),
    Row("merge-base --unchecked", ("lines", "parents", "lists"), LINEAR, LINEAR),
    Row("merge-base --unchecked", ("layers",), LINEAR, BY_BYTES),
    Row("merge-base --unchecked", ("tower",), LOGARITHMIC, LOGARITHMIC),
    Row("merge-base --unchecked", FEW, CONSTANT, CONSTANT),
    Row("merge-base-ids", ("parents",), LINEAR.at_most(85), LINEAR),
    Row("merge-base-ids --unchecked", ("parents",), LINEAR, LINEAR),
    Row("merge-base-ids --unchecked", ("tower",), LOGARITHMIC, LOGARITHMIC),
    Row("merge-base-ids --unchecked", FEW, CONSTANT, CONSTANT),
    Row("ids", ("lines",), LINEAR.at_most(4), LINEAR),
    Row("ids", ("layers",), LINEAR, LINEAR),
    Row("ids", ("padding",), LINEAR.at_most(0.5), LINEAR),
    Row("objects", ("lines", "tower", "message"), LINEAR.at_most(32), LINEAR.at_most(5)),
    Row("objects", ("parents",), LINEAR.at_most(32), IN_STEPS.at_most(5)),
    Row("objects", ("marks",), LINEAR, LINEAR.at_most(5)),
    Row("objects", ("lists",), BY_PARENTS, LINEAR),
    Row("paths", ("lines", "lists", *FEW), LINEAR.at_most(ONCE), LINEAR),
    Row("paths", ("layers",), BY_BYTES.at_most(ONCE_IN_LAYERS), LINEAR),
    # Each tree is hashed once, and read twice: as that of a commit, and as that of a parent. Each pair of trees is gone through twice:
    # once for those that are asked for ahead.
    Row("paths", ("trees",), LINEAR.at_most(95), LINEAR),
    Row("paths --exact", ("lines", "lists", *FEW), LINEAR.at_most(ONCE), LINEAR),
    Row("paths --exact", ("layers",), BY_BYTES.at_most(ONCE_IN_LAYERS), LINEAR),
    Row("paths --exact", ("trees",), LINEAR.at_most(95), LINEAR),
    Row("write", ("lines", "message"), LINEAR.at_most(40), LINEAR.at_most(5)),
    Row("write", ("parents",), LINEAR.at_most(40), IN_STEPS.at_most(5)),
    Row("write", ("marks",), LINEAR, LINEAR.at_most(5)),
    Row("write", ("lists",), BY_PARENTS, BY_PARENTS),
    Row("write: on top", ("tower",), LINEAR.at_most(ONCE), LINEAR),
    Row("write: on top", ("layers",), BY_BYTES.at_most(ONCE_IN_LAYERS), LINEAR),
    Row("merge", ("lines",), LINEAR.at_most(50), LINEAR),
    Row("merge", ("prefix", "steps"), LINEAR.at_most(54), LINEAR),
    Row("merge", ("filters",), LINEAR.at_most(31), LINEAR),
    Row("merge", ("layers",), BY_BYTES.at_most(ONCE_IN_LAYERS), LINEAR),
    Row("merge", ("lists",), BY_PARENTS, BY_PARENTS),
)
"""The commands that may cost more than others, or less, or are asked of other shapes."""


def any_other(name):
    """The rows of a command that has none: it checks its graph once, and takes no more memory than that."""
    yield Row(name, ("lines", "lists", *FEW), LINEAR.at_most(ONCE), LINEAR)
    yield Row(name, ("layers",), BY_BYTES.at_most(ONCE_IN_LAYERS), LINEAR)


UNSTATED = {asked.base(row.name) for row in asked.COMMANDS} - {asked.base(row.name) for row in STATED}

COMMANDS = (*STATED, *(row for name in sorted(UNSTATED) for row in any_other(name)))
"""All commands."""


def both(name, shapes, instructions, memory):
    """The rows of a question of a graph that is checked, and of one that is not."""
    return Row(name, shapes, instructions, memory), Row(name + UNCHECKED, shapes, instructions, memory)


QUESTIONS = (
    Row("ask find", COMMITS, LOGARITHMIC, CONSTANT),
    Row("ask find --unchecked", COMMITS, LOGARITHMIC, LOGARITHMIC),
    *both("ask find", ("alike",), LINEAR, LINEAR),
    *both("ask find", FEW, CONSTANT, CONSTANT),
    *both("ask is-ancestor", ("lines", "lists"), LINEAR, LINEAR),
    Row("ask is-ancestor", ("tower",), LINEAR, LINEAR),
    Row("ask is-ancestor --unchecked", ("tower",), LOGARITHMIC, LOGARITHMIC),
    *both("ask is-ancestor", FEW, CONSTANT, CONSTANT),
    *both("ask walk", ("lines", "lists"), LINEAR, LINEAR),
    Row("ask walk", ("tower",), LINEAR, LINEAR),
    Row("ask walk --unchecked", ("tower",), LOGARITHMIC, LOGARITHMIC),
    *both("ask walk", FEW, CONSTANT, CONSTANT),
    *both("ask merge-base", ("lines", "parents", "lists"), LINEAR, LINEAR),
    Row("ask merge-base", ("tower",), LINEAR, LINEAR),
    Row("ask merge-base --unchecked", ("tower",), LOGARITHMIC, LOGARITHMIC),
    *both("ask merge-base", FEW, CONSTANT, CONSTANT),
    *both("ask parents", COMMITS, LOGARITHMIC, CONSTANT),
    *both("ask parents", ("alike", "parents", "lists"), LINEAR, LINEAR),
    *both("ask parents", FEW, CONSTANT, CONSTANT),
    Row("ask reload", ("lines", "lists", "tower"), LINEAR.at_most(6), LINEAR),
    Row("ask reload", ("layers",), BY_BYTES.at_most(15), LINEAR),
    Row("ask reload", FEW, LINEAR.at_most(1), LINEAR),
    Row("ask reload --unchecked", ("lines", "lists", "tower"), LINEAR.at_most(1), CONSTANT),
    Row("ask reload --unchecked", ("layers",), LINEAR, BY_BYTES),
    Row("ask reload --unchecked", FEW, CONSTANT, CONSTANT),
)
"""The questions, of each what it costs by itself, asked twice. A checked graph has its corrected dates checked at the first question for
merge bases, or at the second for another search, whichever comes first: so the cost of these may grow with it."""

GROWING = (
    Row("cg_open", ("lines", "prefix", "parents", "lists", "padding"), LINEAR.at_most(3), LINEAR),
    Row("cg_open", ("layers",), LINEAR.at_most(15), BY_BYTES),
    Row("cg_open_lent", ("lines", "prefix", "parents", "lists"), LINEAR.at_most(3), LINEAR),
    Row("cg_open_lent", ("layers",), LINEAR.at_most(15), LINEAR),
    Row("cg_open_lent", ("padding",), CONSTANT, CONSTANT),
    Row("cg_open_chain", ("lines", "prefix", "parents", "lists"), LINEAR.at_most(3), LINEAR.at_most(2)),
    Row("cg_open_chain", ("layers",), LINEAR, LINEAR),
    Row("cg_open_chain", ("padding",), CONSTANT, CONSTANT),
    Row("cg_open_known", ("lines", "layers", "prefix", "parents", "lists", "padding"), LINEAR.at_most(1), LINEAR),
    Row("cg_open_checked", ("lines", "prefix", "parents", "lists", "padding"), LINEAR.at_most(2 * ONCE), LINEAR),
    Row("cg_open_checked", ("layers",), BY_BYTES.at_most(3 * ONCE), BY_BYTES),
    Row("cg_check", ("lines", "prefix", "parents", "lists", "padding"), LINEAR.at_most(ONCE), LINEAR),
    Row("cg_check", ("layers",), BY_BYTES.at_most(ONCE), LINEAR),
    Row("cg_check_within", ("lines", "prefix", "parents", "lists", "padding"), LINEAR.at_most(ONCE), LINEAR),
    Row("cg_check_within", ("layers",), BY_BYTES.at_most(ONCE), LINEAR),
    Row("cg_close", FLAT, CONSTANT, CONSTANT),
    Row("cg_close", ("layers",), BY_BYTES, CONSTANT),
    Row("cg_lookup", FLAT, LOGARITHMIC, CONSTANT),
    Row("cg_lookup", ("alike",), LINEAR, CONSTANT),
    Row("cg_lookup_all", (*FLAT, "lists"), N_LOG_N, CONSTANT),
    Row("cg_lookup_all", ("alike",), SQUARE, CONSTANT),
    Row("cg_ids_at", (*FLAT, "lists"), LINEAR, CONSTANT),
    Row("cg_ids_at", ("layers",), N_LOG_N, CONSTANT),
    Row("cg_commits", CALLED, LINEAR, CONSTANT),
    Row("cg_parents", (*COMMITS, "layers", "padding"), CONSTANT, CONSTANT),
    Row("cg_parents", ("parents", "lists"), LINEAR, CONSTANT),
    Row("cg_first_parents", (*COMMITS, "layers", "padding"), CONSTANT, CONSTANT),
    Row("cg_first_parents", ("parents", "lists"), LINEAR, CONSTANT),
    Row("cg_first_parent", (*COMMITS, "parents", "padding"), CONSTANT, CONSTANT),
    Row("cg_parents_from", (*FLAT, "layers"), LINEAR, CONSTANT),
    Row("cg_parents_from", ("lists",), BY_PARENTS, CONSTANT),
    Row("cg_verify", ("lines", "prefix", "parents", "lists", "padding"), LINEAR.at_most(ONCE), LINEAR),
    Row("cg_verify", ("layers",), BY_BYTES.at_most(ONCE), LINEAR),
    Row("cg_verify_layer", ("lines", "prefix", "parents", "lists", "padding"), LINEAR, LINEAR),
    Row("cg_verify_layer", ("layers",), LINEAR.at_most(1), CONSTANT),
    Row("cg_ancestor_walk", ("lines", "prefix", "layers", "parents", "lists"), LINEAR, LINEAR),
    Row("cg_ancestor_walk", ("tower",), LOGARITHMIC, LINEAR),
    Row("cg_ancestor_walk", ("padding",), CONSTANT, CONSTANT),
    Row("cg_ancestor_walk_within", ("lines", "prefix", "layers", "parents", "lists"), LINEAR, LINEAR),
    Row("cg_ancestor_walk_within", ("tower",), LOGARITHMIC, LINEAR),
    Row("cg_ancestor_walk_within", ("padding",), CONSTANT, CONSTANT),
    Row("cg_is_ancestor", ("lines", "prefix", "layers", "parents", "lists"), LINEAR, LINEAR),
    Row("cg_is_ancestor", ("tower",), LOGARITHMIC, LINEAR),
    Row("cg_is_ancestor", ("padding",), CONSTANT, CONSTANT),
    Row("cg_is_ancestor_within", ("lines", "prefix", "parents", "lists"), LINEAR, LINEAR),
    # The layer of each commit is found by halving.
    Row("cg_is_ancestor_within", ("layers",), N_LOG_N, LINEAR),
    Row("cg_is_ancestor_within", ("tower",), LOGARITHMIC, LINEAR),
    Row("cg_is_ancestor_within", ("padding",), CONSTANT, CONSTANT),
    Row("cg_are_ancestors", ("lines", "prefix", "layers", "parents", "lists"), LINEAR, LINEAR),
    Row("cg_are_ancestors", ("tower",), LOGARITHMIC, LINEAR),
    Row("cg_are_ancestors", ("padding",), CONSTANT, CONSTANT),
    Row("cg_merge_bases", ("lines", "prefix", "parents", "lists"), LINEAR, LINEAR),
    Row("cg_merge_bases", ("tower",), LINEAR.at_most(2), LINEAR),
    Row("cg_merge_bases", ("padding",), CONSTANT, CONSTANT),
    Row("cg_merge_bases_within", ("lines", "prefix", "parents", "lists"), LINEAR, LINEAR),
    Row("cg_merge_bases_within", ("tower",), LOGARITHMIC, LINEAR),
    Row("cg_merge_bases_within", ("padding",), CONSTANT, CONSTANT),
    Row("cg_merge_bases_of", ("lines", "prefix", "layers", "parents", "lists"), LINEAR, LINEAR),
    Row("cg_merge_bases_of", ("tower",), LINEAR.at_most(2), LINEAR),
    Row("cg_merge_bases_of", ("padding",), CONSTANT, CONSTANT),
    Row("cg_corrected_dates", (*COMMITS, "layers", "parents", "lists"), LINEAR.at_most(2), LINEAR),
    Row("cg_corrected_dates", ("padding",), CONSTANT, CONSTANT),
    Row("cg_probe_path", (*COMMITS, "layers", "parents", "lists"), LINEAR.at_most(1), LINEAR),
    Row("cg_probe_path", FEW, CONSTANT, CONSTANT),
    Row("cg_matches", ("lines", "tower", "layers", "padding"), CONSTANT, CONSTANT),
    Row("cg_matches", ("parents", "lists", "marks", "message"), LINEAR, CONSTANT),
    Row("cg_write", ("lines", "prefix", "tower", "layers", "parents"), LINEAR.at_most(25), LINEAR),
    Row("cg_write", ("lists",), BY_PARENTS, BY_PARENTS),
    Row("cg_write", ("padding",), CONSTANT, CONSTANT),
    Row("cg_bytes_copy", ("lines", "prefix", "layers", "parents"), LINEAR, CONSTANT),
    Row("cg_chain_line", ("lines", "prefix"), LINEAR, CONSTANT),
)
"""The calls of the library whose costs may grow with some shape, or are asked of others than the rest. The first call for merge bases
without a limit checks the corrected dates of the graph."""

CALLS = (*GROWING, *(Row(name, CALLED, CONSTANT, CONSTANT) for name in library.names() if name not in {row.name for row in GROWING}))
"""All calls: any other may cost no more, however large the graph is."""

RUST_CALLS = (
    Row("Checked::new", ("lines", "prefix", "parents", "lists", "padding"), LINEAR.at_most(ONCE), LINEAR),
    Row("Checked::new", ("layers",), BY_BYTES.at_most(ONCE), LINEAR),
    Row("merge_bases", ("lines", "tower", "parents", "lists"), N_LOG_N, LINEAR),
    Row("merge_bases", ("padding",), CONSTANT, CONSTANT),
    Row("CheckedGraph::push", (*COMMITS, "padding"), CONSTANT, CONSTANT),
)
"""The calls of Rust. Where a layer is put on top, none of those below is checked once more."""
