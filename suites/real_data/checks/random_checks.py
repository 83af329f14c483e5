"""Checks `check` on graphs at random, damaged ones among them, beside a plain reading of their further chunks."""

import os
import random
import re
import tempfile

from checks import many
from damage import further, trees
from expected.further import checked

GRAPHS = 6000
PART = 250
"""Graphs that one process makes and tries before it takes the next."""

KIND = re.compile(r"refused (?:verify|dates|filters) \d|dates none|dates commits|filters none|filters commits")

KINDS = {"dates none", "dates commits", "filters none", "filters commits", "refused verify 8"}
KINDS |= {"refused dates %d" % row for row in range(1, 6)} | {"refused filters %d" % row for row in range(1, 10)}
"""All that has to come up, each many times; no check here lets memory run out."""


def check_all(histories, results):
    """The checks of some graphs, always the same ones."""
    complaints, kinds = try_all(histories.path, GRAPHS, 1)
    results.check("check, graphs at random (%d runs)" % GRAPHS, complaints[0] if complaints else None)
    left_out = sorted(KINDS - kinds)
    results.check("check, graphs at random, each kind of answer", "none has %s" % left_out if left_out else None)


def try_all(program, count, seed):
    """Tries so many graphs, which the seed alone decides: complaints, and the kinds of answers that had to come."""
    parts = [(program, seed, start, min(PART, count - start)) for start in range(0, count, PART)]
    answers = many.in_processes(try_part, parts)
    return [complaint for _, complaint in answers if complaint], set().union(*(kinds for kinds, _ in answers))


def try_part(program, seed, start, count):
    """Tries some graphs: the kinds of answers that had to come, and a complaint where another came, or None."""
    kinds = set()
    with tempfile.TemporaryDirectory() as folder:
        bench, info = many.Bench(program, folder), os.path.join(folder, "info")
        for number in range(start, start + count):
            graph = further.graph(random.Random("%d %d" % (seed, number)))
            trees.lay_out(info, trees.of_layers(graph.kind, graph.layers))
            text = checked(graph.verified, graph.layers, graph.kind)
            kinds.update(KIND.findall(text))
            complaint = bench.complaint({text}, "check", info)
            if complaint:
                return kinds, "graph %d of seed %d: %s" % (number, seed, complaint)
    return kinds, None
