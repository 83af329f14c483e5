"""Files in which a generation, a time or the parents of a commit are wrong.

They are made from the same right file as those of named.py.
"""

from damage.layer import big_endian
from damage.original import NO_PARENT, TOP_BIT, Original
from damage.wrong import Wrong, judged, passed, unverified
from expected.listing import GREATEST_GENERATION


def all_wrong(file):
    """All such files that are made from a right one."""
    return [wrong for maker in (dates, parent_fields, parents_of_others, edges) for wrong in maker(file)]


def dates(file):
    """Damages of generations and times."""
    tip, root = file.childless(), file.with_parents_of_number(0)
    middle = file.with_parents_of_number(3)
    greatest = [GREATEST_GENERATION] * len(file.parents)
    date = file.number_at(file.fields(4) + 8, 8)
    generations = {
        "generations of 0": [0] * len(greatest),
        "generations of the greatest number": greatest,
        "a tip's generation of 0": file.regenerated(tip, lambda _: 0),
        "a tip's generation one too low": file.regenerated(tip, lambda right: right - 1),
        "a tip's generation one too high": file.regenerated(tip, lambda right: right + 1),
        "a merge's generation one too low": file.regenerated(middle, lambda right: right - 1),
        "a merge's generation one too high": file.regenerated(middle, lambda right: right + 1),
        "a root's generation of 0": file.regenerated(root, lambda _: 0),
        "a root's generation of 2": file.regenerated(root, lambda _: 2),
    }
    return [wrong_generations(file, *pair) for pair in generations.items()] + [
        cycle(file),
        passed(file, "another time than the commit's", file.with_date(4, big_endian(date ^ 1, 8))),
    ]


def beside_dates(file):
    """Wrong generations in a file with corrected dates."""
    tip = file.childless()
    return [
        wrong_generations(file, "%s generation beside dates" % name, file.regenerated(tip, change))
        for name, change in (
            ("a low", lambda right: right - 1),
            ("a high", lambda right: right + 1),
            ("no", lambda _: 0),
        )
    ]


def cycle(file):
    """A file of which a root is its own parent, and in which all generations are the greatest number."""
    root, places = file.with_parents_of_number(0), file.parent_places()
    places[root] = [root]
    changed = Original(file.with_parent(root, 0, root), file.object_format, file.listing)
    greatest = [GREATEST_GENERATION] * len(places)
    return Wrong("a cycle of the greatest generations", changed.with_generations(greatest), judged(places, greatest))


def wrong_generations(file, name, generations):
    """A file with other generations."""
    return Wrong(name, file.with_generations(generations), judged(file.parent_places(), generations))


def parent_fields(file):
    """Damages of the parent fields, after which a commit's parents do not decode or are not there."""
    root, merge = file.with_parents_of_number(0), file.with_parents_of_number(2)
    octopus, single = file.with_parents_of_number(3), file.with_parents_of_number(1)
    commits, words = len(file.parents), len(file.outline.chunks["EDGE"]) // 4
    found = [
        fault_at(root, 1, "a second parent of a root", file.with_parent(root, 1, 0)),
        fault_at(merge, 1, "a second parent alone", file.with_parent(merge, 0, NO_PARENT)),
        fault_at(merge, 2, "an index as first parent", file.with_parent(merge, 0, TOP_BIT)),
        fault_at(octopus, 4, "an index out of range", file.with_parent(octopus, 1, TOP_BIT + words)),
        fault_at(octopus, 4, "the greatest index", file.with_parent(octopus, 1, 2 * TOP_BIT - 1)),
    ]
    for name, position in (("a root", root), ("a commit", single), ("a merge", merge), ("an octopus merge", octopus)):
        for parent in (commits, NO_PARENT - 1, NO_PARENT + 1, TOP_BIT - 1):
            title = "the parent %d of %s" % (parent, name)
            found.append(no_parent(position, parent, title, file.with_parent(position, 0, parent)))
    beyond = file.with_parent(merge, 1, commits)
    return found + [no_parent(merge, commits, "a second parent out of range", beyond)]


def fault_at(position, error, name, layer):
    """A file with a commit whose parents do not decode."""
    return unverified(name, layer, 6, "position", position, "error", error)


def no_parent(position, parent, name, layer):
    """A file with a commit whose parent is in no layer."""
    return unverified(name, layer, 7, "position", position, "parent", parent)


def parents_of_others(file):
    """Damages of the parent fields, after which a commit has other parents."""
    root, merge, single = (file.with_parents_of_number(count) for count in (0, 2, 1))
    tip, places = file.childless(), file.parent_places()
    first, second = places[merge]
    level = file.generations.index
    return [
        other_parents(file, "a root with a parent", root, [tip]),
        other_parents(file, "a commit as its own parent", single, [single]),
        other_parents(file, "a commit with no parent", single, []),
        other_parents(file, "a commit with a parent of another generation", single, [tip]),
        other_parents(file, "a merge with one parent", merge, [first]),
        other_parents(file, "a merge with its parents exchanged", merge, [second, first]),
        other_parents(file, "a merge with a parent twice", merge, [first, first]),
        other_parents(file, "a merge with a parent of a low generation", merge, [first, root]),
        other_parents(file, "a merge with another's parents", merge, [level(2), level(2)]),
        other_parents(file, "a commit with a second parent", single, places[single] + [root]),
    ]


def other_parents(file, name, position, parents):
    """A file in which a commit has other parents, at most two."""
    fields = (parents + [NO_PARENT] * 2)[:2]
    at = file.fields(position)
    layer = file.patched((at, b"".join(big_endian(field, 4) for field in fields)))
    places = file.parent_places()
    places[position] = parents
    return Wrong(name, layer, judged(places, file.generations))


def edges(file):
    """Damages of the list of extra edges, which two merges have words in."""
    first, last = sorted((file.with_parents_of_number(3), file.with_parents_of_number(4)))
    commits, places = len(file.parents), file.parent_places()
    cut, turned = file.parent_places(), file.parent_places()
    cut[first] = places[first][:2]
    turned[last][-2:] = reversed(places[last][-2:])
    end = file.outline.chunks["EDGE"].stop
    ended = file.with_edge(0, lambda word: word + TOP_BIT)
    words = big_endian(turned[last][-2], 4) + big_endian(TOP_BIT + turned[last][-1], 4)
    return [
        no_parent(first, commits, "an edge out of range", file.with_edge(0, lambda _: commits)),
        no_parent(last, commits, "a last edge out of range", file.with_edge(-1, lambda _: TOP_BIT + commits)),
        no_parent(first, NO_PARENT, "the field of no parent as an edge", file.with_edge(0, lambda _: NO_PARENT)),
        fault_at(last, 4, "a list of edges with no end", file.with_edge(-1, lambda word: word - TOP_BIT)),
        Wrong("an edge that ends a list", ended, judged(cut, file.generations)),
        Wrong("two edges exchanged", file.patched((end - 8, words)), judged(turned, file.generations)),
    ]
