"""Runs of `distinct`, `ancestor`, `check` and others beside one of `verify`: all check a graph before all else."""

import re

DUPLICATE = re.compile(rb"refused verify 11 position \d+ earlier \d+\n")
"""The line by which `distinct` refuses a graph that `verify` passes."""

FURTHER = re.compile(rb"refused (dates|filters) [^\n]*\n")
"""The line by which `check` refuses a graph that `verify` passes."""

TOLD = rb"dates (none|commits \d+)\nfilters (none|commits \d+)\n"
"""The lines of `check` after those of `verify`."""

UNKNOWN = "e" * 40
"""An id that no graph of these checks has."""


def complaint(program, path, verified):
    """None where `distinct` and `ancestor` of a path agree with what `verify` answered, or else a complaint.

    A refusal is the same in all three. A graph that passes has the same counts for `distinct`, unless an id
    stands in two layers; and `ancestor` is right that an id which is nowhere is unknown.
    """
    distinct, ancestor = program.distinct(path), program.ancestor(path, UNKNOWN, UNKNOWN)
    unknown = verified._replace(status=1, out=b"unknown 1\n") if verified.status == 0 else verified
    if distinct != verified and not (verified.status == 0 and is_duplicate(distinct)):
        return "distinct: status %s and %r, beside %r" % (distinct.status, distinct.out[:60], verified.out[:60])
    if ancestor != unknown:
        return "ancestor: status %s and %r, beside %r" % (ancestor.status, ancestor.out[:60], verified.out[:60])
    return None


def complaint_of_questions(histories, path, verified):
    """None where `is-ancestor`, `walk`, `merge-base` and `check` of a path refuse what `verify` refused, or else a complaint. A
    graph that is not checked may be refused so.

    Of a graph that passes the first three say, as `ancestor` does, that an id which is nowhere is unknown; and `check`
    begins with the lines of `verify`, or refuses its dates or its filters.
    """
    unknown = verified._replace(status=1, out=b"unknown 1\n") if verified.status == 0 else verified
    runs = {"is-ancestor": histories.is_ancestor, "walk": histories.walk, "merge-base": histories.merge_base}
    for name, run in runs.items():
        answer = run(path, UNKNOWN, UNKNOWN)
        if answer != unknown:
            return "%s: status %s and %r, beside %r" % (name, answer.status, answer.out[:60], verified.out[:60])
    runs = {"is-ancestor": histories.is_ancestor_unchecked, "walk": histories.walk_unchecked}
    runs["merge-base"] = histories.merge_base_unchecked
    for name, run in runs.items():
        answer = run(path, UNKNOWN, UNKNOWN)
        if answer not in (unknown, verified._replace(status=1, out=b"unknown 1\n")):
            return "%s --unchecked: status %s and %r, beside %r" % (name, answer.status, answer.out[:60], verified.out[:60])
    answer = histories.check(path)
    further = FURTHER if answer.status else re.compile(re.escape(verified.out) + TOLD)
    if answer != verified and not (verified.status == 0 and not answer.err and further.fullmatch(answer.out)):
        return "check: status %s and %r, beside %r" % (answer.status, answer.out[:60], verified.out[:60])
    return None


def is_duplicate(answer):
    """Whether an answer is the refusal of an id that stands in two layers."""
    return answer.status == 1 and not answer.err and DUPLICATE.fullmatch(answer.out) is not None
