"""Checks that the programs answered, in the course of all checks, with the line of each row of tables/refusals.tsv."""

import refusals
from checks.program import LINES
from checks.word_checks import BAD_DEVICE, fails_to_read

TOO_LARGE = {"refused open 6 graph 2", "refused file 14", "refused newer 9"}
"""Lines for files of many gigabytes and for billions of commits, which no check here makes."""

NO_MEMORY = "memory ran out"
"""The beginning of rows whose lines depend on the machine; suites/refused_memory has them all."""

ELSEWHERE = {"anew", "no-answer", "git", "advice"}
"""Tables with rows of no line, of lines on standard error and of lines of `git cgraph`, which suites/wrappers has, and of
the library, which suites/bindings has."""


def check_rows(results):
    """The checks of all rows, once all else was run."""
    rows = refusals.read_rows()
    without = [line for command, line in LINES if refusals.row_of(rows, line, command) is None]
    results.check("each line has a row in tables/refusals.tsv", "none has %r" % without if without else None)
    reached = {refusals.row_of(rows, line, command) for command, line in LINES}
    reached |= {refusals.row_of(rows, refusals.detail_of(line)) for _, line in LINES if refusals.detail_of(line)}
    for row in rows:
        left_out = row.text in TOO_LARGE or row.happened.startswith(NO_MEMORY)
        if row.table not in ELSEWHERE and not left_out:
            may_be = row.text != "refused open 3" or fails_to_read(BAD_DEVICE)
            complaint = "no check has it" if may_be and row not in reached else None
            results.check("the line %s, from %s" % (row.text, row.command or "any command"), complaint)
