"""Asks each command, each question, each call of the library for C, and calls of Rust that none of them makes, about histories of every
size that may be too large for something, and compares the answers with the plans of the histories.

usage: python3 suites/sizes [--large] [GRAPHTOOL HISTORYTOOL TEST_CALLS LIBRARY] [NAME..]

The table is `table.py`, and the histories are in `shapes.py`: 300,040 commits with walks and searches of more than 200,000, a
commit with 2,000 parents, 100 ids in one question, commits of 20 MB, a filter of 100 KiB, a chain of 256 layers, and a file of 100
MB; each with SHA-1 and with SHA-256 ids. A check refuses a command, a question or a call that no row asks. Git has to find the
smaller histories right, and to name the same merge bases.

Without the programs and the shared library, `building/program` and `building/library` find them, and prove and build them first where
a source is newer. A path `-` comes as a line of standard input. NAME is that of a shape, as octopus, or of a row, as `ask walk`: then
only these are asked. With `--large` the largest file is asked about by all rows, and not
only by those that read little of it or are cheap. The last line is `N passed, M failed`.
"""

import multiprocessing
import os
import sys
import tempfile

SUITES = os.path.dirname(os.path.dirname(os.path.abspath(__file__)))
sys.path[:0] = [SUITES, os.path.join(os.path.dirname(SUITES), "gate")]

from later import Later
from results import Results
from sizes import asking, built, coverage, git, shapes, table
from sizes.planned import ID_SIZE


def main(paths, large, names):
    """Runs all rows, or those of some names, and answers the exit status."""
    results, later = Results(), Later()
    found = [later.path(path) for path in paths] if paths else built.paths()
    coverage.check(results, "each command, question and call has a row", [*table.COMMANDS, *table.QUESTIONS, *table.CALLS])
    results.check("each program and the library are built", None if all(found) else "no path of one came")
    if all(found):
        chosen = [make for make in shapes.ALL if make.__name__ in names] or shapes.ALL
        rows = asking.Rows(built.by_command(found), os.path.abspath(found[-1]), large, names)
        for kind in ID_SIZE:
            for make in chosen:
                run_apart(results, make, kind, rows)
    return results.finish()


def run_apart(results, make, kind, rows):
    """Asks about a shape in a process of its own, which gives its memory back, and which a call may end."""
    receiver, sender = multiprocessing.Pipe(duplex=False)
    child = multiprocessing.Process(target=run_shape, args=(sender, make, kind, rows))
    child.start()
    sender.close()
    try:
        results.add(receiver.recv())
        child.join()
    except EOFError:
        child.join()
        results.check("%s, %s" % (make.__name__, kind), "the calls ended the process, with status %s" % child.exitcode)


def run_shape(sender, make, kind, rows):
    """Makes a shape, asks about it, and sends the results."""
    results = Results()
    with tempfile.TemporaryDirectory() as folder:
        shape = make(kind)
        shape.lay_out(folder)
        git.check(results, shape)
        rows.ask(results, shape)
    sender.send(results)


if __name__ == "__main__":
    KNOWN = {make.__name__ for make in shapes.ALL}.union(row.name for row in table.ROWS)
    WORDS = built.read([word for word in sys.argv[1:] if word != "--large"], KNOWN)
    if WORDS is None:
        sys.exit(__doc__)
    sys.exit(main(WORDS[0], "--large" in sys.argv[1:], WORDS[1]))
