"""Counts what each command, each question, each call of the library for C, and calls of Rust that none of them makes, cost on histories
that are made to do harm, each of three sizes, and compares how that grows with a table.

usage: python3 suites/costs [--large] [GRAPHTOOL HISTORYTOOL TEST_CALLS LIBRARY] [NAME..]

The table is `table.py`, and the histories are in `shapes.py`: many layers, many parents, others and words of one list, ids that are
alike in front or spread unevenly, one commit on top of many, and few commits with many bytes. Valgrind counts instructions, the same on
each machine, however busy it is, and counting.c bytes of memory. Only how they grow is compared, so what is the same at each size
counts for nothing. Each answer has to be the one of the plan too. A check refuses a question without a row. A command without one may
cost what a check of its graph does, and a call no more, however large the graph is.

Without the programs and the shared library, `building/program` and `building/library` find them, and prove and build them first where
a source is newer. A path `-` comes as a line of standard input. NAME is that of a shape, as tower, or of a row, as `ask walk`: then
only these are counted. With `--large` each size is four times as large, or what a chain may have. Where valgrind or a C compiler is
missing, a line says so, and nothing is counted. The last line is `N passed, M failed`.
"""

import os
import shutil
import sys
import tempfile
from functools import partial

SUITES = os.path.dirname(os.path.dirname(os.path.abspath(__file__)))
sys.path[:0] = [SUITES, os.path.join(os.path.dirname(SUITES), "gate")]

from costs import measured, shapes, table
from later import Later
from results import Results
from sizes import built, coverage
from sizes import table as asked

STEPS = 1, 2, 4
"""Each shape has so many times its first size."""

LARGE = 4
"""So many times as large is each size where the largest are asked for."""

CHANCE = {"instructions": 5000, "memory": 600}
"""So much of the growth of a cost may come by chance, as by how an id falls."""

ROWS = [*table.COMMANDS, *table.QUESTIONS, *table.CALLS, *table.RUST_CALLS]


def main(paths, times, names):
    """Counts the costs of all rows, or of those of some names, and answers the exit status."""
    results, later = Results(), Later()
    coverage.check(results, "each command, question and call has a row", [row.asked() for row in ROWS if row not in table.RUST_CALLS])
    unknown = {name for row in ROWS for name in row.shapes}.difference(table.SIZES)
    results.check("each shape of a row has a size", "there is no %s" % sorted(unknown) if unknown else None)
    # What writes the paths needs a reader, also where nothing is counted.
    given, lacking = [later.path(path) for path in paths], measured.lacking()
    if lacking:
        print("left out, since there is no %s: how the costs of commands, questions and calls grow" % lacking)
        return results.finish()
    found = given or built.paths()
    results.check("each program and the library are built", None if all(found) else "no path of one came")
    if all(found):
        count_all(results, found, times, names)
    return results.finish()


def count_all(results, found, times, names):
    """Counts the costs of the programs and the library at these paths, for one shape after another."""
    tools = built.by_command(found), os.path.splitext(os.path.abspath(found[-1]))[0] + ".a"
    with tempfile.TemporaryDirectory() as folder:
        counter = measured.Counter(folder)
        for name in chosen(names):
            size = times * table.SIZES[name]
            made = laid_out(name, os.path.join(folder, name), min(size, table.MOST.get(name, size)))
            Counts(results, counter, made, tools, names).run()
            shutil.rmtree(os.path.join(folder, name))


def chosen(names):
    """The shapes of some names, or those that the rows of some names are about; or all."""
    asked_about = {shape for row in ROWS if row.name in names for shape in row.shapes}
    return [name for name in table.SIZES if name in names] or [name for name in table.SIZES if name in asked_about] or table.SIZES


def laid_out(name, folder, size):
    """The three sizes of a shape, in files."""
    made = [getattr(shapes, name)(step * size) for step in STEPS]
    for step, shape in zip(STEPS, made):
        shape.name = name
        shape.lay_out(os.path.join(folder, str(step)))
    return made


class Counts:
    """Counts the costs of all rows for one shape, or of those of some names."""

    def __init__(self, results, counter, made, tools, names):
        self.results, self.counter, self.made = results, counter, made
        self.programs, self.archive = tools
        self.parents = [sum(map(len, shape.plan.parents[: shape.count])) for shape in made]
        self.names = {row.name for row in ROWS}.intersection(names) or {row.name for row in ROWS}

    def of(self, rows):
        """Those of some rows that are for this shape."""
        return [row for row in rows if row.name in self.names and self.made[0].name in row.shapes]

    def run(self):
        """Counts them."""
        for row in self.of(table.COMMANDS):
            self.judge([row], partial(self.of_command, row))
        for flags in ([], ["--unchecked"]):
            rows = [row for row in self.of(table.QUESTIONS) if row.flags() == flags]
            self.judge(rows, partial(self.of_questions, rows, flags))
        for row in self.of(table.RUST_CALLS):
            self.judge([row], partial(self.of_rust, row))
        rows = self.of(table.CALLS)
        self.judge(rows, lambda: self.counter.of_calls(self.archive, [row.name for row in rows], self.made))

    def of_command(self, row):
        """What the command of a row costs at each size."""
        told = named(asked.COMMANDS, row)
        return [{row.name: self.counter.of_command(self.programs, told, shape)} for shape in self.made]

    def of_rust(self, row):
        """What the call of Rust of a row costs at each size."""
        told = named(asked.RUST_CALLS, row)
        return [{row.name: self.counter.of_rust(self.programs[asked.RUST], told, shape)} for shape in self.made]

    def of_questions(self, rows, flags):
        """What the questions of some rows cost at each size."""
        told = [named(asked.QUESTIONS, row) for row in rows]
        return [self.counter.of_questions(self.programs["ask"], told, shape, flags) for shape in self.made]

    def judge(self, rows, count):
        """Counts what some rows cost, and two checks of each: how its instructions and its memory grow."""
        try:
            told = count() if rows else []
        except measured.Wrong as wrong:
            told = [dict.fromkeys([row.asked().name for row in rows], str(wrong))]
        for row in rows:
            self.judge_row(row, [costs[row.asked().name] for costs in told])

    def judge_row(self, row, costs):
        """Counts the checks of a row, or one where it was not counted."""
        wrong = next((cost for cost in costs if isinstance(cost, str)), None)
        if wrong:
            self.results.check("%s: %s" % (self.made[0].name, row.name), wrong)
            return
        measures = {"size": STEPS, "squares": [step**2 for step in STEPS], "doublings": range(len(STEPS)), "parents": self.parents}
        measures["bytes"] = [cost.bytes for cost in costs]
        for part, growth in (("instructions", row.instructions), ("memory", row.memory)):
            counted = [getattr(cost, part) for cost in costs]
            said = "%s: %s, %s: %s for %s bytes" % (self.made[0].name, row.name, part, listed(counted), listed(measures["bytes"]))
            self.results.check(said, None if growth.is_kept(measures, counted, CHANCE[part]) else "not " + str(growth))


def listed(numbers):
    """The text of three numbers."""
    return "%d, %d and %d" % tuple(numbers)


def named(rows, row):
    """What a row of this table asks: the row of its name in the other."""
    return next(other for other in rows if other.name == row.asked().name)


if __name__ == "__main__":
    KNOWN = {*table.SIZES, *(row.name for row in ROWS)}
    WORDS = built.read([word for word in sys.argv[1:] if word != "--large"], KNOWN)
    if WORDS is None:
        sys.exit(__doc__)
    sys.exit(main(WORDS[0], LARGE if "--large" in sys.argv[1:] else 1, WORDS[1]))
