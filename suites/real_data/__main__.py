"""Checks `graphtool` and `historytool` on real data: commit-graphs that the installed Git writes, and damaged ones.

usage: python3 suites/real_data GRAPHTOOL HISTORYTOOL TEST_FILTERS [every-value] [NAME..]

NAME is a file of the folder `checks`, such as show_checks; without one, all are run that have checks. A program whose path is `-`
is still being built: its path comes as a line of standard input, and the checks that need GRAPHTOOL alone begin before.

- `list`: the listing of each layer, and the refusal of damaged ones.
- `verify`: what it counts in each file and chain, and what it finds wrong with damaged ones, beside
  the verdict of `git commit-graph verify`. Where the two verdicts differ is printed as a table, and has
  to be what differences.py lists. `distinct` and `ancestor` refuse the damaged ones with the same line.
- `find`: where each commit stands, in files and chains that are named in every way.
- `ancestor`: a shortest walk between each pair of commits, or that there is none, as
  `git merge-base --is-ancestor` says, and how many commits were visited: in a line the one right number.
- `is-ancestor` and `walk`: the same pairs and damaged folders, by ids; also with `--unchecked`, where a wrong file may be
  passed, but a `yes` or a walk has to be so by the parents that stand in it.
- `merge-base`: the bases that `git merge-base --all` names, and how many commits are ahead and behind by the
  parents that Git lists; where times are in order, also as `git rev-list --left-right --count` counts them. How many
  were visited lies within the bounds that the parents and the generation numbers give.
  Also of long histories, in a file and in a chain, and of small ones with cycles, beside all walks. `merge-base-ids`
  tells the ids of the same bases. All of that also with `--unchecked`, where each base of a wrong file has to be a common
  ancestor by the parents that stand in it.
- chains in which commits stand in several layers: the same questions beside all walks, which answers are not Git's, and
  what `git cgraph` says beside them. And a chain file with the line ends 0d 0a, which Git does not load.
- `check`: the lines of `verify`, and those of the corrected dates and changed-path filters that Git writes; damaged
  ones by a plain reading, and beside what Git then answers of ancestors and of paths. Each filter has the bits of
  the paths that `git diff-tree` names and of the folders that lead there, and no others. Also of five commits in every
  order, by hand, and of thousands of graphs at random, most of them damaged, by the plain reading.
- the filters of these graphs, asked by the program of `test_calls`: each path that a commit changes is possible, and
  all other answers are those of a plain reading; also of version 2, and where bytes were read as unsigned numbers.
- `paths`: filters that Git writes, with bits cleared or exchanged, by a plain walk through the trees, which Git hands over; trees
  that are missing, damaged, deep or many, and streams that are not what Git writes. Over filters that were damaged at random, beside
  the commits that `git log -- PATH` lists, with the commit-graph and without.
- `ids` and `objects`: right graphs and damaged ones beside the commits as Git writes them, by a plain reading, and beside
  Git's verdict; streams that are cut or changed at each byte; and commits that Git's own commands do not make. Also commits of all
  shapes and times, one at a time, each beside graphs that say what Git reads of it, and others.
- `show`: graphs that Git writes, with dates and filters or without, and damaged ones, by a plain reading; and what
  `git cgraph show` says that they cover, beside Git's own lists, in repositories of every kind.
- `write`: files and layers of the commits that Git lists, in any order: they are those that Git writes, bit by bit, also of
  100,000 commits; and each refusal, of streams that are cut or changed, and on top of wrong graphs.
- `merge`: files and chains of every kind, of one layer up to 256: the file is the one that Git writes of the same commits,
  bit by bit, and thousands at random beside a plain writing; commits that stand twice, cycles and wrong graphs are refused.
- `distinct`: the words of `verify`, and an id that was put into two layers or more, next to one another
  and far apart.
- each byte of three small files, changed to some other values, or with `every-value` to all of them, beside
  a slow reading of the file; two million runs then, which take more than half an hour.
- `ask`, also with `--unchecked`: each question beside the command of its name, at once, over two pipes, over a terminal and
  among noise; and graphs that take the place of one another, right and damaged ones, beside new runs, and while Git writes them.
- `git cgraph`: each word, installed, in repositories of every kind, beside Git's own answers, and what is said
  of damaged ones: of each refusal, and of what happens to files. By the commands that it gives all is right again.
- `git cgraph` beside a process that writes the commit-graph anew all the time: no run refuses it. suites/races makes more
  such runs.
- `git cgraph write`, beside `git commit-graph write --reachable` in a copy of the same repository: the files are the same, bit by
  bit, and Git answers from them as before. Two writers at once, and no room on the disk; and all processes killed before each
  system call that changes a file, by killing.c: the old commit-graph or the new one is there.
- reads of files that give few bytes, fail or end early, by reading.c, and how many reads there are.
- how long walks, merge bases and checks take where two lines of commits share one list of parents, and where a chain is opened anew.
- a file of 300,000 commits, asked by each command, and with one fault late in it, which is named at its position.
- the tables of the folder `tables`: what every command writes for a command line, over small files, to the letter; also byte by byte,
  and where reads of standard input and writes fail. And graphs of every size up to ten, and of 600 commits; dates and filters of as
  many, with a fault late in them.
- surroundings that are hostile: streams, paths, chain files, and every amount of memory.

What an answer has to be is made from Git's own words, `git rev-list --parents` and `git cat-file`,
with Git's use of commit-graphs off; the generations are counted up from the parents. Each comparison
is a check and has a line; the last line is `N passed, M failed`.

A file `checks/..._checks.py` is found by its name. Its function `check_kind` is called for each kind of hash, and
`check_all` once, in a folder of their own, with what their parameters name: see `run_part`.
"""

import glob
import importlib
import inspect
import os
import sys
import tempfile
import time
from concurrent.futures import ProcessPoolExecutor
from functools import partial

HERE = os.path.dirname(os.path.abspath(__file__))
SUITES = os.path.dirname(HERE)
sys.path[:0] = [SUITES, *(os.path.join(os.path.dirname(SUITES), room) for room in ("gate", "building"))]

from checks import rows
from checks.program import LINES, FilterProgram, HistoryProgram, Program
from expected.differences import Differences
from histories.repository import ID_LENGTH, Repository
from later import Later
from results import Results

PARTS = [("check_all", None), *(("check_kind", kind) for kind in ID_LENGTH)]
"""The functions that are called, each with the kind of hash for which it is called, if it is for one."""

LONG = {"case_checks", "cgraph_checks", "table_checks", "unchecked_checks", "write_checks"}
"""The files whose checks take longest. They begin first."""

LONGEST = 12
"""So many of the longest parts are printed at the end with their seconds."""


def main(paths, every_value, names):
    """Runs all checks, or those of some files, on the programs at these paths, and answers the exit status."""
    results, differences, chosen = Results(), Differences(), names or all_names()
    parts = [(name, *part) for part in PARTS for name in chosen if has(name, part[0])]
    parts.sort(key=lambda part: part[0] not in LONG)
    later, times = Later(), []
    alone = [part for part in parts if "-" in paths[1:] and not needs_others(part)]
    with ProcessPoolExecutor() as pool:
        begun = [(part, begin(pool, paths, every_value, part)) for part in alone]
        paths = [later.path(path) for path in paths]
        if all(paths):
            begun += [(part, begin(pool, paths, every_value, part)) for part in parts if part not in alone]
        for part, ended in begun:
            counted, seen, lines, seconds = ended.result()
            results.add(counted)
            differences.add(seen)
            LINES.update(lines)
            times.append((seconds, "%s %s" % (part[0], part[2] or "")))
    results.check("each program is built", None if all(paths) else "no path of it came")
    idle = sorted(set(chosen).difference(part[0] for part in parts))
    results.check("each file has checks", "none in %s" % ", ".join(idle) if idle else None)
    if not names:
        differences.check(results)
        rows.check_rows(results)
    for seconds, part in sorted(times, reverse=True)[:LONGEST]:
        print("%5.0f s  %s" % (seconds, part))
    return results.finish()


def all_names():
    """The names of the files with checks."""
    return sorted(os.path.basename(path)[:-3] for path in glob.glob(os.path.join(HERE, "checks", "*_checks.py")))


def has(name, function):
    """Whether a file has a function of this name."""
    return hasattr(importlib.import_module("checks." + name), function)


def parameters(part):
    """What a part takes."""
    return inspect.signature(getattr(importlib.import_module("checks." + part[0]), part[1])).parameters


def needs_others(part):
    """Whether it takes another program than `graphtool`."""
    return bool({"histories", "programs", "asker"}.intersection(parameters(part)))


def begin(pool, paths, every_value, part):
    """Has a process call the function of a part."""
    return pool.submit(run_part, [os.path.abspath(path) for path in paths], every_value, *part)


def run_part(paths, every_value, name, function, kind):
    """Calls a function of a file, in a process of its own: the results, where Git's verdict differs, the first lines of all
    answers, and how many seconds it took. A new repository comes from a function `new` of its name, or of its kind of hash and its
    name.
    """
    started = time.monotonic()
    program, histories, asker = Program(paths[0]), HistoryProgram(paths[1]), FilterProgram(paths[2])
    results, differences = Results(), Differences()
    check = getattr(importlib.import_module("checks." + name), function)
    with tempfile.TemporaryDirectory() as folder:
        os.chmod(folder, 0o755)
        given = {
            "program": program,
            "histories": histories,
            "programs": (program, histories),
            "asker": asker,
            "results": results,
            "differences": differences,
            "folder": folder,
            "new": partial(new_repository, folder, *([kind] if kind else [])),
            "every_value": every_value,
        }
        check(**{parameter: given[parameter] for parameter in parameters((name, function)) if parameter in given})
    return results, differences, LINES, time.monotonic() - started


def new_repository(folder, object_format, name):
    """A new repository with its own folder."""
    return Repository(os.path.join(folder, "%s %s" % (object_format, name)), object_format)


if __name__ == "__main__":
    EVERY_VALUE = sys.argv[4:5] == ["every-value"]
    NAMES = sys.argv[4 + EVERY_VALUE :]
    if len(sys.argv) < 4 or not set(NAMES).issubset(all_names()):
        sys.exit(__doc__)
    sys.exit(main(sys.argv[1:4], EVERY_VALUE, NAMES))
