"""Checks dates and filters of 600 commits in a line, in one layer and in three: more than are looked at in one go. The faults stand
late.

Commit i was made at 9000 - i, and its parent is commit i - 1: so its corrected date is 9000 + i, which is stored as 2 i. Every fifth
commit has no filter, and the others have one of a byte, in which each path is possible where i is odd, and none where it is even.
"""

import os
from functools import partial

from checks.runs import check_runs
from damage import built, examples
from damage.built import TOP_BIT, Commit
from damage.layer import big_endian
from expected import judge
from histories.repository import write_bytes

COMMITS = 600
STOPS = ([600], [300, 590, 600])
"""Where the layers end, the lowest first."""

LATE = (256, 299, 517, 599)
"""Commits with a fault."""

VERIFIED = "ok commits 600 longest 599\nparents 0 commits 1\nparents 1 commits 599\n"
WITH_DATES = VERIFIED + "dates commits 600\nfilters none\n"
WITH_FILTERS = VERIFIED + "dates none\nfilters commits 480\n"

PATH = b"folder/file"
SETTINGS = (1, 7, 10)
LARGEST = 2**32 - 1


def check_all(histories, asker, results, folder):
    """The checks of dates and of filters, in layers of each kind."""
    for number, stops in enumerate(STOPS):
        place = partial(os.path.join, folder, str(number))
        runs = [run(histories, place("dates %d" % at), of_layers(stops, *row)) for at, row in enumerate(wrong_dates())]
        check_runs(results, "check, late dates, %d layers" % len(stops), runs)
        runs = [run(histories, place("filters %d" % at), of_layers(stops, *row)) for at, row in enumerate(wrong_filters())]
        check_runs(results, "check, late filters, %d layers" % len(stops), runs)
        complaint = judge.exactly(0, "".join(map(answer, range(COMMITS))), "", asked(asker, place("asked"), stops))
        results.check("filters of 600 commits, %d layers" % len(stops), complaint)


def wrong_dates():
    """The further chunks of some commits, by their numbers, and what `check` says of all: of right dates, and of a late one that is
    wrong."""
    yield partial(dates, {}), WITH_DATES
    for late in LATE:
        for word in (0, 2 * late - 1, 2 * late + 1):
            yield partial(dates, {late: word}), "refused dates 5 position %d expected %d\n" % (late, 9000 + late)
        yield partial(dates, {late: TOP_BIT}), "refused dates 3 position %d\n" % late


def wrong_filters():
    """The same of filters."""
    yield partial(filters, {}), WITH_FILTERS
    for late in LATE:
        yield partial(filters, {late: 0}), "refused filters 6 position %d\n" % late
        yield partial(filters, {late: LARGEST}), "refused filters 7 position %d\n" % late


def dates(words, numbers):
    """The chunk of the dates of commits, some of them with another word."""
    return [examples.dates([words.get(number, 2 * number) for number in numbers])]


def filters(words, numbers):
    """The chunks of the filters of commits, some of them with another word in the index."""
    index, content = [], b""
    for number in numbers:
        content += b"" if number % 5 == 0 else b"\xff" if number % 2 else b"\x00"
        index.append(words.get(number, len(content)))
    return examples.filters(index, SETTINGS, content)


def answer(number):
    """What the filter of a commit answers."""
    return "NotComputed\n" if number % 5 == 0 else "Possible\n" if number % 2 else "Absent\n"


def of_layers(stops, further, text=None):
    """The files of layers that end there, with further chunks, and a text."""
    files, start = [], 0
    for stop in stops:
        plain = built.file_of("sha1", [commit(number) for number in range(start, stop)], [below[-20:] for below in files])
        files.append(examples.further_chunks(plain, *further(range(start, stop))))
        start = stop
    return files, text


def commit(number):
    """A commit by its number."""
    parents = (number - 1,) if number else ()
    return Commit(big_endian(number + 1, 4) + bytes(16), parents, number + 1, 9000 - number)


def run(histories, path, said):
    """The run of `check` on a graph, and the judge of its answer."""
    files, text = said
    examples.lay_out(path, examples.chain_of("graphs", files) if len(files) > 1 else {"graphs": files[0]})
    return partial(histories.check, os.path.join(path, "graphs")), partial(judge.verdict, text)


def asked(asker, path, stops):
    """What the right filters answer of a path."""
    os.makedirs(path)
    files, _ = of_layers(stops, partial(filters, {}))
    paths = [os.path.join(path, str(number)) for number in range(len(files))]
    for place, content in zip(paths, files):
        write_bytes(place, content)
    return asker.ask(paths, [PATH])
