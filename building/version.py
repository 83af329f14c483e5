"""Where the number of the version stands, and what changed since the last one.

VERSION has the number, and the line of the kit by which it was proved. The other places agree with it.
"""

import os
import re

TOP = os.path.dirname(os.path.dirname(os.path.abspath(__file__)))
NUMBER = re.compile(r"(\d+)\.(\d+)\.(\d+)")
PLACES = (
    ("VERSION", re.compile(r"^()(\S+)(?=, proved with )")),
    ("crates/historytool/src/main.rt", re.compile(r'^(const VERSION: &str = "historytool )(\S+)(?=, proved with )', re.MULTILINE)),
    ("crates/historytool/stdout", re.compile(r"^(historytool )(\S+)(?=, proved with )")),
    ("cgraph/Cargo.toml", re.compile(r'^(version = ")(.*)(?="$)', re.MULTILINE)),
    ("bindings/rust/Cargo.toml", re.compile(r'^(version = ")(.*)(?="$)', re.MULTILINE)),
)
"""Each file that names the number, and what stands before and after it there."""

AS_ONE = (
    ("bindings/c/commitgraph.h", re.compile(r"^(#define CG_VERSION )(\d+)$", re.MULTILINE)),
    ("crates/commitgraph_c/src/version.rt", re.compile(r"(ensures { result ≡ )(\d+)(?= })")),
    ("crates/commitgraph_c/src/version.rt", re.compile(r"^( +)(\d+)$", re.MULTILINE)),
    ("bindings/python/commitgraph.py", re.compile(r"^(VERSION = )(\d+)$", re.MULTILINE)),
    ("bindings/rust/tests/graph.rs", re.compile(r"(assert_eq!\(commitgraph::version\(\), )(\d+)(?=\);)")),
)
"""The same of the files of the library, in which it is one number: 10203 for 1.2.3."""

CHANGES = "CHANGELOG.md"
UNRELEASED = "## Unreleased\n"
HEADING = re.compile(r"^## (\S+), \d{4}-\d{2}-\d{2}$", re.MULTILINE)
"""The heading of the changes of a released version, with its date."""


def read(path, top=TOP):
    """The text of a file of the repository."""
    with open(os.path.join(top, path), encoding="utf-8") as file:
        return file.read()


def write(path, text, top=TOP):
    """Replaces the text of a file of the repository."""
    with open(os.path.join(top, path), "w", encoding="utf-8") as file:
        file.write(text)


def number(top=TOP):
    """The number of the version."""
    return PLACES[0][1].search(read("VERSION", top)).group(2)


def places(named):
    """Each place of a number, with what stands there."""
    first, second, third = (int(part) for part in NUMBER.fullmatch(named).groups())
    yield from ((*place, named) for place in PLACES)
    yield from ((*place, str(10000 * first + 100 * second + third)) for place in AS_ONE)


def wrong_places(top=TOP):
    """The places that do not name the number of VERSION, and the newest heading of the changes where it is of another."""
    for path, place, wanted in places(number(top)):
        found = place.search(read(path, top))
        if not found or found.group(2) != wanted:
            yield "%s has %s" % (path, found.group(2) if found else "none")
    newest = HEADING.search(read(CHANGES, top))
    if not newest or newest.group(1) != number(top):
        yield "%s begins with %s" % (CHANGES, newest.group(1) if newest else "no version")


def unreleased(top=TOP):
    """The lines of the changes since the last version."""
    _, heading, after = read(CHANGES, top).partition(UNRELEASED)
    return after.partition("\n## ")[0].strip() if heading else ""


def put(to, date, top=TOP):
    """Writes a number into all places, and makes the unreleased changes those of that version, with a date."""
    for path, place, wanted in places(to):
        write(path, place.sub(lambda found, wanted=wanted: found.group(1) + wanted, read(path, top), count=1), top)
    write(CHANGES, read(CHANGES, top).replace(UNRELEASED, "## %s, %s\n" % (to, date), 1), top)
