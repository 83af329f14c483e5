"""The README of each crate, which has its promises, and docs/ARCHITECTURE.md, which leads to them and has the plan of the crates."""

import fnmatch
import re

from documents import LINK, QUOTED, README, highest_crates, used_crates

PLAN = "docs/ARCHITECTURE.md"

ROW = re.compile(r"^\| \[`(\w+)`\]\(\S*\) \| [^|]+ \| ([^|]+) \|$", re.MULTILINE)
"""A row of the plan: a crate, what it is about, and the highest crates that it stands on."""

STANDS_ON = re.compile(r"^Stands on:? (.*?)\.(?: |$)", re.MULTILINE | re.DOTALL)


def missing(texts):
    """The crates that have no README under their name, or one to which the plan does not link."""
    linked = LINK.findall(texts[PLAN])
    for crate in used_crates(texts["crates.txt"]):
        path = "crates/%s/README.md" % crate
        if not texts.get(path, "").startswith("# `%s`\n" % crate) or "../" + path not in linked:
            yield crate


def wrong_grounds(texts):
    """The crates whose README does not name exactly the crates that they stand on, as crates.txt has them: each by its name, or
    by a form, such as `*_commands`.
    """
    for crate, uses in used_crates(texts["crates.txt"]).items():
        said = STANDS_ON.search(texts.get("crates/%s/README.md" % crate, ""))
        names = QUOTED.findall(said.group(1)) if said else []
        named = {use for name in names for use in fnmatch.filter(uses, name) or [name]}
        if not said or named != set(uses):
            yield crate


def wrong_rows(texts):
    """The crates, those of tests aside, of which the plan does not name exactly the highest crates that they stand on, in one row."""
    rows = ROW.findall(texts[PLAN])
    said = {crate: set(QUOTED.findall(highest)) for crate, highest in rows}
    for crate, highest in highest_crates(texts["crates.txt"]).items():
        if not crate.startswith("test_") and (said.get(crate) != highest or [name for name, _ in rows].count(crate) != 1):
            yield "%s stands on %s" % (crate, ", ".join(sorted(highest)))
