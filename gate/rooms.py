"""The rooms, the folders outside of the crates with what runs: each has a README with one line for each of its files."""

import re

ROOMS = {"shell", "tables", "building", "gate", "suites"}
README = re.compile(r"(%s)/README\.md" % "|".join(sorted(ROOMS)))
LINE = re.compile(r"^- `([\w./]+)`: ", re.MULTILINE)
"""A line of a README, with the path of a file in its room."""


def wrong_lines(texts):
    """The files of rooms that their README does not name in just one line, and the lines that name no file."""
    for room in sorted(ROOMS):
        lines = LINE.findall(texts.get(room + "/README.md", ""))
        there = {path[len(room) + 1 :] for path in texts if path.startswith(room + "/") and not README.fullmatch(path)}
        for path in sorted(there | set(lines)):
            if path not in there or lines.count(path) != 1:
                yield "%s/README.md names %s %d times" % (room, path, lines.count(path))
