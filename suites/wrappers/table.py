"""The commands, as tables/commands lists them."""

import os
from typing import List, NamedTuple

from wrappers.clone import TOP


class Command(NamedTuple):
    """A row of the table: a word, its program, what it reads, how many ids it takes, if `git cgraph` has it,
    what it does."""

    word: str
    program: str
    reads: str
    ids: str
    by_git: bool
    about: str

    def least(self) -> int:
        """How many ids the command takes at least."""
        return 0 if self.takes_range() else int(self.ids.rstrip("+"))

    def takes_more(self) -> bool:
        """Whether it takes any number of further ids."""
        return self.ids.endswith("+")

    def may_be_unchecked(self) -> bool:
        """Whether `--unchecked` may stand before its path."""
        return self.reads in ("trusted", "newer")

    def takes_range(self) -> bool:
        """Whether it takes two positions, or none."""
        return self.ids == "range"

    def operands(self, number=None) -> List[str]:
        """A path, if the command reads one or may read one before ids, and so many ids, or as few as it takes."""
        ids = self.least() if number is None else number
        has_path = self.reads in ("path", "limited") or self.may_be_unchecked() or self.reads == "optional" and ids > 0
        return ["."] * has_path + [str(number) for number in range(ids)]


def commands(program=None):
    """All commands, or those of a program."""
    with open(os.path.join(TOP, "tables", "commands"), encoding="utf-8") as file:
        rows = [line.split(None, 5) for line in file if not line.startswith("#")]
    listed = [Command(*row[:4], row[4] == "yes", row[5].strip()) for row in rows]
    return [command for command in listed if program in (None, command.program)]


def usage(program):
    """The usage text of a program."""
    parts = []
    for command in commands(program):
        words = {"path": "PATH", "optional": "[PATH]", "trusted": "[--unchecked] PATH", "newer": "[--unchecked] [--newer] PATH"}
        words["limited"] = "[--exact] [--trees N] PATH"
        path = words.get(command.reads, "").split()
        more = ".." if command.takes_more() else " [FROM TO]" if command.takes_range() else ""
        parts.append(" ".join([command.word, *path, *["HEX"] * command.least()]) + more)
    return "usage: %s %s" % (program, " | ".join(parts))
