"""The table of commands in docs/PROGRAMS.md, and what is made of it: `python3 gate/commands.py --write` writes tables/commands, and the
usage texts of the programs, and without a word it says which are not what the table makes.
"""

import os
import re
import sys
from typing import List, NamedTuple

TOP = os.path.dirname(os.path.dirname(os.path.abspath(__file__)))
DOCUMENT, TABLE = "docs/PROGRAMS.md", "tables/commands"
PROGRAMS = {"graphtool": "", "historytool": " | --help | --version"}
"""The programs, each with what stands behind the commands in its usage text."""

ROW = re.compile(r"^\| `(\w+) ([a-z-]+)((?: [^`]+)?)` \| (.*) \| (yes|no) \|$", re.MULTILINE)
READS = {
    **{"": "input", " PATH": "path", " [PATH]": "optional", " [--unchecked] PATH": "trusted"},
    **{" [--unchecked] [--newer] PATH": "newer", " [--exact] [--trees N] PATH": "limited"},
}
"""What a command reads, by the words before its ids."""

IDS = re.compile(r"((?: HEX)*(?:\.\.)?| \[FROM TO\])$")
WIDTH, INDENT = 100, 4
"""The widest line of code, and how far lines of a text in it are indented."""


class Command(NamedTuple):
    """A row of the table: the program, the word, what stands behind that, what the command does, and whether `git cgraph` has it."""

    program: str
    word: str
    operands: str
    about: str
    by_git: str

    def row(self) -> str:
        """Its row in tables/commands."""
        ids = IDS.search(self.operands).group()
        taken = "range" if "FROM" in ids else "%d%s" % (ids.count("HEX"), "+" * ids.endswith(".."))
        reads = READS[self.operands[: len(self.operands) - len(ids)]]
        return "%-15s %-12s %-8s %-5s %-3s %s" % (self.word, self.program, reads, taken, self.by_git, self.about)


def commands_of(document) -> List[Command]:
    """The commands, as the rows of the document have them."""
    return [Command(*found) for found in ROW.findall(document.replace("\\|", "|"))]


def made(texts):
    """What each file becomes that is made of the table."""
    commands = commands_of(texts[DOCUMENT])
    comment = "".join(line for line in texts[TABLE].splitlines(True) if line.startswith("#"))
    files = {TABLE: comment + "".join(command.row() + "\n" for command in commands)}
    for program in PROGRAMS:
        path = main_of(program)
        files[path] = told(texts[path], program, [command for command in commands if command.program == program])
    return files


def main_of(program):
    """The path of a program's source."""
    return "crates/%s/src/main.rt" % program


def told(text, program, commands):
    """The source of a program with the usage text that these commands make, which its help begins with too."""
    usage = "usage: %s %s%s" % (program, " | ".join(command.word + command.operands for command in commands), PROGRAMS[program])
    for name, end in (("USAGE", "\";"), ("HELP", "\\n\\")):
        begun = "const %s: &str = \"" % name
        made_of_it = folded(usage, begun, end) + end + "\n"
        text = re.sub("(?<=^%s)usage: .*?%s\\n" % (re.escape(begun), re.escape(end)), lambda _: made_of_it, text, 1, re.M | re.S)
    return text


def folded(text, begun, end):
    """A usage text in code, behind what its first line begins with and before what ends the last one, in as many lines as it needs."""
    lines, room = [begun], WIDTH - len(" \\")
    for place, part in enumerate(text.split(" | ")):
        added = part if place == 0 else " | " + part
        if len(lines[-1] + added + end) > room and place > 0:
            lines.append(" " * INDENT + added.lstrip())
        else:
            lines[-1] += added
    return " \\\n".join(lines)[len(begun) :]


def stale(texts):
    """The files that are not what the table makes of them, or that the table, which has no rows, cannot make."""
    if not commands_of(texts[DOCUMENT]):
        yield "%s has no commands" % DOCUMENT
    yield from (path for path, text in made(texts).items() if text != texts[path])


def main(words):
    """Writes what the table makes, or says what is not that, and answers the exit status."""
    if words not in ([], ["--write"]):
        print("usage: gate/commands.py [--write]", file=sys.stderr)
        return 2
    texts = read_texts()
    others = {path: text for path, text in made(texts).items() if text != texts[path]}
    for path, text in others.items():
        print(path)
        if words:
            with open(os.path.join(TOP, path), "w", encoding="utf-8", newline="") as file:
                file.write(text)
    return 0 if words or not others else 1


def read_texts():
    """The document, and all that is made of its table."""
    texts = {}
    for path in (DOCUMENT, TABLE, *map(main_of, PROGRAMS)):
        with open(os.path.join(TOP, path), encoding="utf-8", newline="") as file:
            texts[path] = file.read()
    return texts


if __name__ == "__main__":
    sys.exit(main(sys.argv[1:]))
