"""The table of refusals, tables/refusals.tsv, and the texts that are made of it: `python3 gate/refusal_table.py --write` writes
these anew, and without a word it says which are not what the table makes. tables/README.md says what the columns are.
The lists of errors in code and in definitions are made by `error_lists`.
"""

import ast
import os
import re
import sys
from typing import List, NamedTuple, Optional

import error_lists
from error_lists import beginning_of, in_lines

TOP = os.path.dirname(os.path.dirname(os.path.abspath(__file__)))
TABLE = "tables/refusals.tsv"
TITLES = ("table", "line", "from", "number", "name", "error", "what happened", "in the library", "what to do", "what Git does then")
DOCUMENT, HEADER = "docs/REFUSALS.md", "bindings/c/commitgraph.h"
PYTHON, RUST = "bindings/python/commitgraph.py", "bindings/rust/src/codes.rs"
ANEW = "write it anew"
LIBRARY = "library"
"""The rows of numbers that no line has, and no table of the document."""


class Row(NamedTuple):
    """A row of the table, with an empty text where a cell is empty."""

    table: str
    line: str
    of: str
    number: Optional[int]
    name: str
    error: str
    happened: str
    in_library: str
    to_do: str
    by_git: str

    def said(self) -> str:
        """The sentence of the library."""
        return self.in_library or self.happened

    def commands(self) -> List[str]:
        """The commands that the row is for, or none where it is for any."""
        return [word for word in self.of.split() if word not in ("and", "alone")]


def rows_of(text) -> List[Row]:
    """The rows of the table, below its titles."""
    titles, *lines = [line.split("\t") for line in text.rstrip("\n").split("\n")]
    assert tuple(titles) == TITLES, "%s has other titles: %s" % (TABLE, titles)
    return [Row(*cells[:3], int(cells[3]) if cells[3] else None, *cells[4:]) for cells in lines]


def read_rows() -> List[Row]:
    """The rows of the table that stands here."""
    with open(os.path.join(TOP, TABLE), encoding="utf-8") as file:
        return rows_of(file.read())


def codes(rows) -> List[Row]:
    """The rows with a number of the library, by their numbers."""
    return sorted((row for row in rows if row.number is not None), key=lambda row: row.number)


def anew_of(rows) -> str:
    """How the library says that a commit-graph is written anew."""
    return next(row.happened for row in rows if row.line == "cg_advice")


def advice(row, anew) -> str:
    """What the library says to do about a row: the programs say by themselves how a commit-graph is written anew."""
    if row.to_do == ANEW:
        return anew
    if row.to_do.endswith(ANEW):
        return "%s: %s" % (row.to_do, anew)
    return row.to_do + ("; to write it anew, " + anew if ANEW in row.to_do else "")


# The document.

MARK = re.compile(r"^<!-- tables/refusals\.tsv: ([\w-]+) -->\n(\|.*)\n(\|-.*)\n((?:\|.*(?:\n|$))*)", re.MULTILINE)
"""A table of the document: the mark with its name, its head, and its rows."""


def document(rows, text):
    """The document with the rows of its tables."""

    def made(found):
        table, head, line, _ = found.groups()
        width = head.count(" | ") + 1
        own = [row for row in rows if row.table == table]
        before = [None, *own]
        body = ["| " + " | ".join(cells(row, above)[:width]) for row, above in zip(own, before)]
        return "<!-- %s: %s -->\n%s\n%s\n%s\n" % (TABLE, table, head, line, "\n".join(body))

    ended = MARK.sub(made, text)
    return ended if text.endswith("\n") else ended.rstrip("\n")


def cells(row, above):
    """The cells of a row of the document, where a `"` repeats what the row above says to do."""
    first = "`%s`" % row.line if row.line else "`CG_%s`, %d" % (row.name, row.number)
    words = [word if word in ("and", "alone") else "`%s`" % word for word in row.of.split()]
    happened = ("from %s: " % " ".join(words) if words else "") + row.happened
    repeats = above is not None and above.to_do == row.to_do != ""
    return [first, happened, '"' if repeats else row.to_do or "-", row.by_git or "-"]


# The header.

NUMBERS = re.compile(r"(^enum cg_code \{\n)(.*?)(^\};$)", re.MULTILINE | re.DOTALL)
NUMBER = re.compile(r"^    CG_(\w+) = (\d+)", re.MULTILINE)
SENTENCES = re.compile(r"(^static inline const char \*cg_strerror\(.*?\n    switch \(code\) \{\n)(.*?)(^    default:)", re.MULTILINE | re.DOTALL)
ADVISING = re.compile(
    r"(^static inline const char \*cg_advice\(.*?\n)(#define CG_ANEW .*?\n)(    switch \(code\) \{\n)(.*?)(^    default:)",
    re.MULTILINE | re.DOTALL,
)
CASES = re.compile(r"(?:^    case CG_[^\n]*?:(?: case CG_\w+:)*\s+)+return .*?;\n", re.MULTILINE | re.DOTALL)
NAMED = re.compile(r"\bcase CG_(\w+):")
WIDEST = 125
ADVISED = ("OPEN_CHAIN_NOT_TEXT", "WRITE_KIND")
"""From the first of these up to the second, where no case says another thing, the header says to write the commit-graph anew."""


def header(rows, text):
    """The header with the numbers, sentences and advice of the table."""
    text = NUMBERS.sub(lambda found: found.group(1) + numbers(rows, found.group(2)) + found.group(3), text)
    text = SENTENCES.sub(lambda found: found.group(1) + "".join(map(sentence, codes(rows))) + found.group(3), text)
    anew = anew_of(rows)

    def advising(found):
        start, define, switch, said, end = found.groups()
        if text_of(define) != anew:
            define = "#define CG_ANEW %s\n" % " \\\n                ".join(literals(anew, WIDEST - 18))
        return start + define + switch + advised(rows, said) + end

    return ADVISING.sub(advising, text)


def numbers(rows, body):
    """The names with their numbers, in the groups that the header has: each begins with a comment, or with the first number."""
    groups = [group.strip("\n").split("\n") for group in body.split("\n\n")]
    comments = [[line for line in group if not NUMBER.match(line)] for group in groups]
    starts = [int(NUMBER.search("\n".join(group)).group(2)) // 10 * 10 for group in groups]
    made, last = [], codes(rows)[-1]
    for comment, start, end in zip(comments, starts, [*starts[1:], last.number + 1]):
        own = ["    CG_%s = %d%s" % (row.name, row.number, "" if row is last else ",") for row in codes(rows) if start <= row.number < end]
        made.append("\n".join(comment + own))
    return "\n\n".join(made) + "\n"


def sentence(row):
    """The line of the header with the sentence of a row."""
    return "    case CG_%s: return %s;\n" % (row.name, quoted(row.said()))


def advised(rows, body):
    """The lines of the header with what to do, where that is not what it says of all others. A case that says it already stays as it
    is laid out."""
    anew, first, end = anew_of(rows), *(next(row.number for row in rows if row.name == name) for name in ADVISED)
    groups = []
    for row in codes(rows):
        said = advice(row, anew)
        if groups and groups[-1][1] == said and groups[-1][2] == last_before(rows, row):
            groups[-1] = (groups[-1][0] + [row.name], said, row)
        elif said != (anew if first <= row.number < end else ""):
            groups.append(([row.name], said, row))
    there = {tuple(NAMED.findall(case)): case for case in CASES.findall(body)}
    return "".join(
        there[tuple(names)] if tuple(names) in there and said_by(there[tuple(names)], anew) == said else case_of(names, said, anew)
        for names, said, _ in groups
    )


def last_before(rows, row):
    """The row with the next lower number."""
    ordered = codes(rows)
    return ordered[ordered.index(row) - 1]


def said_by(case, anew):
    """The text that a case of the header returns."""
    return text_of(case.replace("CG_ANEW", quoted(anew)))


def case_of(names, said, anew):
    """A case of the header with what to do."""
    own, more = (said[: -len(anew)], " CG_ANEW") if said.endswith(anew) else (said, "")
    heads = " ".join("case CG_%s:" % name for name in names)
    line = "    %s return %s%s;\n" % (heads, quoted(own), more)
    if len(line) <= WIDEST:
        return line
    heads = "\n    ".join("case CG_%s:" % name for name in names)
    return "    %s\n        return %s%s;\n" % (heads, "\n               ".join(literals(own, WIDEST - 25)), more)


def literals(text, width):
    """String literals, each of at most so many columns, that are the text when they stand one after another."""
    parts = re.findall(r".{1,%d}(?: |$)" % width, text)
    return list(map(quoted, parts))


def quoted(text):
    """A text as a string literal of C."""
    return '"%s"' % text.replace("\\", "\\\\").replace('"', '\\"')


def text_of(written):
    """The text of string literals that stand one after another."""
    return "".join(ast.literal_eval(one) for one in re.findall(r'"(?:\\.|[^"\\])*"', written))


# Python and Rust.

IN_PYTHON = re.compile(r"(^class Code\(enum\.IntEnum\):\n.*?\n    # .*?\n)((?:    [A-Z]\w+ = \d+\n)*)", re.MULTILINE | re.DOTALL)
IN_RUST = re.compile(r"(?:^pub\(crate\) const \w+: u32 = \d+;\n?)+", re.MULTILINE)


def python(rows, text):
    """The module for Python with the numbers of the table."""
    lines = "".join("    %s = %d\n" % (row.name, row.number) for row in codes(rows))
    return IN_PYTHON.sub(lambda found: found.group(1) + lines, text)


def rust(rows, text):
    """The numbers for Rust."""
    lines = "".join("pub(crate) const %s: u32 = %d;\n" % (row.name, row.number) for row in codes(rows))
    return IN_RUST.sub(lambda found: lines, text)


MADE = {DOCUMENT: document, HEADER: header, PYTHON: python, RUST: rust}
"""What is made of the table alone, by the file that has it."""


def made(texts):
    """What each file becomes that is made of the table, or of the table and the enums of errors."""
    rows = rows_of(texts[TABLE])
    of_table = {path: make(rows, texts[path]) for path, make in MADE.items()}
    return {**of_table, **{path: make(rows, texts, texts[path]) for path, make in error_lists.MADE.items()}}


def stale(texts):
    """The files that are not what the table makes of them."""
    yield from (path for path, text in made(texts).items() if text != texts[path])


def missing(texts):
    """The tables of refusals that no file has."""
    named = {LIBRARY, *(found.group(1) for found in MARK.finditer(texts[DOCUMENT]))}
    yield from sorted({row.table for row in rows_of(texts[TABLE])} ^ named)


# The texts that are not made of the table, and have to agree with it.

IN_LINES = (
    "crates/graph_format/specs/ErrorNumbers.antt",
    "crates/graph_commands/specs/InputErrorNumbers.antt",
    "crates/object_commands/specs/ObjectsRefusalLines.antt",
)
"""The definitions of the numbers that stand in the programs' lines."""

IN_LIBRARY = ("crates/c_opening/specs/", "crates/c_writing/specs/", "crates/commitgraph_c/specs/")
"""The folders with the definitions of the library's numbers."""

DEFINED_IN_LINES = re.compile(r"^(\w+)_number \(?(?:\w+\.)?(\w+)[^=]*= (\d+)$", re.MULTILINE)
DEFINED_IN_LIBRARY = re.compile(
    r"^(\w+_code|refusal_of|told_\w+) \(?(?:\w+\.)?(\w+)[^=\n]*= (?:(?:\w+ )|record \{ code = )?(\d+)\b(?! =)|^([a-z]\w+) = (\d{1,3})$",
    re.MULTILINE,
)
KINDS = {
    "refusal_of": "verify", "told_date_fault": "dates", "told_filter_fault": "filters", "told_write": "write",
    "told_mismatch": "mismatch",
}
"""The kind of the errors of which a definition tells that does not name it."""

WITHOUT_ROW = {"file.Chunks", "graph.OutOfMemory", "read.NotOpened", "entry.OtherContents"}
"""Errors of whose number no row is: one has rows of its own kind, one is told by another line, one never comes, and one has the number
and the row of a mismatch."""


def wrong_rows(texts):
    """The rows of the table that repeat what stands once, that have other numbers than the definitions, a line that does not begin as
    the first one of their kind, or a number of the library to which that adds another number than there; and the definitions without a
    row."""
    rows = rows_of(texts[TABLE])
    for title in ("number", "name", "error"):
        there = [getattr(row, title) for row in rows if getattr(row, title) not in ("", None)]
        yield from ("%s has %s twice" % (TABLE, one) for one in sorted(set(there)) if there.count(one) > 1)
    yield from ("%s: %s" % (TABLE, row.name or row.number) for row in rows if bool(row.name) != (row.number is not None))
    own = {row.error: row for row in rows if row.error}
    defined = defined_in_lines(texts)
    yield from ("%s has no row of %s" % (TABLE, error) for error in sorted(defined.keys() - own.keys() - WITHOUT_ROW))
    lines, bases = {}, {}
    for error, row in own.items():
        kind = error.partition(".")[0]
        if row.line and row.number is not None:
            bases.setdefault(kind, row.number - (in_lines(row) or 0))
        number = row.number - bases[kind] if row.number is not None and kind in bases else defined.get(error)
        if row.line and (number is None or number != in_lines(row) or lines.setdefault(kind, beginning_of(row)) != beginning_of(row)):
            yield "%s: %s is the number of %s in no line such as %r" % (TABLE, number, error, row.line)
        if error in defined and defined[error] != number:
            yield "%s: the definitions have %d for %s" % (TABLE, defined[error], error)
    yield from ("%s: %s has no error" % (TABLE, row.line) for row in rows if row.number and not row.error)


def defined_in_lines(texts):
    """The number of each error in the lines of the programs, as the definitions have it."""
    found = [one for path in IN_LINES for one in DEFINED_IN_LINES.findall(texts[path])]
    return {"%s.%s" % (kind, name): int(number) for kind, name, number in found}


def wrong_codes(texts):
    """The errors for which the definitions of the library have another number than the table."""
    defined = {}
    for path in filter(lambda path: path.startswith(IN_LIBRARY), texts):
        for by, name, number, cause, value in DEFINED_IN_LIBRARY.findall(texts[path]):
            kind = LIBRARY if cause else KINDS.get(by) or by[: -len("_code")]
            if int(number or value) > 0:
                defined["%s.%s" % (kind, cause or name)] = int(number or value)
    own = {row.error: row.number for row in rows_of(texts[TABLE]) if row.number}
    for error in sorted(own.keys() | defined.keys()):
        if own.get(error) != defined.get(error):
            yield "%s has %s for %s, and the definitions %s" % (TABLE, own.get(error), error, defined.get(error))


READING = "suites/real_data/expected/reading.py"
CONDITION = re.compile(r'^    +refuse\("((?:5 chunk )?\d+)"', re.MULTILINE)
NOT_READ = {"refused file 20"}
"""The line of memory, for which the slow reading has no condition."""


def wrong_conditions(texts):
    """The lines on one file of which the table and the slow reading differ."""
    read = {"refused file " + number for number in CONDITION.findall(texts[READING])}
    lines = {row.line for row in rows_of(texts[TABLE]) if row.line.startswith("refused file ")} - NOT_READ
    yield from ("%s and %s differ in %r" % (TABLE, READING, line) for line in sorted(read ^ lines))


ADVICE_IN_RUST, SENTENCES_IN_RUST = "bindings/rust/src/advice.rs", "bindings/rust/src/file_error.rs"
ANEW_IN_RUST = re.compile(r"=> \{(.*?)\}", re.DOTALL)
CONSTANT_IN_RUST = re.compile(r"pub\(crate\) const (\w+): &str = (.*?);$", re.MULTILINE | re.DOTALL)
SENTENCE_IN_RUST = re.compile(r'^ +(?:File|Graph)Error::\w+(?: \{ \.\. \})? => (".*"),$', re.MULTILINE)
OF_FILES = ("file", "chunk", "graph")
"""The errors whose sentences have no number, so that Rust says them word for word."""


def wrong_in_rust(texts):
    """What the Rust crate says of files, or to do, and the table does not."""
    rows = rows_of(texts[TABLE])
    anew, text = anew_of(rows), texts[ADVICE_IN_RUST].replace("\\\n", "")
    own = text_of(re.sub(r"(?<=\S) +", " ", ANEW_IN_RUST.search(text).group(1)))
    told = {anew, *(advice(row, anew) for row in rows if row.number)}
    for name, written in CONSTANT_IN_RUST.findall(text):
        if text_of(re.sub(r"(?<=\S) +", " ", written).replace("anew!()", quoted(own))) not in told:
            yield "%s: %s" % (ADVICE_IN_RUST, name)
    sentences = list(map(ast.literal_eval, SENTENCE_IN_RUST.findall(texts[SENTENCES_IN_RUST])))
    wanted = [row.said() for row in rows if row.number and row.error.startswith(tuple(kind + "." for kind in OF_FILES))]
    yield from ("%s: %s" % (SENTENCES_IN_RUST, one) for one in sorted(set(sentences) ^ set(wanted)))


def main(words):
    """Writes what the table makes, or says what is not that, and answers the exit status."""
    if words not in ([], ["--write"]):
        print("usage: gate/refusal_table.py [--write]", file=sys.stderr)
        return 2
    texts = read_texts()
    others = {path: text for path, text in made(texts).items() if text != texts[path]}
    for path, text in others.items():
        print(path)
        if words:
            with open(os.path.join(TOP, path), "w", encoding="utf-8", newline="") as file:
                file.write(text)
    return 0 if words or not others else 1


def read_texts():
    """The table, and all that is made of it or read for that."""
    texts = {}
    for path in [TABLE, *MADE, *error_lists.READ]:
        with open(os.path.join(TOP, path), encoding="utf-8", newline="") as file:
            texts[path] = file.read()
    return texts


if __name__ == "__main__":
    sys.exit(main(sys.argv[1:]))
