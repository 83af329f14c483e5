"""What has to be said of a line, by the rows of tables/refusals.tsv."""

import re
import signal
from typing import List, NamedTuple, Optional, Sequence

import refusal_table

ANEW, FILES_ANEW = "write it anew", "write FILES anew"
LETTER = re.compile(r"(?<![A-Za-z0-9])[A-Z](?![A-Za-z0-9])")
VALUE = re.compile(LETTER.pattern + r"(\+1)?")
ENDED = re.compile(r"ended by signal (\d+)")


class Row(NamedTuple):
    """A row: a text for lines, its table, a command that it is of, if not any, what happened and what to do."""

    text: str
    table: str
    command: Optional[str]
    happened: str
    to_do: str


class Known(NamedTuple):
    """What is known of a commit-graph that was refused, as shell/answers.sh has it."""

    where: str = ""
    advice: str = ""
    cure: Sequence[str] = ()
    note: str = ""
    cause: str = ""
    opened: str = ""


def read_rows() -> List[Row]:
    """The rows that have a line, one for each command that is named, in their order."""
    rows = [row for row in refusal_table.read_rows() if row.line]
    return [Row(row.line, row.table, word, row.happened, row.to_do) for row in rows for word in row.commands() or [None]]


def values(text, line):
    """The numbers in a line that the letters of a text stand for, or None where the line is another."""
    words, parts = text.split(), line.split()
    pairs = list(zip(words, parts))
    fits = len(parts) >= len(words) and all(
        part.isdigit() if LETTER.fullmatch(word) else part == word for word, part in pairs
    )
    return {word: part for word, part in pairs if LETTER.fullmatch(word)} if fits else None


def row_of(rows, line, command=None):
    """The row of a line that a command answers: the one that fits it best, or None."""
    fitting = [row for row in rows if values(row.text, line) is not None and row.command in (None, command)]
    return max(fitting, key=lambda row: (len(row.text.split()), bool(row.command), -len(values(row.text, line))), default=None)


def detail_of(line):
    """The line of the row that explains the last number of a line, or None."""
    file, parents = re.search(r" open 5 .* (file .*)", line), re.search(r" verify 6 .* error (\d+)", line)
    return "refused " + file.group(1) if file else "!" + parents.group(1) if parents else None


def filled(sentence, numbers):
    """A sentence with numbers in the place of its letters, and one more where `+1` follows, as it is said."""

    def value(match):
        letter, more = match.group()[0], match.group(1)
        return match.group() if letter not in numbers else str(int(numbers[letter]) + 1) if more else numbers[letter]

    return VALUE.sub(value, sentence).replace("`", "'")


def named_signal(line, numbers):
    """The numbers of a line, with the name of the signal of which it tells."""
    ended = ENDED.fullmatch(line)
    return {**numbers, "S": "%s (%s)" % (ended.group(1), signal.Signals(int(ended.group(1))).name)} if ended else numbers


def in_words(rows, known):
    """How a commit-graph is written anew: one whose files are known, or any other."""
    if not known.opened:
        return filled(row_of(rows, ANEW).happened, {})
    return filled(row_of(rows, FILES_ANEW).happened, {}).replace("FILES", known.opened)


def sentences(rows, line, command=None, known=None, beside=None):
    """What has to be said of a line, beside the ids that it speaks of: sentences, and commands after four blanks.

    What is known of the repository may be given. The line of another row may have to be said too; what to do is then as that
    row has it. The first one may have no row.
    """
    row = row_of(rows, line, command)
    said, numbers, detail = [], {}, detail_of(line)
    known = known or Known()
    if row:
        happened, numbers = row.happened, named_signal(line, values(row.text, line))
        if detail:
            happened = "%s: %s" % (happened.split("; ")[0], row_of(rows, detail).happened)
        said = [known.cause or filled(happened, numbers)]
    if beside:
        row = row_of(rows, beside)
        said += [beside, filled(row.happened, {})]
    said += [known.where] if known.where else []
    if not row:
        return said
    anew = in_words(rows, known)
    to_do = known.advice or filled(row.to_do, numbers)
    if known.cure and (known.advice or ANEW in to_do):
        noted = to_do + (". " + known.note if known.note else "")
        return said + ["what to do: %s:" % noted, *("    " + command for command in known.cure)]
    if to_do == ANEW:
        return said + ["what to do: " + anew]
    said += ["what to do: " + to_do] if to_do else []
    return said + (["to write it anew, " + anew] if ANEW in to_do else [])


def written(name, said):
    """What stands on standard error where a command of some name says this."""
    return "".join("%s\n" % text if text.startswith("    ") else "%s: %s\n" % (name, text) for text in said)
