"""The lists that have a line for each error, of the crates, of `bindings/rust` and of docs/CALLING.md: `refusal_table.py --write` makes
them of the rows of tables/refusals.tsv, and of the enums of the errors.

A line that stands already stays as it is, but for its number. So only what is new is made here, and what has no row, as an error that
holds another one, is written by hand.
"""

import re
from typing import List, NamedTuple

ENUMS = {
    "chunk": ("crates/gix_chunk_core/src/error.rt", "ChunkError"),
    "file": ("crates/graph_format/src/error.rt", "FileError"),
    "graph": ("crates/graph_format/src/error.rt", "GraphError"),
    "commit": ("crates/graph_format/src/fault.rt", "CommitFault"),
    "layer": ("crates/graph_format/src/fault.rt", "LayerFault"),
    "parent": ("crates/graph_format/src/parents.rt", "ParentError"),
    "open": ("crates/graph_layer/src/opening/error.rt", "OpenError"),
}
"""Where the enum of each kind of error stands, and its name."""

NUMBERED_LINE = re.compile(r"(.*\D)(\d+)\D*")
"""The line that a program writes for an error, in two parts: what the lines of all errors of its kind begin with, and its number."""

ENUM = r"^pub enum %s \{\n(.*?)^\}"
COMMENT = re.compile(r"^ +(?:///|#\[).*\n", re.MULTILINE)
VARIANT = re.compile(r"^    (\w+)(\([^)]*\)|\s*\{[^}]*\})?,$", re.MULTILINE)
WIDEST = 100


class Error(NamedTuple):
    """A variant of the enum of a kind, and what it holds: the names of its fields, or the types where these have none."""

    kind: str
    enum: str
    name: str
    has_names: bool
    fields: List[str]

    def pattern(self):
        """The pattern that it is matched by, whatever it holds."""
        held = " { .. }" if self.has_names else "(%s)" % ", ".join("_" * len(self.fields)) if self.fields else ""
        return "%s::%s%s" % (self.enum, self.name, held)

    def applied(self, kinds):
        """The same in a definition, in which the variants stand behind a name for all."""
        names = self.fields if self.has_names else ["byte" if field == "u8" else "value" for field in self.fields]
        return "(%s.%s %s)" % (kinds, self.name, " ".join(names)) if names else "%s.%s" % (kinds, self.name)


def errors(kind, texts) -> List[Error]:
    """The errors of a kind, as the enum has them."""
    path, enum = ENUMS[kind]
    body = COMMENT.sub("", re.search(ENUM % enum, texts[path], re.MULTILINE | re.DOTALL).group(1))
    found = []
    for name, held in VARIANT.findall(body):
        inner = [part.strip() for part in held.strip(" \n(){}").split(",") if part.strip()]
        has_names = "{" in held
        found.append(Error(kind, enum, name, has_names, [part.split(":")[0] for part in inner] if has_names else inner))
    return found


def row_of(error, rows):
    """The row of an error, or None where none has it."""
    return next((row for row in rows if row.error == "%s.%s" % (error.kind, error.name)), None)


def beginning_of(row):
    """What the lines of the errors of a row's kind begin with, or None where its error has no line."""
    found = NUMBERED_LINE.fullmatch(row.line)
    return found and found.group(1)


def in_lines(row):
    """The number by which the programs tell the error of a row, where there is one."""
    found = row and NUMBERED_LINE.fullmatch(row.line)
    return int(found.group(2)) if found else None


def in_library(row):
    """The number by which the library tells it."""
    return row and row.number


def listed(kind, texts, rows, number, text, head, named, made):
    """The text, with a line for each error of a kind below its head. `named` finds the error in a line that stands there, and `made`
    makes the line of an error with its number."""
    found = re.search(head + r"((?:[^\n]*\n)*?)(?=^ {0,4}\}|^$)", text, re.MULTILINE)
    there = {re.search(named, line).group(1): line for line in found.group(1).splitlines(True)}
    lines = []
    for error in errors(kind, texts):
        told, line = number(row_of(error, rows)), there.get(error.name)
        if told is not None and (line is None or not re.search(r"\b%d\b,?$" % told, line)):
            line = made(error, told)
        lines.append(line or "")
    return text[: found.start(1)] + "".join(lines) + text[found.end(1) :]


def numbers_in_code(kinds, suffix, number):
    """Makes the functions of a file which answer the number of an error."""

    def made(rows, texts, text):
        for kind in kinds:
            head = r"^pub fn %s_%s\((?:[^\n]*\n)*?    match \w+ \{\n" % (kind, suffix)
            named = ENUMS[kind][1] + r"::(\w+)"
            text = listed(kind, texts, rows, number, text, head, named, lambda error, told: "        %s => %d,\n" % (error.pattern(), told))
        return text

    return made


def numbers_in_specs(kinds, suffix, number):
    """Makes the definitions of these numbers."""

    def made(rows, texts, text):
        for kind in kinds:
            name, variants = "%s_%s" % (kind, suffix), {"open": "opening"}.get(kind, kind)
            head = r"^abbrev pub %s : \w+ → ℕ\n" % name
            made_of = lambda error, told, name=name, variants=variants: "%s %s = %d\n" % (name, error.applied(variants), told)
            text = listed(kind, texts, rows, number, text + "\n", head, r"\b%s\.(\w+)" % variants, made_of)[:-1]
        return text

    return made


# The crates of tests.

TEXTS = {
    "FILE_ERRORS": "file", "CHUNK_ERRORS": "chunk", "PARENT_ERRORS": "parent", "GRAPH_ERRORS": "graph", "OPEN_ERRORS": "open",
    "LAYER_FAULTS": "layer", "COMMIT_FAULTS": "commit",
}
"""The tables of the texts of errors, and the kind of each."""


def texts_of_errors(rows, texts, text):
    """The file with a row for each error that holds nothing: its text is its name. Those of others are written by hand."""
    for name, kind in TEXTS.items():
        found = re.search(r"^const %s: [^\n]* = &\[\n(.*?)^\];" % name, text, re.MULTILINE | re.DOTALL)
        parts = re.findall(r"^    \(.*?(?=^    \(|\Z)", found.group(1), re.MULTILINE | re.DOTALL)
        there = {re.search(ENUMS[kind][1] + r"::(\w+)", part).group(1): part for part in parts}
        own = [there.get(error.name) or '    (%s, "%s"),\n' % (error.pattern(), error.name)
               for error in errors(kind, texts) if error.name in there or not error.fields]
        text = text[: found.start(1)] + "".join(own) + text[found.end(1) :]
    return text


def arms(function, kind, prefix):
    """Makes the arms of a function for the errors of a kind that hold nothing, as many in a line as fit."""

    def made(rows, texts, text):
        found = re.search(r"^fn %s\((?:[^\n]*\n)*?    match error \{\n((?:.* => \{\}\n)+)" % function, text, re.MULTILINE)
        lines = [[]]
        for error in errors(kind, texts):
            if not error.fields:
                if len(arm([*lines[-1], prefix + error.name])) > WIDEST:
                    lines.append([])
                lines[-1].append(prefix + error.name)
        return text[: found.start(1)] + "".join(arm(names) + "\n" for names in lines) + text[found.end(1) :]

    return made


def arm(names):
    """An arm of these names."""
    return "        %s => {}" % " | ".join(names)


# The Rust crate.

ENUMS_IN_RUST = {"file": "FileError", "chunk": "FileError", "graph": "GraphError"}
"""The enums that say of each error the sentence of its row."""

NUMBERS_IN_RUST = {
    "file_number": {"file": "FileError", "chunk": "FileError"}, "graph_number": {"graph": "GraphError"},
    "commit_number": {"commit": "CommitFault"}, "parent_number": {"parent": "ParentError"},
}
"""The functions of the example `ask` which give the number of an error."""

NAMED_IN_RUST = re.compile(r"^            codes::(\w+) => (\w+::\w+)(?: \{ \w+ \})?,$", re.MULTILINE)


def rows_of_kinds(kinds, rows):
    """The rows with a number of some kinds, kind after kind, and by their numbers."""
    own = [row for row in rows if row.number and row.error.partition(".")[0] in kinds]
    return sorted(own, key=lambda row: (list(kinds).index(row.error.partition(".")[0]), row.number))


def in_rust(row, enum, text):
    """The name of the error of a row: the one that stands there, or that of its number, without the first word."""
    there = {code: name for code, name in NAMED_IN_RUST.findall(text) if name.startswith(enum + "::")}
    name = "".join(word.capitalize() for word in row.name.split("_")[1:])
    return there.get(row.name, "%s::%s" % (enum, name)).partition("::")[2]


def sentences(rows, texts, text):
    """The Rust crate's errors of files and of graphs: the variants, the numbers and the sentences."""
    before = text
    for enum in dict.fromkeys(ENUMS_IN_RUST.values()):
        own = rows_of_kinds([kind for kind, name in ENUMS_IN_RUST.items() if name == enum], rows)
        named = [(row, in_rust(row, enum, before)) for row in own]
        variants = r"^pub enum %s \{\n(.*?)^\}" % enum
        text = parts_in_order(text, variants, r"(?: *///[^\n]*\n)+    (\w+)(?: \{\n(?:[^\n]*\n)*?    \})?,\n", named,
                              lambda row, name: "    /// %s.\n    %s,\n" % (row.said()[0].upper() + row.said()[1:], name))
        codes = r"^impl %s \{\n(?:[^\n]*\n)*?        Some\(match code \{\n(.*?)^            _ =>" % enum
        text = parts_in_order(text, codes, r" *codes::\w+ => %s::(\w+)[^\n]*\n" % enum, named,
                              lambda row, name: "            codes::%s => %s::%s,\n" % (row.name, enum, name))
        said = r"^impl fmt::Display for %s \{\n(?:[^\n]*\n)*?        f.write_str\(match self \{\n(.*?)^        \}\)" % enum
        text = parts_in_order(text, said, r" *%s::(\w+)[^\n]*\n" % enum, named,
                              lambda row, name: '            %s::%s => "%s",\n' % (enum, name, row.said().replace('"', '\\"')))
    return text


def parts_in_order(text, head, part, named, made):
    """The text in which the part of each row stands that lacked one, behind that of the row before it."""
    found = re.search(head, text, re.MULTILINE | re.DOTALL)
    parts = [(one.group(1), one.group()) for one in re.finditer(part, found.group(1))]
    at = 0
    for row, name in named:
        there = [place for place, (other, _) in enumerate(parts) if other == name]
        if not there:
            parts.insert(at, (name, made(row, name)))
        at = (there[0] if there else at) + 1
    return text[: found.start(1)] + "".join(one for _, one in parts) + text[found.end(1) :]


def numbers_in_example(rows, texts, text):
    """The numbers of errors in the example `ask`, which tells of a file or its table of chunks in words."""
    for function, kinds in NUMBERS_IN_RUST.items():
        named = [(row, in_rust(row, kinds[row.error.partition(".")[0]], texts[ERRORS_IN_RUST])) for row in rows_of_kinds(kinds, rows)]
        if function not in ("file_number", "graph_number"):
            named = [(row, row.error.partition(".")[2]) for row, _ in named]

        def line(row, name, kinds=kinds, words=function == "file_number"):
            kind = row.error.partition(".")[0]
            told = '"%s"' % row.line[len("refused file ") :] if words else in_lines(row)
            return "        %s::%s => %s,\n" % (kinds[kind], name, told)

        head = r"^fn %s\((?:[^\n]*\n)*?    match \w+ \{\n" % function
        body = r"%s(.*?)^        \w+ => panic" % head
        text = parts_in_order(text, body, r" *\w+::(\w+)[^\n]*\n", named, line)
    return text


# The document.

RANGE = re.compile(r"^    (\d+) to (\d+)(?=  +)", re.MULTILINE)


def ranges(rows, texts, text):
    """The document with the ranges of the library's numbers: each goes from the number that stands there to the last before the next."""
    starts = [int(first) for first, _ in RANGE.findall(text)]
    numbers = [row.number for row in rows if row.number]

    def made(found):
        first = int(found.group(1))
        end = min([start for start in starts if start > first], default=max(numbers) + 1)
        return "    %d to %d" % (first, max(number for number in numbers if first <= number < end))

    return RANGE.sub(made, text)


ERRORS_IN_RUST = "bindings/rust/src/file_error.rs"
NUMBERED = ("chunk", "file", "graph", "commit", "parent")
CODED = ("chunk", "file", "graph", "open", "layer", "commit", "parent")
MADE = {
    "crates/graph_format/src/error_numbers.rt": numbers_in_code(NUMBERED, "number", in_lines),
    "crates/graph_format/specs/ErrorNumbers.antt": numbers_in_specs(NUMBERED, "number", in_lines),
    "crates/c_opening/src/codes.rt": numbers_in_code(CODED, "code", in_library),
    "crates/c_opening/specs/Codes.antt": numbers_in_specs(CODED, "code", in_library),
    "crates/test_graphs/src/texts.rt": texts_of_errors,
    "crates/test_surface/src/layer.rt": arms("file_errors", "file", ""),
    "crates/test_surface/src/chunk_core.rt": arms("chunk_errors", "chunk", "ChunkError::"),
    "crates/test_surface/src/graph.rt": arms("graph_errors", "graph", "GraphError::"),
    ERRORS_IN_RUST: sentences,
    "bindings/rust/examples/ask.rs": numbers_in_example,
    "docs/CALLING.md": ranges,
}
"""What makes each file with such lists, of the rows, of all texts, and of its own text."""

READ = sorted({*MADE, *(path for path, _ in ENUMS.values())})
"""The files that are read for it."""
