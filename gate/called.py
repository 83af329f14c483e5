"""Which test calls each public function of the port, by the table gate/called.txt, which says what its rows have."""

import re

import surface

TABLE = "gate/called.txt"
COMMENT = re.compile(r"//.*")
ASSOCIATED = {"ObjectId::null", "at", "from_bytes", "from_hex", "from_raw", "new", "new_with", "shortest", "try_from_bytes"}
"""Functions without a value before them, whose call names the type. So does that of the openers."""


def wrong_rows(texts):
    """The functions without a row, and the rows of which no function, no test or no call is there."""
    rows = [line.split() for line in texts[TABLE].split("\n") if line and not line.startswith("#")]
    named = [tuple(row[:2]) for row in rows]
    functions = set(surface.functions(texts))
    yield from ("%s of %s has no row" % (name, module) for module, name in sorted(functions - set(named)))
    for row in rows:
        if tuple(row[:2]) not in functions or named.count(tuple(row[:2])) > 1:
            yield "%s of %s is no function, or has two rows" % (row[1], row[0])
        elif not (is_in_script if "/" in row[2] else is_in_test)(texts, *row[1:]):
            yield "%s: '%s' does not call it" % (row[1], " ".join(row[2:]))


def is_in_script(texts, _name, path, word):
    """Whether a script, or a file of its folder, has a word."""
    return any(word in text for at, text in texts.items() if at == path or at.startswith(path + "/"))


def is_in_test(texts, name, crate, test, call=None):
    """Whether a crate has a test, and a call of the function, or of what calls it."""
    sources = [COMMENT.sub("", text) for path, text in texts.items() if path.startswith("crates/%s/src/" % crate)]
    called = call_of(call or name)
    return any(re.search(r"#\[test\]\nfn %s\(" % test, text) for text in sources) and any(called.search(text) for text in sources)


def call_of(name):
    """How a call of a function or of a method is written."""
    owner, _, last = name.rpartition("::")
    if owner and ({name, last} & ASSOCIATED or last.startswith("from_")):
        return re.compile(r"\b%s::%s\b" % (owner, last))
    if owner:
        return re.compile(r"\.%s\(" % last)
    return re.compile(r"(?<!fn )(?<![.\w])%s\(" % last)
