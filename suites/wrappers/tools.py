"""Checks the wrappers `graphtool` and `historytool`: their words, their builds, and what they pass on."""

import os
import re
import tempfile
from typing import Dict, List, NamedTuple

import refusals
import version
from wrappers.clone import PROGRAMS, TOP, Clone, exactly
from wrappers.table import commands, usage


class Wrapper(NamedTuple):
    """A wrapper: its name, words that are no command, and the words after each command."""

    name: str
    no_command: List[List[str]]
    commands: Dict[str, List[str]]


WITHOUT_NUMBER = (["--trees", "."], ["--trees", "1"], *(["--trees", number, "."] for number in ("", "x", "01", "-1", "4294967296")))
"""Words behind a command that takes a path and, behind `--trees`, a number: they lack one of both."""


def wrapper_of(name):
    """The wrapper of a program. Words that are no command have too few or too many operands, or are none of its own."""
    own = commands(name)
    wrong = [[], ["help"], ["help", "--help"], ["--version", "--help"], ["--help", "."], [without_ids(own), ".", "--help", "0"]]
    wrong += [[command.word, *command.operands()] for command in commands() if command.program != name]
    wrong += [[command.word, *command.operands()[:-1]] for command in own if command.operands()]
    wrong += [[command.word, *command.operands(command.least() + 1)] for command in own if not command.takes_more()]
    wrong += [[command.word, "--unchecked", *command.operands()[:-1]] for command in own if command.may_be_unchecked()]
    wrong += [[command.word, "--newer", *command.operands()[:-1]] for command in own if command.reads == "newer"]
    wrong += [[command.word, *words] for command in own if command.reads == "limited" for words in WITHOUT_NUMBER]
    return Wrapper(name, wrong, {command.word: command.operands(command.least() + command.takes_more()) for command in own})


def without_ids(own):
    """The last of some commands that takes neither ids nor positions."""
    return [command.word for command in own if command.ids == "0"][-1]


KIT = re.compile(r"^ {4}(rattle-kit-\S+ logic \w+)$", re.MULTILINE)

BUILD = """#!/bin/sh
echo progress
cd "${1%/building/*}/crates/$2"
mkdir out
cp built "out/$2"
"""
"""A `python3` that builds a program from the file `built` beside its sources, in the place of building/proving.py."""


def check_all(results):
    """The checks of both wrappers, and of the one version."""
    for wrapper in map(wrapper_of, PROGRAMS):
        with tempfile.TemporaryDirectory() as folder:
            clone = Clone(folder)
            check_words(results, wrapper, clone)
            check_build(results, wrapper, clone)
            check_passing(results, wrapper, clone)
            check_told(results, wrapper, clone)
            results.check("%s, nothing is left over" % wrapper.name, clone.left_over())
    check_version(results)


def usage_of(name):
    """The usage text of a program, as its source has it."""
    source = read("crates", name, "src", "main.rt")
    text = re.search(r'^const USAGE: &str = "(.*?)";$', source, re.MULTILINE | re.DOTALL).group(1)
    return re.sub(r"\\\n *", "", text) + "\n"


def read(*path):
    """The text of a file of the repository."""
    with open(os.path.join(TOP, *path), encoding="utf-8") as file:
        return file.read()


def check_words(results, wrapper, clone):
    """Words that are no command end with the usage text, and build nothing; a command asks for `rt`."""
    for words in wrapper.no_command:
        answer = clone.run([wrapper.name, *words])
        results.check("%s, usage after the words %r" % (wrapper.name, words), exactly(answer, 2, "", usage_of(wrapper.name)))
    answer = clone.run([wrapper.name, *first_command(wrapper)])
    unmade = "the program could not be proved or built"
    said = [unmade, *refusals.sentences(refusals.read_rows(), unmade)]
    lines = answer.err.splitlines()
    right = answer[:2] == (3, "") and re.search(r"\brt\b", lines[0]) and lines[1:] == ["%s: %s" % (wrapper.name, line) for line in said]
    results.check("%s, no rt on the path" % wrapper.name, None if right else "it is %r" % (answer,))


def first_command(wrapper):
    """A command with the words after it."""
    return next([command, *words] for command, words in wrapper.commands.items() if words)


def check_build(results, wrapper, clone):
    """The program is built on its first use, and its words come to it as they are."""
    name, words = wrapper.name, first_command(wrapper)
    clone.put("bin/rt", "#!/bin/sh\nexit 1\n")
    clone.put("bin/python3", BUILD)
    clone.put("crates/%s/built" % name, "#!/bin/sh\nprintf '<%s>' \"$@\"\n")
    words[1] = "a b*\n$(c)"
    written = "".join("<%s>" % word for word in words)
    first, second = (clone.run([name, *words]) for _ in range(2))
    right = first[:2] == (0, written) and re.fullmatch(name + r": proving [^\n]*\nprogress\n", first.err)
    results.check("%s, the program is built" % name, None if right else "it is %r" % (first,))
    results.check("%s, it is not built again" % name, exactly(second, 0, written))


def check_passing(results, wrapper, clone):
    """The answer and the status are those of the program, for each command."""
    for command, more in wrapper.commands.items():
        words, written = [command, *more], "line %s\nmore\n" % " ".join([command, *more])
        for status in (0, 1, 2):
            clone.put_program(wrapper.name, 'echo line "$@"\necho more\nexit %d\n' % status)
            title = "%s %s, the program's status %d" % (wrapper.name, command, status)
            results.check(title, exactly(clone.run([wrapper.name, *words]), status, written))
    for command in commands(wrapper.name):
        if command.may_be_unchecked():
            words = [command.word, "--unchecked", *command.operands()]
            clone.put_program(wrapper.name, 'echo line "$@"\n')
            answer = exactly(clone.run([wrapper.name, *words]), 0, "line %s\n" % " ".join(words))
            results.check("%s %s --unchecked" % (wrapper.name, command.word), answer)
        if command.reads == "newer":
            for options, path in ((options, path) for options in (["--newer"], ["--unchecked", "--newer"]) for path in ([], ["."])):
                words = [command.word, *options, *path, *["ab" * 20] * command.least()]
                answer = exactly(clone.run([wrapper.name, *words]), 0, "\nline %s\n" % " ".join(words))
                results.check(" ".join([wrapper.name, command.word, *options, *path]), answer)
        if command.reads == "limited":
            for options in ([], ["--trees", "0"], ["--trees", "4294967295"]):
                words = [command.word, *options, *command.operands()]
                clone.put_program(wrapper.name, 'echo line "$@"\n')
                answer = exactly(clone.run([wrapper.name, *words]), 0, "line %s\n" % " ".join(words))
                results.check(" ".join([wrapper.name, *words]), answer)
    clone.put_program(wrapper.name, "echo why >&2\nexit 2\n")
    answer = clone.run([wrapper.name, *first_command(wrapper)])
    results.check("%s, what the program says on standard error" % wrapper.name, exactly(answer, 2, "", "why\n"))


def check_told(results, wrapper, clone):
    """Help and version, alone and after each command, which build nothing; and the usage text, which is that of the table."""
    name, told = wrapper.name, "%s %s" % (wrapper.name, read("VERSION"))
    clone.put_program(name, "exit 7\n")
    for before in ([], *([command] for command in wrapper.commands)):
        for word in ("--help", "-h"):
            answer = clone.run([name, *before, word])
            right = answer.status == 0 and answer.out.startswith(usage_of(name) + "\n") and not answer.err
            rows = ["%-14s  %s" % (command.word, command.about) for command in commands(name)]
            missing = [row for row in rows if row not in answer.out.splitlines()]
            complaint = None if right and not missing else "it is %r" % (answer,)
            results.check(" ".join([name, *before, word]), complaint)
        answer = clone.run([name, *before, "--version"])
        results.check(" ".join([name, *before, "--version"]), exactly(answer, 0, told))
    own = usage_of(name).strip().replace(" | --help | --version", "")
    results.check("%s, its usage is that of the table" % name, None if own == usage(name) else "it is %r" % own)


def check_version(results):
    """The number of the version stands in VERSION; the changes and all that names it agree with it."""
    results.check("each place that names the version has its number", next(version.wrong_places(), None))
    kit = KIT.search(read("README.md")).group(1)
    right = read("VERSION") == "%s, proved with %s\n" % (version.number(), kit)
    results.check("the kit of the version is the one that is needed", None if right else "it is %r" % read("VERSION"))
    line = 'const VERSION: &str = "historytool %s";' % read("VERSION").strip()
    there = line in read("crates", "historytool", "src", "main.rt").split("\n")
    results.check("historytool has the version", None if there else "its source has no line " + line)
