"""Checks the words of `historytool`, its help and its version, and output that cannot be written."""

import os
import subprocess
from functools import partial

from expected import judge
from histories.repository import read_bytes

TOP = os.path.abspath(os.path.join(os.path.dirname(os.path.abspath(__file__)), *[os.pardir] * 3))
BY_TABLE = ["sh", "-c", 'top=$1 name=$2; . "$top/shell/usage.sh"; usage', "sh", TOP, "historytool"]
USAGE = subprocess.check_output(BY_TABLE, text=True)
"""What the program writes on standard error where its words are no command, and the first line of its help: as the table of
commands has it."""

FAILED_WRITE = "historytool: the answer could not be written\n"
ID = "0" * 40
OTHER_WORDS = [
    *([], [""], ["help"], ["version"], ["-v"], ["--help", "."], ["--version", "."], ["."], [b"\xff"]),
    *(["walk", ".", ID], ["walk", ".", ID, ID, ID], ["Walk", ".", ID, ID], ["walk", b"\xff", ID, ID]),
    *(["is-ancestor", "--unchecked"], ["is-ancestor", "--unchecked", ".", ID], ["is-ancestor", "--unchecked", ID, ID]),
    *(["walk", "--unchecked"], ["walk", "--unchecked", ".", ID], ["walk", "--unchecked", ID, ID], ["ids", "--unchecked", "."]),
    *(["ask", "--unchecked"], ["ask", "--unchecked", ".", "."], ["ask", ".", "--unchecked"]),
    *(["is-ancestor"], ["is-ancestor", ".", ID], ["ancestor", ".", ID, ID], ["verify", "."], ["--walk", ".", ID, ID]),
    *(["merge-base"], ["merge-base", "."], ["merge-base", ".", ID], ["merge-base", ".", ID, b"\xff"]),
    *(["merge-base-ids"], ["merge-base-ids", ".", ID], ["merge-bases", ".", ID, ID]),
    *(["merge-base", "--unchecked", ".", ID], ["merge-base-ids", "--unchecked", ".", ID], ["merge-base", "--unchecked", ".", ID, b"\xff"]),
    *(["check"], ["check", ".", "."], ["check", b"\xff"]),
    *(["ids"], ["ids", ".", "0"], ["ids", ".", "0", "01"], ["ids", ".", "+0", "1"], ["ids", ".", "0", "1", "2"]),
    *(["objects"], ["objects", ".", "0"], ["objects", ".", "-1", "1"], ["objects", ".", "0", "4294967296"]),
]
"""Words that are no command: too few, too many, others, or no text."""

VERSION = os.path.join(TOP, "VERSION")


def check_all(histories, results):
    """The checks of words and streams."""
    for words in OTHER_WORDS:
        complaint = judge.exactly(2, "", USAGE, histories.run(*words, input=b""))
        results.check("historytool, usage after the words %r" % words, complaint)
    version = "historytool " + read_bytes(VERSION).decode()
    results.check("historytool --version", judge.exactly(0, version, "", histories.run("--version")))
    helps = [histories.run(word) for word in ("--help", "-h")]
    text = helps[0].out.decode()
    told = helps[0] == helps[1] and helps[0].status == 0 and not helps[0].err
    results.check("historytool --help and -h", None if told and text.startswith(USAGE + "\n") else "they are %r" % (helps,))
    runs = {"is-ancestor": histories.is_ancestor, "walk": histories.walk, "merge-base": histories.merge_base}
    runs["is-ancestor --unchecked"] = histories.is_ancestor_unchecked
    runs["walk --unchecked"] = histories.walk_unchecked
    runs["merge-base-ids"] = histories.merge_base_ids
    runs["merge-base --unchecked"] = histories.merge_base_unchecked
    runs["merge-base-ids --unchecked"] = histories.merge_base_ids_unchecked
    for command, run in runs.items():
        exchanged = judge.exactly(2, "refused id 1\n", "", run(ID, ".", ID))
        results.check("%s, its path and its first id exchanged" % command, exchanged)
        nothing = judge.exactly(1, "refused open 1\n", "", run(os.devnull, ID, ID))
        results.check("%s, a path with nothing that is a graph" % command, nothing)
        check_failed_write(results, command, partial(run, os.devnull, ID, ID))
    nothing = judge.exactly(1, "refused open 1\n", "", histories.check(os.devnull))
    results.check("check, a path with nothing that is a graph", nothing)
    check_failed_write(results, "check", partial(histories.check, os.devnull))
    check_failed_write(results, "historytool --version", partial(histories.run, "--version"))


def check_failed_write(results, name, run):
    """The answer of a run whose output is closed."""
    answer = run(preexec_fn=partial(os.close, 1))
    results.check("%s, output that is closed" % name, judge.exactly(2, "", FAILED_WRITE, answer))
    answer = run(preexec_fn=partial(os.closerange, 1, 3))
    results.check("%s, output and errors that are closed" % name, judge.exactly(2, "", "", answer))
