"""Checks that each row of tables/refusals.tsv is what a wrapper says of its line."""

import os
import tempfile

import refusals
from wrappers.clone import Clone, exactly
from wrappers.table import commands

NUMBERS = {letter: str(7 * place + 3) for place, letter in enumerate("ABCDEFGHIJKLMOPQRSTUVWXYZ")}
"""A number for each letter but N."""

NEITHER = "there is neither '%s/commit-graph' nor a chain file '%s/commit-graphs/commit-graph-chain'"
KNOWN = {
    "refused open 1": refusals.Known(cause="no file or folder is at '.'"),
    "refused open 2": refusals.Known(cause=NEITHER % (".", ".")),
}
"""What is known of a folder without a commit-graph, which is what the programs are asked about, by the lines that speak of it."""

COMMANDS = {command.word: [command.program, command.word, *command.operands()] for command in commands()}
"""The words by which each command is run."""


def check_all(results):
    """The checks of all rows, of ids beside positions, and of lines that no row has."""
    rows = refusals.read_rows()
    with tempfile.TemporaryDirectory() as folder:
        clone = Clone(folder)
        for line, command in sorted(set(examples(rows))):
            answer = ask(clone, line, command)
            said = refusals.sentences(rows, line, command, KNOWN.get(line))
            title = "the sentences of %r from %s" % (line, command)
            results.check(title, right(answer, line, command, said))
        check_unknown(results, clone, rows)
        check_no_id(results, clone, rows)
        check_other_line(results, clone)
        check_info_folder(results, clone, rows)
        check_files(results, clone, rows)
        check_obstacles(results, clone, rows)
        check_input(results, clone, rows)
        check_cut_short(results, clone)
        results.check("sentences, nothing is left over", clone.left_over())


def examples(rows):
    """A line for each row, and a command that may answer it; for a row of a detail, the line that leads to it too."""
    for row in rows:
        line = " ".join(NUMBERS.get(word, "3" if word == "N" else word) for word in row.text.split())
        if line.startswith(("refused", "no")):
            yield line, row.command or "verify"
        if line.startswith("refused file"):
            yield "refused open 5 layer 1 " + line[len("refused ") :], "distinct"
        if line.startswith("!"):
            yield "refused verify 6 position 9 error " + line[1:], "walk"


def ask(clone, line, command):
    """The answer of a command whose program answers a line with status 1."""
    words = COMMANDS[command]
    clone.put_program(words[0], "echo '%s'\nexit 1\n" % line)
    return clone.run(words)


def right(answer, line, command, said):
    """A complaint where an answer is not a line with these sentences after it."""
    name = COMMANDS[command][0]
    err = "".join("%s: %s\n" % (name, sentence) for sentence in said)
    return exactly(answer, 1, line + "\n", err)


def check_unknown(results, clone, rows):
    """An id that is not there is named."""
    for line, cause in (("unknown 1", "aa is not in the graph"), ("unknown 2", "bb is not in the graph; the ids given before it are")):
        clone.put_program("historytool", "echo '%s'\nexit 1\n" % line)
        for more in ([], ["--unchecked"]):
            answer = clone.run(["historytool", "merge-base", *more, ".", "aa", "bb", "cc"])
            said = refusals.sentences(rows, line, "merge-base", refusals.Known(cause=cause))
            results.check(" ".join(["an unknown id is named,", line, *more]), right(answer, line, "merge-base", said))
    ids, line = ["ab" * 20, "cd" * 20], "unknown 2"
    cause = ids[1] + " is not in the repository; the ids given before it are"
    said = refusals.sentences(rows, line, "merge-base", refusals.Known(cause=cause, advice="see what 'git fsck' says"))
    clone.put_program("historytool", "echo '%s'\nexit 1\n" % line)
    for options, path in ((options, path) for options in (["--newer"], ["--unchecked", "--newer"]) for path in ([], ["."])):
        answer = clone.run(["historytool", "merge-base", *options, *path, *ids])
        title = " ".join(["an id that Git does not know is named", *options, *path])
        results.check(title, right(answer, "\n" + line, "merge-base", said))


def check_no_id(results, clone, rows):
    """The first text that is no id is named."""
    ids = ["aB" * 20, "0" * 64, "a" * 41, "HEAD"]
    for line, no_id in (("refused id 1", ids[2]), ("refused id 2", "g" * 40)):
        clone.put_program("historytool", "echo '%s'\nexit 2\n" % line)
        given = [*ids[:2], no_id, ids[3]]
        answer = clone.run(["historytool", "merge-base", ".", *given])
        said = ["'%s' is not an id" % no_id, *refusals.sentences(rows, line)]
        err = "".join("historytool: %s\n" % sentence for sentence in said)
        results.check("a text that is no id is named, %s" % line, exactly(answer, 2, line + "\n", err))


def check_other_line(results, clone):
    """A line that no row has is passed on with its status, and nothing is said of it."""
    results.check("a line of no row", right(ask(clone, "refused nothing 3", "verify"), "refused nothing 3", "verify", []))


def check_info_folder(results, clone, rows):
    """Where the file of an info folder was refused, and there is no chain, the file is named."""
    clone.put("info/commit-graph", "")
    line, path = "refused open 2", "%s/info" % clone.folder
    refused = "the file '%s/commit-graph' was refused, and there is no chain beside it" % path
    clone.put_program("graphtool", "echo '%s'\nexit 1\n" % line)
    for chain, known in (
        (False, refusals.Known(cause=refused, advice="give the path of that file, to see why it was refused")),
        (True, refusals.Known()),
    ):
        if chain:
            clone.put("info/commit-graphs/commit-graph-chain", "")
        answer = clone.run(["graphtool", "verify", path])
        title = "an info folder whose file was refused, with%s a chain" % ("" if chain else "out")
        results.check(title, right(answer, line, "verify", refusals.sentences(rows, line, "verify", known)))


def check_files(results, clone, rows):
    """The file of the layer is named, by its number or by a position, at whatever path it was found, and what is to be removed."""
    single, chain, info = ("%s/%s" % (clone.folder, name) for name in ("single", "of/commit-graphs", "of"))
    clone.put("single", "")
    clone.put("of/commit-graphs/commit-graph-chain", "aa\nbb\n")
    for layer in ("aa", "bb"):
        clone.put("of/commit-graphs/graph-%s.graph" % layer, "")
    clone.put_program("graphtool", "echo 'layer sha1 bases 0 commits 2'\nprintf '%d ab - 1 5 -\\n' 0 1\n")
    above = "layer 1 is '%s/graph-bb.graph'" % chain
    beside = "'%s/commit-graph-chain' and the layers beside it" % chain
    opened = {single: "'%s'" % single, chain: beside, info: "the folder '%s'" % chain}
    for path, line, where, id_line in (
        (single, "refused verify 4 layer 0 fault 1", "the file is '%s'" % single, []),
        (single, "refused dates 3 position 1", "the file is '%s'" % single, ["the commit at position 1 is ab"]),
        *((path, "refused open 5 layer 1 file 2", above, []) for path in (chain, info)),
        *((path, "refused verify 5 position 3 fault 1", above, ["the commit at position 3 is ab"]) for path in (chain, info)),
        (info, "refused open 6 graph 1", "the chain file is '%s/commit-graph-chain'" % chain, []),
        (chain, "refused open 4 line 0", "the chain file is '%s/commit-graph-chain'" % chain, []),
        (info, "refused filters 10", "", []),
    ):
        clone.put_program("historytool", "echo '%s'\nexit 1\n" % line)
        answer = clone.run(["historytool", "check", path])
        said = id_line + refusals.sentences(rows, line, "check", refusals.Known(where, opened=opened[path]))
        err = "".join("historytool: %s\n" % sentence for sentence in said)
        title = "the file of %r at %s" % (line, os.path.basename(path))
        results.check(title, exactly(answer, 1, line + "\n", err))


def check_obstacles(results, clone, rows):
    """The file that is not there, or is no file, is named in one sentence, and what is to be done about it."""
    info, folder = ("%s/%s" % (clone.folder, name) for name in ("of", "of/commit-graphs"))
    chain, line = folder + "/commit-graph-chain", "refused open 2"
    names = "the file '%s/graph-bb.graph', which line 2 of '%s' names, " % (folder, chain)
    elsewhere = "see whether another object folder has it: 'historytool' looks into no other, and 'git cgraph' does. Else write it anew"
    beside, whole = "'%s' and the layers beside it" % chain, "the folder '%s'" % folder
    layer, aside = folder + "/graph-bb.graph", folder + "/aside"
    os.rename(layer, aside)
    for way, cause, advice in (
        (None, names + "is missing", elsewhere),
        ("nothing", names + "is a link to what is not there", refusals.ANEW),
        (".", names + "is a folder, not a file", refusals.ANEW),
    ):
        if way:
            os.symlink(way, layer)
        for path, opened in ((folder, beside), (info, whole)):
            known = refusals.Known(cause=cause, advice=advice, opened=opened)
            check_known(results, clone, rows, (line, path, cause[len(names) :]), known)
        if way:
            os.remove(layer)
    os.rename(aside, layer)
    empty = os.path.dirname(clone.temporary)
    for line, cause in ((line, NEITHER % (empty, empty)), ("refused open 1", "no file or folder is at '%s'" % empty)):
        check_known(results, clone, rows, (line, empty, "is empty"), refusals.Known(cause=cause))


def check_known(results, clone, rows, asked, known):
    """The sentences of a line at a path, of which something is known."""
    line, path, title = asked
    clone.put_program("historytool", "echo '%s'\nexit 1\n" % line)
    said = refusals.sentences(rows, line, "check", known)
    title = "%r of a graph at %s, where something %s" % (line, path[len(clone.folder) :] or "a folder", title)
    results.check(title, right(clone.run(["historytool", "check", path]), line, "check", said))


def check_input(results, clone, rows):
    """The file on standard input is named, too, and what is to be removed of an info folder that has a file and a chain."""
    single, line = "%s/single" % clone.folder, "refused file 1"
    clone.put_program("graphtool", "echo '%s'\nexit 1\n" % line)
    known = refusals.Known("the file is '%s'" % single, opened="'%s'" % single)
    with open(single, "rb") as file:
        answer = clone.run(["graphtool", "list"], stdin=file)
    results.check("the file on standard input", right(answer, line, "list", refusals.sentences(rows, line, "list", known)))
    path, line = "%s/info" % clone.folder, "refused verify 1"
    for opens, opened in ((True, "'%s/commit-graph'" % path), (False, "'%s/commit-graph' and the folder '%s/commit-graphs'" % (path, path))):
        answers = "case $1 in list) %s ;; *) echo '%s'; exit 1 ;; esac\n" % ("echo 'layer sha1 bases 0 commits 2'" if opens else "exit 1", line)
        clone.put_program("graphtool", answers)
        said = refusals.sentences(rows, line, "verify", refusals.Known(opened=opened))
        title = "an info folder with a file that %s, and a chain" % ("opens" if opens else "does not open")
        results.check(title, right(clone.run(["graphtool", "verify", path]), line, "verify", said))


def check_cut_short(results, clone):
    """Where the questions could not all be read, standard error says so, and passes on where they were."""
    lines = "ok commits 4\n\nyes\n\n"
    err = "historytool: the questions were not all answered: the last line says why\n"
    for end, status, said in (("refused read 2\n", 1, err), ("", 0, "")):
        clone.put_program("historytool", "printf '%s'\nexit %d\n" % ((lines + end).replace("\n", "\\n"), status))
        answer = clone.run(["historytool", "ask", "."])
        results.check("questions, status %d" % status, exactly(answer, status, lines + end, said))
