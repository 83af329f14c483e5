"""Checks `git cgraph --json`: each answer is read by Python's own reader, and its values are those of the plain answer.

The table tables/fields says what the lines of an answer stand for; it is read here a second time, so that `suites/real_data` compares
any answer. What it has to make of some answers stands in ANSWERS, by the manual; and the manual names each field of the table.
"""

import json
import os
import re
import shutil
import tempfile

import refusals
from wrappers.clone import TOP, Clone, exactly, run
from wrappers.questions import ABOUT_NEWER, ODD_NAME, SHELLS, WORDS, ask, git, make_repository
from wrappers.sentences import examples
from wrappers.tools import read

ANSWERS = {
    "verify": {
        "ok commits 4 longest 2\nparents 0 commits 1\nparents 1 commits 2\nparents 2 commits 1\n": {
            "commits": 4,
            "longest": 2,
            "parents": {"0": 1, "1": 2, "2": 1},
        },
        "ok commits 0 longest 0\n": {"commits": 0, "longest": 0, "parents": {}},
        "ok commits 4294967295 longest none\nparents 1 commits 4294967295\n": {
            "commits": 4294967295,
            "longest": None,
            "parents": {"1": 4294967295},
        },
    },
    "distinct": {"ok commits 1 longest 0\nparents 0 commits 1\n": {"commits": 1, "longest": 0, "parents": {"0": 1}}},
    "check": {
        "ok commits 2 longest 1\nparents 0 commits 1\nparents 1 commits 1\ndates commits 2\nfilters commits 0\n": {
            "commits": 2,
            "longest": 1,
            "parents": {"0": 1, "1": 1},
            "dates": 2,
            "filters": 0,
        },
        "ok commits 0 longest 0\ndates none\nfilters none\n": {
            "commits": 0,
            "longest": 0,
            "parents": {},
            "dates": None,
            "filters": None,
        },
    },
    "find": {
        "position 2 generation 3 time 17179869183\n": {"position": 2, "generation": 3, "time": 17179869183},
        "none\n": {"position": None},
    },
    "is-ancestor": {"yes\n": {"is_ancestor": True}, "no\n": {"is_ancestor": False}},
    "walk": {
        "%s\n%s\n" % ("ab" * 20, "cd" * 20): {"walk": ["ab" * 20, "cd" * 20]},
        "%s\n" % ("0" * 64): {"walk": ["0" * 64]},
        "none\n": {"walk": None},
    },
    "merge-base": {
        "base 28 %s\nbase 1073741824 %s\nahead 3 behind 12\nvisits 41\n" % ("0f" * 20, "ab" * 32): {
            "merge_bases": [{"id": "0f" * 20, "position": 28}, {"id": "ab" * 32, "position": 1073741824}],
            "ahead": 3,
            "behind": 12,
            "visits": 41,
        },
        "none\nahead 0 behind 4294967295\nvisits 0\n": {"merge_bases": [], "ahead": 0, "behind": 4294967295, "visits": 0},
    },
}
"""What a program answers, and the fields that the manual names for it; of `merge-base` that is with `--verbose`."""

LISTED = (
    "layer sha1 bases 0 commits 2\n0 %s %s 3 1700000300 -\n1 %s %s 4 0 0,0,0\n" % (("ab" * 20,) * 4),
    "layer sha256 bases 2 commits 3\nbase %s\nbase %s\n0 %s %s 1 17179869183 !1\n1 %s %s 0 5 1,0,!4\n2 %s %s 9 6 2\n"
    % (("cd" * 32,) * 8),
)
"""The listings of two layers."""

SHOWN = (
    "layer 0 commits 4 hash sha1 bases 0 dates yes filters none\nchecksum ab\nchunks OIDF 1024 OIDL 80 CDAT 144 GDA2 16\n"
    "layer 1 commits 1 hash sha256 bases 1 dates no filters version 1 hashes 7 bits 10\nchecksum cd\nchunks OIDF 1024 BDAT 17\n"
    "graph layers 2 commits 5 generation 3\n"
)

MISSING = object()


def check_all(results):
    """The checks, in a repository with a name of all kinds of letters."""
    check_named(results)
    with tempfile.TemporaryDirectory() as folder:
        clone = Clone(folder)
        repository = make_repository(clone, os.path.join(folder.encode(), ODD_NAME.replace(b"\xff", "\u00e9\u20ac\U0001f600\x01\t".encode())))
        check_answers(results, clone, repository)
        for shell in SHELLS:
            if shutil.which(shell[0]):
                check_listing(results, clone, repository, shell)
        check_shown(results, clone, repository)
        check_chain(results, clone, repository)
        check_warnings(results, clone, repository)
        check_refusals(results, clone, repository)
        check_failures(results, clone, repository)
        check_none(results, clone, repository)
        check_bytes(results, clone, make_repository(clone, os.path.join(folder.encode(), ODD_NAME)))
        results.check("git cgraph --json, nothing is left over", clone.left_over())


def check_named(results):
    """The manual names the fields of each command in its item."""
    section = re.search(r"## Answers for programs\n(.*?)\n## ", read("docs", "MANUAL.md"), re.DOTALL).group(1)
    items = {word: item for item in section.split("\n- ") for word in re.findall(r"`([^`]*)`", item.partition(":")[0])}
    for commands, *_, made in ROWS:
        for name in re.findall(r"(?:^| )(\w+)(?=[={[])", " ".join(made)):
            lacking = [command for command in commands.split(",") if "`%s`" % name not in items.get(command, "")]
            results.check("the manual names %s of %s" % (name, commands), "not of %s" % lacking if lacking else None)


def objects_in(text):
    """The objects of an answer, a line for each, by the rules of JSON alone: each name once, and no byte that is no UTF-8."""
    return [json.loads(line, object_pairs_hook=distinct, parse_constant=refused) for line in encoded(text).decode().split("\n")[:-1]]


def encoded(text):
    """The bytes of a text that `run` answers."""
    return text.encode("utf-8", "surrogateescape")


def distinct(pairs):
    """An object of fields that have names of their own."""
    fields = dict(pairs)
    if len(fields) != len(pairs):
        raise ValueError("a name stands twice: %r" % (pairs,))
    return fields


def refused(word):
    """No number may be such a word."""
    raise ValueError("%s is no number" % word)


def fields_of(command, text):
    """The fields that the lines of a plain answer stand for: for `merge-base` those with `--verbose`."""
    if command == "show":
        return shown_fields(text)
    fields = {}
    for words in map(str.split, text.splitlines()):
        for part in made_of(command, words):
            name, form, value = re.fullmatch(r"([^={[]*)(\[\]|\{\}|)=?(.*)", part).groups()
            if form == "[]":
                fields.setdefault(name, []).extend(json.loads("[%s]" % value))
            elif form == "{}":
                fields.setdefault(name, {}).update(json.loads("{%s}" % value))
            else:
                fields[name] = json.loads(value)
    return fields


def made_of(command, words):
    """What the table `fields` makes of a line of a command."""
    for commands, *pattern, _, made in ROWS:
        if command in commands.split(",") and len(pattern) == len(words) and all(map(fits, pattern, words)):
            for part in made:
                yield re.sub(r"\$([1-9])", lambda at: word_or_null(words[int(at.group(1)) - 1]), part)
            return
    raise ValueError("%s, %s" % (command, words))


def word_or_null(word):
    """A word, or null for the one that says that there is no number."""
    return "null" if word == "none" else word


def fits(pattern, word):
    """Whether a word is that of a row."""
    return pattern in ("*", word)


def read_rows():
    """The rows of the table: the commands, the words of a line, a colon, and what becomes of it."""
    with open(os.path.join(TOP, "tables", "fields"), encoding="utf-8") as file:
        halves = [line.split(" : ") for line in file if not line.startswith("#")]
    return [[*line.split(), ":", made.split()] for line, made in halves]


ROWS = read_rows()


def number_or_none(word):
    """A number, or None for a word that says that there is none."""
    return None if word == "none" else int(word)


def pairs_of(words):
    """Names, each with the number after it."""
    return {name: int(number) for name, number in zip(words[::2], words[1::2])}


def shown_fields(text):
    """The fields of the lines of `show`, in which no path has a line end."""
    lines = [line for line in text.splitlines() if line != "right" and not line.startswith("refused")]
    at = next(number for number, line in enumerate(lines) if line.startswith("graph "))
    fields = {"layers": [layer_fields(lines[start : start + 4]) for start in range(0, at, 4)]}
    fields.update(pairs_of(lines[at].split()[3:]))
    for line in lines[at + 1 :]:
        fields.update(pairs_of(line.split()))
    return fields


def layer_fields(lines):
    """The fields of a layer, of four lines."""
    words, (_, checksum), chunks = lines[0].split(), lines[1].split(), lines[2].split()
    start = pairs_of(words[:4] + words[6:8])
    made = None if words[11:] == ["none"] else pairs_of(words[11:])
    more = {"hash": words[5], "dates": words[9] == "yes", "filters": made, "checksum": checksum, "chunks": pairs_of(chunks[1:])}
    size, path = lines[3][len("size ") :].split(" file ", 1)
    return {**start, **more, "size": int(size), "file": encoded(path).decode("utf-8", "replace")}


def listed_objects(texts):
    """The objects for the plain listings of some layers, the lowest first; positions count over all layers."""
    below, objects = 0, []
    for number, text in enumerate(texts):
        first, *rows = [line.split() for line in text.splitlines()]
        bases = [row[1] for row in rows if row[0] == "base"]
        objects.append({"layer": number, "hash": first[1], "bases": bases, "commits": int(first[5])})
        for position, commit, tree, generation, time, parents in rows[len(bases) :]:
            places = [] if parents == "-" else [item if item[0] == "!" else int(item) for item in parents.split(",")]
            fields = {"position": below + int(position), "id": commit, "tree": tree, "generation": int(generation), "time": int(time)}
            objects.append({**fields, "parents": places})
        below += int(first[5])
    return [*objects, {"layers": len(texts), "commits": below}]


def complaint_of(answer, plain, fields, head):
    """A complaint where an answer is not one object of these fields after those of the head, with the status and the sentences
    of the plain one.
    """
    try:
        objects = objects_in(answer.out)
    except ValueError as error:
        return "%s: %r" % (error, answer)
    wanted = [{**head, "status": plain.status, **fields}]
    if (answer.status, answer.err) != (plain.status, plain.err):
        return "it is %r, plain %r" % (answer, plain)
    return None if objects == wanted else "it is %r, expected %r" % (objects, wanted)


def difference(word, plain, answer):
    """A complaint where an answer with `--json` does not have the values, the status and the sentences of a plain one, that of
    `merge-base` with `--verbose`.
    """
    try:
        *rows, last = objects_in(answer.out)
        wanted = wanted_objects(word, plain)
        told = told_by(last)
    except (ValueError, LookupError) as error:
        return "%r: %r, plain %r" % (error, answer, plain)
    right = [*rows, {name: last.get(name, MISSING) for name in wanted[-1]}] == wanted and last["command"] == word
    right = right and answer.status == plain.status == last["status"] and answer.err == plain.err and plain.err.endswith(told)
    return None if right else "it is %r, plain %r" % (answer, plain)


def wanted_objects(word, plain):
    """The objects of a plain answer, the last one without what it begins with, and with the error alone of what is refused."""
    lines = plain.out.splitlines()
    if plain.status == 128 or plain.status == 1 and lines[-1] not in ("no", "none") and not lines[-1].startswith("visits "):
        refusal = next((line for line in lines if line.startswith(("refused", "unknown"))), None)
        shown = shown_fields(plain.out) if lines[:1] and lines[0].startswith("layer ") else {}
        absent = "there is no commit-graph" in plain.err
        return [{**shown, **({"error": refusal} if refusal and not absent else {})}]
    if word == "list":
        return listed_objects(["layer " + part for part in plain.out.split("layer ")[1:]])
    return [fields_of(word, plain.out)]


def head_of(clone, repository, word, revisions=()):
    """What an object begins with, beside the status."""
    ids = [git(clone, repository, "rev-parse", revision) for revision in revisions]
    folder, path = (os.path.join(repository, name).decode("utf-8", "replace") for name in (b".git", b".git/objects/info/commit-graph"))
    newer = {"newer": 0} if word in ABOUT_NEWER else {}
    return {"command": word, "repository": folder, "commit_graph": path, **({"ids": ids} if ids else {}), **newer}


def check_answers(results, clone, repository):
    """Each answer of each command but `list` and `show`."""
    for word, texts in ANSWERS.items():
        program, revisions = WORDS[word]
        head = head_of(clone, repository, word, revisions)
        for text, fields in texts.items():
            clone.put_program(program, "printf '%s'\nexit %d\n" % (text.replace("\n", "\\n"), text.startswith("no")))
            plain = ask(clone, [word, *(["-v"] if word == "merge-base" else []), *revisions], repository)
            answer = ask(clone, [word, "--json", *revisions], repository)
            complaint = complaint_of(answer, plain, fields, head)
            if fields_of(word, text) != fields:
                complaint = "by the table it is %r" % fields_of(word, text)
            if plain.out != text:
                complaint = "plain it is %r" % (plain,)
            results.check("git cgraph %s --json, answered %r" % (word, text), complaint)


def put_chain(repository, texts):
    """Puts a chain of layers of these texts in the place of the file, and answers the path of the chain file."""
    info = os.path.join(repository, b".git/objects/info")
    os.rename(os.path.join(info, b"commit-graph"), os.path.join(info, b"aside"))
    os.mkdir(os.path.join(info, b"commit-graphs"))
    chain = os.path.join(info, b"commit-graphs", b"commit-graph-chain")
    for name, text in zip((b"aa", b"bb"), texts):
        with open(os.path.join(info, b"commit-graphs", b"graph-%s.graph" % name), "w", encoding="ascii") as file:
            file.write(text)
        with open(chain, "ab") as file:
            file.write(name + b"\n")
    return chain


def put_back(repository):
    """Puts the file in the place of the chain."""
    info = os.path.join(repository, b".git/objects/info")
    shutil.rmtree(os.path.join(info, b"commit-graphs"))
    os.rename(os.path.join(info, b"aside"), os.path.join(info, b"commit-graph"))


def both(clone, repository, words, shell=()):
    """The plain answer, and that with `--json`."""
    return [ask(clone, [*words, *more], repository, shell) for more in ([], ["--json"])]


def check_listing(results, clone, repository, shell):
    """The listing of a chain of two layers: a line for each layer and each commit, and a last one."""
    chain = put_chain(repository, LISTED)
    clone.put_program("graphtool", "cat\n")
    plain, answer = both(clone, repository, ["list"], shell)
    *rows, last = listed_objects(LISTED)
    head = {**head_of(clone, repository, "list"), "status": 0, "commit_graph": chain.decode()}
    try:
        complaint = None if objects_in(answer.out) == [*rows, {**head, **last}] else "it is %r" % (answer,)
    except ValueError as error:
        complaint = "%s: %r" % (error, answer)
    right = plain == (0, "".join(LISTED), "") and answer[::2] == (0, "")
    results.check("%s git-cgraph list --json" % " ".join(shell), complaint or (None if right else "it is %r" % (answer,)))
    os.remove(os.path.join(os.path.dirname(chain), b"graph-bb.graph"))
    plain, answer = both(clone, repository, ["list"], shell)
    *rows, last = objects_in(answer.out)
    right = answer[::2] == plain[::2] and plain.status == 128 and rows == listed_objects(LISTED[:1])[:-1]
    right = right and last["error"] == "refused open 2" and last["file"].endswith("graph-bb.graph") and last["status"] == 128
    results.check("%s git-cgraph list --json, without a layer" % " ".join(shell), None if right else "it is %r" % (answer,))
    put_back(repository)


def check_chain(results, clone, repository):
    """Where the chain file is wrong, `file` is that one; where a layer is, the layer."""
    chain = put_chain(repository, LISTED).decode()
    for line, file in (
        *(("refused open 4 line 1", chain), ("refused open 6 graph 1", chain), ("refused git 2 line 0", chain)),
        *(("refused verify 4 layer 1 fault 1", chain.replace("commit-graph-chain", "graph-bb.graph")), ("refused verify 1", None)),
    ):
        clone.put_program("graphtool", "echo '%s'\nexit 1\n" % line)
        if line.startswith("refused git"):
            with open(chain, "w", encoding="ascii") as out:
                out.write("aa\r\nbb\n")
        plain, answer = both(clone, repository, ["verify"])
        (last,) = objects_in(answer.out)
        right = answer[::2] == plain[::2] and told_by(last) == plain.err and last.get("file") == file and last["commit_graph"] == chain
        right = right and plain.out == line + "\n" and last["error"] == line
        results.check("git cgraph verify --json of a chain, %s" % line, None if right else "it is %r" % (answer,))
        with open(chain, "w", encoding="ascii") as out:
            out.write("aa\nbb\n")
    put_back(repository)


def check_warnings(results, clone, repository):
    """What is said beside an answer stands in `warnings`."""
    git(clone, repository, "replace", "HEAD", "HEAD~1")
    clone.put_program("historytool", "echo yes\n")
    plain, answer = both(clone, repository, ["is-ancestor", "HEAD", "HEAD"])
    git(clone, repository, "replace", "-d", "HEAD")
    (last,) = objects_in(answer.out)
    right = answer[::2] == plain[::2] == (0, told_by(last)) and "(git replace)" in last["warnings"][0] and last["is_ancestor"] is True
    results.check("git cgraph is-ancestor --json, of replaced commits", None if right else "it is %r" % (answer,))
    put_chain(repository, LISTED)
    clone.put_program("historytool", "echo none\nexit 1\n")
    clone.put_program("graphtool", "echo 'refused verify 11 position 3 earlier 1'\nexit 1\n")
    plain, answer = both(clone, repository, ["walk", "HEAD", "HEAD"])
    put_back(repository)
    (last,) = objects_in(answer.out)
    said = [line[len("git cgraph: ") :] for line in plain.err.splitlines()[:2]]
    right = answer[::2] == plain[::2] and last["warnings"] == [": ".join(said)] and "error" not in last
    right = right and last["walk"] is None and last["advice"].startswith("write it anew. Nothing tells") and len(last["cure"]) == 2
    results.check("git cgraph walk --json, of commits in two layers", None if right else "it is %r" % (answer,))


def check_shown(results, clone, repository):
    """The layers with their files, and what is covered; and a refusal beside them."""
    info = os.path.join(repository, b".git/objects/info")
    file = os.path.join(info, b"commit-graph")
    ids = git(clone, repository, "rev-list", "--all")
    first = SHOWN[: SHOWN.index("layer 1")] + "graph layers 1 commits 4 generation 3\n"
    for verdict, listed, more in (
        ("right", ids, {"missing": 0, "gone": 0, "unreachable": 0}),
        ("right", ids.split()[0], {"missing": 1, "gone": 0, "unreachable": 0}),
        ("refused filters 8 layer 0", ids, {}),
        ("refused verify 10", ids, {}),
    ):
        text = "case $1 in show) cat <<'END'\n%sEND\nexit %d;; ids) echo '%s' ;; esac\n"
        clone.put_program("historytool", text % (first + verdict + "\n", verdict != "right", listed))
        plain, answer = both(clone, repository, ["show"])
        lines = first.replace("graph layers", "size %d file PATH\ngraph layers" % os.path.getsize(file))
        fields = shown_fields(lines + "size %d\n" % os.path.getsize(file))
        fields["layers"][0]["file"] = file.decode()
        told, (last,) = told_by(objects_in(answer.out)[-1]), objects_in(answer.out)
        wanted = {**head_of(clone, repository, "show"), "status": plain.status, **fields, **more}
        right = {name: last.get(name, MISSING) for name in wanted} == wanted and answer[::2] == plain[::2] and told == plain.err
        right = right and "right" not in last and plain.out.startswith(first[:40])
        results.check("git cgraph show --json, %s of %d commits" % (verdict, len(listed.split())), None if right else "it is %r, plain %r" % (answer, plain))


def told_by(fields):
    """What stands on standard error beside an object, but for lines of Git's own."""
    said, error = [], fields.get("error", "")
    if error and not error.startswith(("refused", "unknown")):
        said.append(error)
    if " position " in error and "commit" in fields:
        said.append("the commit at position %s is %s" % (error.split(" position ")[1].split()[0], fields["commit"]))
    said += fields.get("warnings", [])
    said += [fields[name] for name in ("reason", "where") if name in fields]
    if "advice" in fields:
        said += ["what to do: " + fields["advice"] + ":" * ("cure" in fields)]
    said += ["    " + command for command in fields.get("cure", [])]
    return refusals.written("git cgraph", said)


def check_refusals(results, clone, repository):
    """Of each row of the refusals: the fields are what standard error says, and that is what it says without `--json`."""
    listing = "list) printf 'layer sha1 bases 0 commits 99\\n'; seq -f '%g id%g' 0 98 ;;"
    os.symlink(shutil.which("seq"), os.path.join(clone.folder, "bin", "seq"))
    for line, command in sorted(set(examples(refusals.read_rows()))):
        word = command if command in WORDS else "verify"
        program, revisions = WORDS[word]
        clone.put_program("graphtool", "case $1 in %s esac\n" % listing)
        answers = "case $1 in %s *) echo '%s'; exit 1 ;; esac\n" % (listing, line)
        clone.put_program(program, answers)
        plain, answer = both(clone, repository, [word, *revisions])
        try:
            (last,) = objects_in(answer.out)
            told, error = told_by(last), last.get("error")
        except (ValueError, KeyError) as wrong:
            told, error = repr(wrong), ""
        right = answer[::2] == plain[::2] and told == plain.err
        if not line.startswith("no"):
            right = right and error == line and last["status"] == plain.status
        results.check("git cgraph %s --json, answered %r" % (word, line), None if right else "it is %r, plain %r" % (answer, plain))


def check_failures(results, clone, repository):
    """Where there is no answer an object says so too; where the answer cannot be written, there is none."""
    clone.put_program("graphtool", "echo 'ok commits 2 longest 1'\n")
    for words in (["verify", "-C", "nowhere"], ["-C", "nowhere", "verify"], ["find", "nothing"], ["verify", "--object-dir", "nowhere"]):
        plain, answer = both(clone, repository, words)
        (last,) = objects_in(answer.out)
        said = plain.err.splitlines()[-1] == "git cgraph: " + last["error"]
        right = answer[::2] == plain[::2] and plain[:2] == (128, "") and last["status"] == 128 and said
        right = right and last.get("repository", "") == ("" if "-C" in words else head_of(clone, repository, "")["repository"])
        results.check("git cgraph %s --json" % " ".join(words), None if right else "it is %r, plain %r" % (answer, plain))
    answer = ask(clone, ["verify", "--json"], clone.home)
    fields = {"command": "verify", "status": 128, "repository": os.path.realpath(clone.home), "error": "Git tells of no repository here"}
    right = objects_in(answer.out) == [fields]
    results.check("git cgraph verify --json, of no repository", None if right and answer.status == 128 else "it is %r" % (answer,))
    results.check("git cgraph verify --json -q", exactly(ask(clone, ["verify", "--json", "-q"], repository), 0, ""))
    unwritten = "the answer could not be written"
    err = refusals.written("git cgraph", [unwritten, *refusals.sentences(refusals.read_rows(), unwritten)])
    with open("/dev/full", "wb") as full:
        answer = ask(clone, ["verify", "--json"], repository, stdout=full)
    results.check("git cgraph verify --json, to a full device", exactly(answer, 128, "", err))
    answer = ask(clone, ["verify", "--json"], repository, ("sh",), preexec_fn=lambda: os.close(1))
    results.check("git cgraph verify --json, output that is closed", exactly(answer, 128, "", err))
    for line, status in (("ended by signal 9", 137), ("the program does not take these words", 128)):
        clone.put_program("graphtool", "echo 'ok commits 2 longest 1'\nkill -9 $$\n" if status == 137 else "exit 2\n")
        answer = ask(clone, ["verify", "--json"], repository)
        (last,) = objects_in(answer.out)
        right = answer.status == last["status"] == status and last["error"] == line and "commits" not in last
        results.check("git cgraph verify --json, %s" % line, None if right else "it is %r" % (answer,))


def check_none(results, clone, repository):
    """Where there is no commit-graph, the repository is named, and that is right or no answer, as was asked for."""
    path = os.path.join(repository, b".git/objects/info/commit-graph")
    os.rename(path, path + b" aside")
    for program in ("graphtool", "historytool"):
        clone.put_program(program, "echo 'refused open 2'\nexit 1\n")
    for words in (["verify"], ["verify", "--all-checks", "--objects"], ["check"], ["distinct"], ["show"], ["list"]):
        title, wanted = "git cgraph %s, no commit-graph" % " ".join(words), {**head_of(clone, repository, words[0]), "commit_graph": None}
        plain, answer = both(clone, repository, words)
        (last,) = objects_in(answer.out)
        right = plain[:2] == (128, "refused open 2\n") and answer[::2] == plain[::2] and told_by(last) == plain.err
        right = right and {name: last.get(name, MISSING) for name in wanted} == wanted and last["status"] == 128
        results.check(title, None if right else "it is %r, plain %r" % (answer, plain))
        plain, answer = both(clone, repository, [*words, "--if-exists"])
        right = plain == (0, "", "") and answer[::2] == (0, "") and objects_in(answer.out) == [{**wanted, "status": 0}]
        results.check(title + ", --if-exists", None if right else "it is %r, plain %r" % (answer, plain))
    words = [os.path.join(clone.folder, "git-cgraph"), "show", "--json"]
    answer = run(words, clone.surroundings(TMPDIR="/nonexistent"), cwd=repository)
    (last,) = objects_in(answer.out)
    right = answer.status == 128 and last["repository"] == head_of(clone, repository, "")["repository"] and "TMPDIR" in last["error"]
    results.check("git cgraph show --json, without a folder for files of a moment", None if right else "it is %r" % (answer,))
    os.rename(path + b" aside", path)
    clone.put_program("graphtool", "echo 'refused verify 1'\nexit 1\n")
    for more in ([], ["--json"]):
        plain, answer = (ask(clone, ["verify", *more, *option], repository) for option in ([], ["--if-exists"]))
        results.check("git cgraph %s, damaged" % " ".join(["verify", "--if-exists", *more]), exactly(answer, *plain))


def check_bytes(results, clone, repository):
    """A byte that is no UTF-8 is U+FFFD, and commands with such a byte are left out."""
    clone.put_program("graphtool", "echo 'refused verify 4 layer 0 fault 1'\nexit 1\n")
    answer = ask(clone, ["verify", "--json"], repository)
    (last,) = objects_in(answer.out)
    path = os.path.join(repository, b".git/objects/info/commit-graph").decode("utf-8", "replace")
    right = answer.status == 1 and last["file"] == last["commit_graph"] == path and "\ufffd" in path
    right = right and last["where"] == "the file is '%s'" % path and last["advice"] and "cure" not in last
    results.check("git cgraph verify --json, of a path that is no UTF-8", None if right else "it is %r" % (answer,))
