"""Checks `git cgraph`, installed, beside Git's own answers: in repositories of every kind, and in damaged ones.

The programs under test are installed by building/install, from a copy of the scripts.
"""

import itertools
import os
import re
import shutil
import subprocess

import refusals
from checks import ask_checks, disk_checks, show_checks, verify_checks
from damage import trees, wrong_commits, wrong_layout, wrong_trees
from damage.layer import sealed
from expected import reading
from expected.facts import found, verified
from expected.listing import listing
from expected.walks import Walks
from histories import shapes
from histories.repository import Repository, read_bytes, write_bytes
from wrappers.clone import TOP, Clone, run
from wrappers.json_answers import difference, objects_in
from wrappers.tools import read

ODD_TAG = "odd';$(id)\"&|<>`\u00e9!#%"
ELSEWHERE = "see whether another object folder has it: 'graphtool' looks into no other, and 'git cgraph' does. Else write it anew"
SHORTEST = 4
"""The fewest digits by which Git looks for an id."""

EXAMPLE = os.path.join(TOP, "examples", "commit-graph")
MANY = 900
"""So many commits that two of them agree in so few digits."""


class Way:
    """A way to name a repository: the folder of the shell, options of Git, options after `cgraph`, and variables."""

    def __init__(self, folder, before=(), after=(), **variables):
        self.folder, self.before, self.after, self.variables = folder, before, after, variables


class Installed:
    """The commands, below a prefix of their own."""

    def __init__(self, folder, programs):
        os.mkdir(folder)
        self.clone = Clone(folder)
        for program, name in zip(programs, ("graphtool", "historytool")):
            self.clone.put_program(name, "")
            shutil.copy(program.path, os.path.join(self.clone.folder, "crates", name, "out", name))
        self.clone.put_library()
        self.prefix = os.path.join(folder, "a prefix")
        self.installation = self.clone.run(["building/install", self.prefix])
        tools = os.path.join(self.clone.folder, "bin")
        self.variables = self.clone.surroundings(PATH=os.path.join(self.prefix, "bin") + ":" + tools)
        usage = programs[1].run(stdin=subprocess.DEVNULL).err
        self.knows_check, self.knows_objects = b"check PATH" in usage, b"objects PATH" in usage

    def ask(self, way, *words):
        """The answer of `git cgraph` to some words."""
        command = ["git", *way.before, "cgraph", *way.after, *words]
        return run(command, {**self.variables, **way.variables}, cwd=way.folder)

    def git(self, way, *words):
        """The answer of Git itself, which uses no commit-graph."""
        command = ["git", *way.before, *way.after, "-c", "core.commitGraph=false", *words]
        return run(command, {**self.variables, **way.variables}, cwd=way.folder)


def check_kind(programs, results, folder, new):
    """The checks of each word, in repositories of one kind of hash."""
    installed = Installed(os.path.join(folder, "installed"), programs)
    check_kinds(installed, results, new("asked"))
    check_split(installed, results, new("asked, split"))
    show_checks.check_told(installed, results, os.path.join(folder, "shown"), new("asked, shown.git"), Way)
    asked = new("asked questions.git")
    ask_checks.check_by_git(installed, results, asked, Way(asked.folder))
    results.check("git cgraph, each word, nothing is left over", installed.clone.left_over())


def check_all(programs, results, folder, new):
    """The other checks of `git cgraph`; a new repository comes from a function of its object format and its name."""
    installed = Installed(os.path.join(folder, "installed"), programs)
    complaint = None if installed.installation.status == 0 else "it is %r" % (installed.installation,)
    results.check("building/install, with the programs", complaint)
    check_empty(installed, results, new("sha1", "asked, empty"))
    check_abbreviation(installed, results, new("sha1", "asked, abbreviations"))
    check_session(installed, results, os.path.join(folder, "repository"))
    check_examples(installed, results, os.path.join(folder, "repository"))
    check_recipes(installed, results, os.path.join(folder, "recipes"), new("sha1", "asked, recipes.git"))
    check_damage(installed, results, new("sha1", "asked, damaged"))
    check_damaged_trees(installed, results, new("sha1", "asked, damaged folders"))
    for flags in (("--split",), ("--split", "--changed-paths")):
        check_pool(installed, results, new("sha1", "asked, a pool %s" % " ".join(flags)), flags)
    results.check("git cgraph, nothing is left over", installed.clone.left_over())
    answer = installed.clone.run(["building/install", "--remove", installed.prefix])
    gone = answer.status == 0 and not os.path.lexists(installed.prefix)
    results.check("building/install --remove, with the programs", None if gone else "it is %r" % (answer,))


def check_session(installed, results, folder):
    """The session of README.md, word by word, in the repository that the lines of examples/README.md make; the folder is named as
    they name it.
    """
    session = re.search(r"## A session\n(.*?)\n## ", read("README.md"), re.DOTALL).group(1)
    lines = [line[4:] for line in session.split("\n") if line.startswith("    ")]
    commands = [(at, line[2:]) for at, line in enumerate(lines) if line.startswith("$ ")]
    ends = [at for at, _ in commands[1:]] + [len(lines)]
    recipe = re.findall(r"^    (.*)$", read("examples", "README.md"), re.MULTILINE)
    lines_of_recipe = "\n".join([*recipe, "git symbolic-ref HEAD refs/heads/main"])
    made = run(["sh", "-e", "-c", lines_of_recipe], installed.variables, cwd=os.path.dirname(folder))
    results.check("the commits of the examples", None if made.status == 0 else "it is %r" % (made,))
    for (at, command), end in zip(commands, ends):
        answer = run(["sh", "-c", command.replace("path/to/this/clone", TOP) + " 2>&1"], installed.variables, cwd=folder)
        expected = "".join(line + "\n" for line in lines[at + 1 : end]).replace("/repository", os.path.realpath(folder))
        complaint = None if answer.out == expected else "it is %r, expected %r" % (answer, expected)
        results.check("README.md: %s" % command, complaint)


def check_examples(installed, results, folder):
    """The examples of the manual, word by word but for what stands as dots, in a repository of the commits of
    examples/README.md; before some of them a commit is made, or the damaged file put there.
    """
    examples = re.search(r"## Examples\n(.*?)\n## ", read("docs", "MANUAL.md"), re.DOTALL).group(1)
    blocks = re.findall(r"^    \$ (.*)\n((?:    (?!\$).*\n)*)", examples, re.MULTILINE)
    graph = os.path.join(os.path.realpath(folder), ".git/objects/info/commit-graph")
    shutil.copy(EXAMPLE, graph)
    for at, (command, out) in enumerate(blocks):
        if command == "git cgraph show":
            person = ("-c", "user.name=A", "-c", "user.email=a@example.com")
            installed.git(Way(folder), *person, "commit", "-q", "--allow-empty", "-m", "later")
        if at == len(blocks) - 1:
            # What `write` has put there may only be read.
            os.remove(graph)
            shutil.copy(os.path.join(TOP, "examples", "damaged"), graph)
        answer = run(["sh", "-c", command + " 2>&1"], installed.variables, cwd=folder)
        expected = re.sub("(?m)^    ", "", out).replace("/repository", os.path.realpath(folder))
        right = re.fullmatch(re.escape(expected).replace(r"\.\.\.", "[0-9a-f]*"), answer.out)
        results.check("MANUAL.md: %s" % command, None if right else "it is %r, expected %r" % (answer, expected))
    results.check("MANUAL.md has examples", None if len(blocks) > 5 else "they are %s" % blocks)


def check_recipes(installed, results, folder, repository):
    """The recipes of the manual, for a folder of repositories, where all is right and where a commit-graph is damaged. One has none,
    of which nothing is said, and each is named in JSON.
    """
    recipes = re.search(r"## Recipes\n(.*?)\n## ", read("docs", "MANUAL.md"), re.DOTALL).group(1)
    repository.add(shapes.diamonds(2))
    repository.write_graph()
    os.mkdir(folder)
    os.symlink(repository.folder, os.path.join(folder, "project.git"))
    installed.git(Way(folder), "init", "-q", "--bare", "none.git")
    both = {os.path.realpath(os.path.join(folder, name)) for name in ("project.git", "none.git")}
    for damaged in (False, True):
        for line in re.findall(r"^    (?:0 \d \* \* [*0] )?(.*)$", recipes, re.MULTILINE):
            if "--objects" in line and not installed.knows_objects:
                continue
            if damaged and " write " not in line:
                content = read_bytes(repository.graph_path())
                write_bytes(repository.graph_path(), content[:-1] + bytes([content[-1] ^ 1]))
            command = line.replace("/srv/git", "'%s'" % folder).replace("-prune", "-follow -prune")
            answer = run(["sh", "-c", command], installed.variables, cwd=repository.folder)
            told = repository.graph_path() in answer.err if damaged and " write " not in line else not answer.err
            ends = bool(answer.status) == (damaged and " write " not in line and not line.startswith("find"))
            right = told and ends and is_json(answer.out) == ("--json" in line)
            right = right and (not answer.out.startswith("{") or {last["repository"] for last in objects_in(answer.out)} == both)
            title = "the recipe %r, of a %s commit-graph" % (line, "damaged" if damaged else "right")
            results.check(title, None if right else "it is %r" % (answer,))
            repository.write_graph()


def is_json(text):
    """Whether there are lines, of which each is an object."""
    return bool(text) and all(objects_in(line + "\n") for line in text.splitlines())


def add_names(repository, ids):
    """Gives a repository of some commits a HEAD, a tag of an odd name, a tag of a commit and one of a tree."""
    person = ("-c", "user.name=A", "-c", "user.email=a@example.com")
    repository.git("symbolic-ref", "HEAD", "refs/heads/tip-%d" % (len(ids) - 1))
    repository.git("update-ref", "refs/tags/" + ODD_TAG, ids[2])
    repository.git(*person, "tag", "-a", "-m", "a commit", "annotated", ids[1])
    repository.git(*person, "tag", "-a", "-m", "a tree", "tree", ids[1] + "^{tree}")


def check_kinds(installed, results, bare):
    """Each word in a bare repository, in one with files and in a linked worktree, from each place."""
    ids = bare.add(shapes.diamonds(4))
    add_names(bare, ids)
    bare.write_graph()
    parent = os.path.dirname(bare.folder)
    plain, linked = bare.object_format + " plain", bare.object_format + " linked"
    for folder, words in (
        (parent, ["clone", "-q", bare.folder, plain]),
        (os.path.join(parent, plain), ["commit-graph", "write", "--reachable"]),
        (os.path.join(parent, plain), ["worktree", "add", "-q", "--detach", os.path.join(parent, linked)]),
    ):
        answer = installed.git(Way(folder), *words)
        if answer.status:
            raise RuntimeError(answer.err)
    ways = {
        "a bare repository": Way(bare.folder),
        "a repository with files": Way(os.path.join(parent, plain)),
        "a subfolder": Way(os.path.join(parent, plain, "folder-1")),
        "a linked worktree": Way(os.path.join(parent, linked)),
        "another folder, with cgraph -C": Way(parent, after=("-C", plain, "-C", "folder-1")),
        "another folder, with git -C": Way(parent, before=("-C", plain)),
        "another folder, with GIT_DIR": Way(parent, GIT_DIR=os.path.join(plain, ".git")),
    }
    words = bare.words()
    for title, way in ways.items():
        check_words(installed, results, "%s, %s" % (bare.object_format, title), way, (words, [ids]))


def check_split(installed, results, repository):
    """Each word in a repository whose commit-graph is a chain of three layers."""
    history, ids, layers = shapes.diamonds(4), [], []
    for stop in (4, 9, len(history)):
        layers.append(repository.add(history[:stop], len(ids))[len(ids) :])
        ids += layers[-1]
        repository.write_graph("--split=no-merge")
    add_names(repository, ids)
    title = repository.object_format + ", a repository with a split commit-graph"
    sums = [checksum for checksum, _ in repository.chain()]
    check_words(installed, results, title, Way(repository.folder), (repository.words(), layers), sums)
    chain = os.path.join(repository.info_path(), trees.CHAIN)
    listed = installed.ask(Way(repository.folder), "list")
    write_bytes(chain, read_bytes(chain).rstrip(b"\n"))
    answer = installed.ask(Way(repository.folder), "list")
    complaint = None if answer == listed else "it is %r, not %r" % (answer, listed)
    results.check("git cgraph list in %s, whose last line has no end" % title, complaint)


def check_words(installed, results, title, way, graph, sums=(None,)):
    """Each word beside Git's own words, which are given with the ids of each layer and the layers' checksums."""
    words, layers = graph
    ids = [commit for layer in layers for commit in layer]
    parts = [listing(title.split(",")[0], words, layers[: number + 1], list(sums[:number])) for number in range(len(sums))]
    wanted = {
        ("verify",): verified(words),
        ("distinct",): verified(words),
        ("list",): "".join(parts),
        **{("find", name): found(words, layers)[ids[at]] for name, at in
           (("HEAD", -1), (ODD_TAG, 2), ("annotated", 1), (ids[4][:12], 4), ("HEAD^2", -2), (":/commit 0", 0))},
    }
    if installed.knows_objects:
        wanted["verify", "--objects", "-j2"] = verified(words) + "objects commits %d\n" % len(ids)
    for question, out in wanted.items():
        answer = installed.ask(way, *question)
        complaint = None if answer == (0, out, "") else "it is %r, expected %r" % (answer, out)
        results.check("git cgraph %s in %s" % (" ".join(question), title), complaint)
        complaint = difference(question[0], answer, installed.ask(way, *question, "--json"))
        results.check("git cgraph %s --json in %s" % (" ".join(question), title), complaint)
    answer = installed.ask(way, "find", "tree")
    right = answer[:2] == (128, "") and "git cgraph: 'tree' names no commit" in answer.err
    results.check("git cgraph find in %s, a tag of a tree" % title, None if right else "it is %r" % (answer,))
    check_check(installed, results, title, way, verified(words))
    check_pairs(installed, results, title, way, (Walks(words, layers), ids))


def check_check(installed, results, title, way, text):
    """The answer to `check`; a program that does not have the word says so."""
    answer = installed.ask(way, "check")
    if installed.knows_check:
        right = answer.status == 0 and answer.out.startswith(text) and not answer.err
    else:
        right = answer[:2] == (128, "") and "the program does not take these words" in answer.err
    results.check("git cgraph check in %s" % title, None if right else "it is %r" % (answer,))


def check_pairs(installed, results, title, way, history):
    """The words that take two revisions, for some pairs of commits, beside Git."""
    walks, ids = history
    complaints = []
    for first, second in [(ids[2], ids[-1]), (ids[-1], ids[2]), (ids[1], ids[2]), (ids[3], ids[3])]:
        said, words = (installed.git(way, "merge-base", *more, first, second) for more in (["--is-ancestor"], ["--all"]))
        answers = {
            "is-ancestor": (said.status, "no\n" if said.status else "yes\n"),
            "merge-base": (words.status, words.out or "none\n"),
        }
        for word, (status, out) in answers.items():
            answer = installed.ask(way, word, first, second)
            err = ""
            if answer.status != status or sorted(answer.out.split()) != sorted(out.split()) or answer.err != err:
                complaints.append("%s: it is %r, expected %r" % (word, answer, (status, out)))
        for words in (["is-ancestor"], ["walk"], ["merge-base", "--verbose"]):
            pair = [installed.ask(way, *words, *more, first, second) for more in ([], ["--json"])]
            complaints.append(difference(words[0], *pair))
        answer = installed.ask(way, "walk", second, first)
        text = answer._replace(out=answer.out.encode(), err="" if said.status else answer.err)
        complaints.append(walks.judge_ids(second, first, said.status == 0, text))
    complaint = next(filter(None, complaints), None)
    results.check("git cgraph is-ancestor, merge-base and walk in %s" % title, complaint)


def check_empty(installed, results, repository):
    """A repository without a commit has no commit-graph, and nothing to ask about."""
    way = Way(repository.folder)
    advice = "no branch or tag leads to a commit yet: make one, and write it"
    known = refusals.Known("", advice, ["git commit-graph write --reachable"])
    absent = "there is no commit-graph"
    for word in ("verify", "distinct", "list"):
        answer = installed.ask(way, word)
        err = refusals.written("git cgraph", [absent, *refusals.sentences(refusals.read_rows(), absent, word, known)])
        right = (128, "refused open 2\n", err)
        results.check("git cgraph %s in an empty repository" % word, None if answer == right else "it is %r" % (answer,))
    answer = installed.ask(way, "check")
    expected = (128, "refused open 2\n" if installed.knows_check else "")
    results.check("git cgraph check in an empty repository", None if answer[:2] == expected else "it is %r" % (answer,))
    for words in (["find", "HEAD"], ["is-ancestor", "HEAD", "HEAD"], ["walk", "HEAD", "HEAD"], ["merge-base", "HEAD", "HEAD"]):
        answer = installed.ask(way, *words)
        right = answer[:2] == (128, "") and "git cgraph: 'HEAD' names no commit" in answer.err
        results.check("git cgraph %s in an empty repository" % " ".join(words), None if right else "it is %r" % (answer,))


def check_abbreviation(installed, results, repository):
    """An abbreviation that is that of two commits is refused as Git refuses it, and one that is not is taken."""
    ids = sorted(repository.add(shapes.linear(MANY)))
    repository.write_graph()
    short = next(first[:SHORTEST] for first, second in zip(ids, ids[1:]) if first[:SHORTEST] == second[:SHORTEST])
    alone = next(
        second for first, second, third in zip(ids, ids[1:], ids[2:]) if second[:7] not in (first[:7], third[:7])
    )
    answer = installed.ask(Way(repository.folder), "find", short)
    right = answer[:2] == (128, "") and "ambiguous" in answer.err and "'%s' names no commit" % short in answer.err
    results.check("git cgraph find, an ambiguous abbreviation", None if right else "it is %r" % (answer,))
    answer = installed.ask(Way(repository.folder), "find", alone[:10])
    line = found(repository.words(), [ids])[alone]
    results.check("git cgraph find, an abbreviation", None if answer == (0, line, "") else "it is %r" % (answer,))


def check_damage(installed, results, repository):
    """Files with one thing wrong: the line of each, what is said of it, and the id of the commit that it names."""
    ids = repository.add(shapes.octopus(3, 4, 2))
    file = verify_checks.original(repository, generation_version=1)
    check_lie(installed, results, repository, (file, ids))
    wrongs = wrong_layout.all_wrong(file) + wrong_commits.all_wrong(file)
    # One damage for each row is enough: the lines themselves are checked of the programs.
    for text, wrong in {shape(wrong.answer): wrong for wrong in wrongs if wrong.answer.startswith("refused")}.items():
        content = sealed(wrong.layer, repository.object_format)
        write_bytes(repository.graph_path(), content)
        check_refusal(installed, results, repository, (wrong.name, wrong.answer, [content]))


def check_lie(installed, results, repository, graph):
    """A revision is named by the commits, also where the commit-graph has other parents."""
    file, ids = graph
    words, order = repository.words(), sorted(ids)
    parent = words[ids[-1]].parents[0]
    content = file.with_parent(order.index(parent), 0, order.index(ids[0]))
    write_bytes(repository.graph_path(), sealed(content, repository.object_format))
    answer = installed.ask(Way(repository.folder), "find", ids[-1] + "~2")
    line = found(words, [ids])[words[parent].parents[0]]
    results.check("git cgraph find, of a parent that the file lacks", None if answer == (0, line, "") else "it is %r" % (answer,))


def shape(line):
    """A line with letters in the place of what differs between damages of one row."""
    words = line.split()
    keeps = {"fault", "error", "file", "chunk", "open", "verify", "graph"}
    return " ".join(word if not word.isdigit() or before in keeps else "N" for before, word in zip([""] + words, words))


def check_damaged_trees(installed, results, repository):
    """Folders in which something is wrong: the same. A file is what is checked, where there is one."""
    right, info = disk_checks.right_chain(repository), repository.info_path()
    cases = {}
    for case in wrong_trees.all_wrong(right):
        file = case.tree.get(trees.FILE)
        line = case.answer if file is None else reading.verified(file)
        if line.startswith("refused"):
            cases[shape(line), file is None] = case, line, file
    for case, line, file in cases.values():
        trees.lay_out(info, case.tree)
        names = ["%s/graph-%s.graph" % (trees.GRAPHS, name.decode("latin-1")) for name in case.tree.get(trees.CHAIN, b"").split()]
        layers = [case.tree.get(name, b"") for name in names] if file is None else [file]
        check_refusal(installed, results, repository, (case.name, line, layers))


def check_pool(installed, results, pool, flags):
    """A layer that is damaged in the object folder of another repository, over which a fork has a layer of its own: by the
    commands of the cure the fork has a right commit-graph of its own, with its filters, and the other one is left as it was.
    """
    history = shapes.diamonds(4)
    ids = pool.add(history[:9])
    pool.git("symbolic-ref", "HEAD", "refs/heads/tip-8")
    pool.write_graph(*flags)
    fork = Repository(pool.folder + ", its fork", pool.object_format)
    write_bytes(os.path.join(fork.info_path(), "alternates"), os.path.join(pool.folder, "objects").encode() + b"\n")
    shutil.copy(os.path.join(pool.folder, "marks"), os.path.join(fork.folder, "marks"))
    fork.git("update-ref", "refs/heads/pool", ids[-1])
    fork.add(history, len(ids))
    fork.write_graph(*flags)
    right = len(read_bytes(os.path.join(fork.chain_path(), "commit-graph-chain")).split())
    layer = os.path.join(pool.chain_path(), "graph-%s.graph" % pool.chain()[0][0])
    content = read_bytes(layer)
    write_bytes(layer, content[:-1] + bytes([content[-1] ^ 1]))
    before = {path: read_bytes(path) for path in files_below(pool.info_path())}
    start = refusals.written("git cgraph", refusals.sentences(refusals.read_rows(), "refused verify 4 layer 0 fault 1", "verify")[:1])
    start += "git cgraph: layer 0 is '%s', by line 1 of '" % os.path.realpath(layer)
    title = "a damaged layer of a pool, %s" % " ".join(flags)
    results.check(title + ", a fork's chain over it", None if right == 2 else "it has %d layers" % right)
    check_cure(installed, results, fork, (title, "refused verify 4 layer 0 fault 1\n", 1, start))
    left = before == {path: read_bytes(path) for path in files_below(pool.info_path())}
    results.check("the cure of %s, the pool is left as it was" % title, None if left else "it is another one")
    if installed.knows_objects:
        answer = installed.ask(Way(fork.folder), "verify", "--objects", "-j2")
        right = answer.status == 0 and answer.out.endswith("\nobjects commits %d\n" % len(history)) and not answer.err
        results.check("git cgraph verify --objects, layers and commits in a pool", None if right else "it is %r" % (answer,))
    kept = b"BDAT" in read_bytes(fork.graph_path())[:256]
    results.check("the cure of %s keeps filters" % title, None if kept == ("--changed-paths" in flags) else "it is %s" % kept)


def files_below(folder):
    """The paths of the files below a folder."""
    return [os.path.join(at, name) for at, _, names in os.walk(folder) for name in names]


def check_refusal(installed, results, repository, case):
    """What `git cgraph` and `graphtool` say of a damaged commit-graph: the case's name, its line and its layers. By the
    commands that `git cgraph` gives, it becomes right.
    """
    name, line, layers = case
    info, rows = os.path.realpath(repository.info_path()), refusals.read_rows()
    is_file = os.path.isfile(repository.graph_path())
    commit = ["the commit at position %s is %s" % at for at in [position_in(line, layers)] if at]
    words = [os.path.join(installed.prefix, "bin", "graphtool"), "verify", repository.graph_path() if is_file else info]
    answer = run(words, installed.variables)
    where = file_in(line, layers, repository.graph_path() if is_file else os.path.join(info, trees.GRAPHS), is_file)
    cause, advice = obstacle_in(info) if line == wrong_trees.NOT_OPENED else ("", "")
    opened = "'%s'" % repository.graph_path() if is_file else files_in(info)
    known = refusals.Known(where, advice, cause=cause, opened=opened)
    err = refusals.written("graphtool", [*commit, *refusals.sentences(rows, line.strip(), "verify", known)])
    complaint = None if answer == (1, line, err) else "it is %r, expected %r" % (answer, (1, line, err))
    results.check("graphtool verify, %s, in sentences" % name, complaint)
    there = any(os.path.lexists(path) for path in (repository.graph_path(), os.path.join(info, trees.CHAIN)))
    text, known = (line.strip(), refusals.Known(cause=cause)) if there else ("there is no commit-graph", None)
    start = refusals.written("git cgraph", [*([] if there else [text]), *commit, refusals.sentences(rows, text, "verify", known)[0]])
    check_cure(installed, results, repository, (name, line, 1 if there else 128, start))


def files_in(info):
    """The files of the commit-graph in an info folder, as they are named where they have to go away."""
    forms = ((trees.FILE, "'%s'"), (trees.GRAPHS, "the folder '%s'"))
    return " and ".join(form % os.path.join(info, name) for name, form in forms if os.path.lexists(os.path.join(info, name)))


def obstacle_in(info):
    """What is wrong with the first file of a commit-graph in an info folder that is not there or is a folder, and what to do."""
    file, chain = (os.path.join(info, name) for name in (trees.FILE, trees.CHAIN))
    if not os.path.lexists(chain):
        folder = "the file '%s' is a folder, not a file" % file, refusals.ANEW
        return folder if os.path.isdir(file) else ("there is neither '%s' nor a chain file '%s'" % (file, chain), "")
    if os.path.isdir(chain):
        return "the file '%s' is a folder, not a file" % chain, refusals.ANEW
    for number, line in enumerate(read_bytes(chain).splitlines(), 1):
        layer = os.path.join(os.path.dirname(chain), "graph-%s.graph" % os.fsdecode(line))
        names = "the file '%s', which line %d of '%s' names, " % (layer, number, chain)
        if not os.path.lexists(layer):
            return names + "is missing", ELSEWHERE
        if os.path.isdir(layer):
            return names + "is a folder, not a file", refusals.ANEW
    raise ValueError("all files are there")


def check_cure(installed, results, repository, case):
    """The case's name, the line and the status of `git cgraph verify`, and how its sentences begin: by the commands that they
    end with, the commit-graph becomes right, for Git too.
    """
    name, line, status, start = case
    way = Way(repository.folder)
    answer = installed.ask(way, "verify")
    right = answer[:2] == (status, line) and answer.err.startswith(start)
    results.check("git cgraph verify, %s, in sentences" % name, None if right else "it is %r, expected %r" % (answer, start))
    complaint = difference("verify", answer, installed.ask(way, "verify", "--json"))
    results.check("git cgraph verify --json, %s" % name, complaint)
    cure = "".join(line + "\n" for line in answer.err.splitlines() if line.startswith("    "))
    cured = run(["sh", "-e", "-c", cure], {**installed.variables, **way.variables}, cwd=way.folder)
    verdicts = installed.ask(way, "verify").status, installed.git(way, "commit-graph", "verify").status
    right = cure and cured.status == 0 and verdicts == (0, 0)
    results.check("the cure of %s" % name, None if right else "%r gives %r, and then %r" % (cure, cured, verdicts))


def file_in(line, layers, path, is_file):
    """The sentence on the file of which a line speaks, of a file or of a folder with a chain at this path, or none."""
    named = re.match(r"refused (?:open 5|verify \d+|dates \d+|filters \d+) (layer|position) (\d+)", line)
    chain = os.path.join(path, os.path.basename(trees.CHAIN))
    if re.match("refused open [46] ", line) and not is_file:
        return "the chain file is '%s'" % chain
    if not named or is_file:
        return "the file is '%s'" % path if named else ""
    number = int(named.group(2))
    if named.group(1) == "position":
        counts = itertools.accumulate(int(reading.listed(layer).split("\n")[0].split()[-1]) for layer in layers)
        number = next(at for at, count in enumerate(counts) if number < count)
    name = read_bytes(chain).splitlines()[number].decode()
    return "layer %d is '%s'" % (number, os.path.join(path, "graph-%s.graph" % name))


def position_in(line, layers):
    """The position that a line names, and the id that stands there, if it names one."""
    words = line.split()
    if "position" not in words:
        return None
    position = int(words[words.index("position") + 1])
    lines = itertools.chain.from_iterable(reading.listed(layer).splitlines() for layer in layers)
    return position, [line.split()[1] for line in lines if line[0].isdigit()][position]
