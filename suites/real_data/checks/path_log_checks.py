"""Checks `paths` beside `git log -- PATH`, over graphs whose filters were damaged at random: where all filters are found right, Git lists
the same commits by them as without a commit-graph, for each path that was asked; and where one is told to lack a path, Git leaves
out that commit.

Run by itself, `python3 path_log_checks.py HISTORYTOOL SEEDS PATHS`, it takes so many seeds and paths for each repository.
"""

import os
import random
import sys
import tempfile

if __name__ == "__main__":
    ROOM = os.path.dirname(os.path.dirname(os.path.abspath(__file__)))
    sys.path[:0] = [ROOM, os.path.dirname(ROOM), *(os.path.join(os.path.dirname(os.path.dirname(ROOM)), name) for name in ("gate", "building"))]

from checks import tree_checks
from checks.cgraph_checks import Installed, Way
from checks.tree_checks import EXECUTABLE, FILE, LINKED, Held, Step, ring
from expected import filters
from histories.repository import ID_LENGTH, Repository, write_bytes
from wrappers.clone import exactly, run

SEEDS, PATHS = 24, 12
"""So many graphs of each repository are damaged, and so many paths are asked of each that is right."""


def check_kind(histories, results, new):
    """The checks of ids of one kind."""
    for name, steps in HISTORIES.items():
        check_repository(histories, results, new("log of " + name), name, steps, SEEDS, PATHS)


def check_all(programs, results, folder, new):
    """What `git cgraph verify --paths` says of right filters, in a file and in a chain, and of one that lacks a path, until its commands
    were pasted.
    """
    installed = Installed(os.path.join(folder, "installed"), programs)
    for kind in ID_LENGTH:
        repository = new(kind, "told of paths")
        tree_checks.add_commits(repository)
        way = Way(repository.folder)
        logs = Logs(repository)
        verified = installed.ask(way, "verify").out
        told = (0, "%spaths commits %d\n" % (verified, sum(map(bool, logs.stored))), "")
        for words in ([], ["--object-dir", os.path.join(repository.folder, "objects")]):
            title = "git cgraph verify --paths %s, %s" % (" ".join(words[:1]), kind)
            results.check(title, exactly(installed.ask(way, "verify", "--paths", *words), *told))
        lacking = [bytes(len(own)) if len(own) > 1 else own for own in logs.stored]
        layer = filters.with_filters(logs.held.layer, kind, lacking, logs.settings)
        write_bytes(repository.graph_path(), layer)
        answer, line = installed.ask(way, "verify", "--paths"), logs.held.expected(layer)[1]
        commit = logs.commits[int(line.split()[4])]
        right = answer[:2] == (1, line + "\n") and commit in answer.err and repository.graph_path() in answer.err
        results.check("git cgraph verify --paths, a path that is lacked, %s" % kind, None if right else "it is %r" % (answer,))
        commands = "\n".join(line for line in answer.err.split("\n") if line.startswith("    "))
        run(["sh", "-c", commands], installed.variables, cwd=repository.folder)
        complaint = exactly(installed.ask(way, "verify", "--paths"), *told)
        results.check("git cgraph verify --paths, after its commands were pasted, %s" % kind, complaint)


def check_repository(histories, results, repository, name, steps, seeds, most_paths):
    """Notes whether both agree over all damaged graphs of one repository."""
    if steps is None:
        tree_checks.add_commits(repository)
    else:
        tree_checks.import_commits(repository, steps(random.Random("%s %s" % (repository.object_format, name))))
    logs, answers, wrong = Logs(repository), {True: 0, False: 0}, []
    for seed in range(seeds):
        chance = random.Random("%s %s %d" % (repository.object_format, name, seed))
        is_right, complaint = logs.compared(histories, chance, most_paths)
        answers[is_right] += 1
        wrong += ["seed %d: %s" % (seed, complaint)] if complaint else []
    title = "%s, paths beside git log, %s (%d right, %d refused)" % (repository.object_format, name, answers[True], answers[False])
    results.check(title, "; ".join(wrong[:3]) or (None if all(answers.values()) else "all are the same"))


class Logs:
    """A repository, its graph with filters, and the commits that Git lists for paths."""

    def __init__(self, repository):
        self.repository, self.held = repository, Held(None, repository)
        stored, self.settings = filters.stored(self.held.layer, self.held.kind)
        self.commits, self.stored, self.plain = list(stored), list(stored.values()), {}
        touched = {path for commit in self.commits for path in filters.entries(self.held.changed(commit))}
        self.paths = sorted(touched)

    def log(self, path, graph):
        """The commits that Git lists for a path, by a commit-graph or without one."""
        words = ("--literal-pathspecs", "-c", "core.commitGraph=%s" % graph, "log", "--full-history", "--all", "--format=%H", "--", path)
        return self.repository.git(*words).split()

    def without_graph(self, path):
        """The same without a commit-graph, listed once."""
        if path not in self.plain:
            self.plain[path] = self.log(path, "false")
        return self.plain[path]

    def compared(self, histories, chance, most_paths):
        """Whether a graph of damaged filters is right, by `paths`, and what is wrong with that."""
        layer = filters.with_filters(self.held.layer, self.held.kind, damaged(self.stored, chance), self.settings)
        write_bytes(self.repository.graph_path(), layer)
        answer, _ = ring(histories, self.repository, layer)
        if answer.status == 0:
            asked = chance.sample(self.paths, min(most_paths, len(self.paths)))
            differ = [path for path in asked if self.log(path, "true") != self.without_graph(path)]
            return True, "Git lists other commits for %r" % differ[0] if differ else None
        return False, self.complaint(answer)

    def complaint(self, answer):
        """What is wrong with a refusal: Git lists the commit by its filter, though it is told to lack the path."""
        start, number, path = "refused paths 11 position ", "", None
        line = answer.out.decode().strip("\n")
        if line.startswith(start):
            number, path = line[len(start) :].split(" path ", 1)
        if path is None or answer.status != 1:
            return "it is %r" % (answer,)
        commit = self.commits[int(number)]
        name = next(name for name in self.paths if tree_checks.quoted(name) == path)
        if len(self.held.commits[commit].parents) != 1:
            return None
        listed = commit.encode() in self.log(name, "true"), commit.encode() in self.without_graph(name)
        return None if listed == (False, True) else "Git lists %s for %r: %s and %s" % (commit, name, *listed)


def damaged(stored, chance):
    """The filters, of which some were changed: bits are set or cleared, two are exchanged, or one is full, empty or left out."""
    made = list(stored)
    for _ in range(chance.choice((1, 1, 2, 5))):
        place = chance.randrange(len(made))
        own = bytearray(made[place])
        if own and chance.random() < 0.7:
            own[chance.randrange(len(own))] |= 1 << chance.randrange(8)
            made[place] = bytes(own)
        elif own and chance.random() < 0.5:
            own[chance.randrange(len(own))] &= ~(1 << chance.randrange(8)) & 0xFF
            made[place] = bytes(own)
        elif chance.random() < 0.3:
            other = chance.randrange(len(made))
            made[place], made[other] = made[other], made[place]
        else:
            made[place] = chance.choice((b"", b"\xff", b"\xff" * 8))
    return made


def line_of(chance):
    """Commits in a row, each with some files in folders of folders."""
    return [Step(some_files(chance, number), (), (number - 1,) if number else ()) for number in range(60)]


def topics_of(chance):
    """Topics of some commits, each merged into the main line."""
    steps, main = [Step(some_files(chance, 0), (), ())], 0
    for _ in range(12):
        begin = chance.randrange(len(steps))
        for number in range(chance.randrange(1, 5)):
            steps.append(Step(some_files(chance, len(steps)), (), (begin if number == 0 else len(steps) - 1,)))
        steps.append(Step(some_files(chance, len(steps))[:1], (), (main, len(steps) - 1)))
        main = len(steps) - 1
    return steps


def moves_of(chance):
    """Directories that become files and links, and the other way round."""
    steps = [Step(some_files(chance, 0), (), ())]
    for number in range(1, 50):
        name = b"f%d" % chance.randrange(3)
        files = [(chance.choice((FILE, EXECUTABLE, LINKED)), name, b"%d" % number)] if number % 2 else some_files(chance, number)
        steps.append(Step(files, (name,) if number % 2 else (), (number - 1,)))
    return steps


def deep_of(chance):
    """Files in folders of many levels."""
    steps = []
    for number in range(40):
        folders = [b"d%d" % chance.randrange(2) for _ in range(chance.randrange(10, 30))]
        steps.append(Step([(FILE, b"/".join([*folders, b"file"]), b"%d" % number)], (), (number - 1,) if number else ()))
    return steps


def some_files(chance, number):
    """Some files that a commit writes."""
    folders = [b"".join(b"f%d/" % chance.randrange(3) for _ in range(chance.randrange(1, 5))) for _ in range(3)]
    return [(chance.choice((FILE, EXECUTABLE)), folder + b"n%d" % chance.randrange(6), b"%d" % number) for folder in folders]


HISTORIES = {"all shapes": None, "a line": line_of, "topics": topics_of, "moves": moves_of, "deep": deep_of}
"""What makes the commits of each repository; those of tree_checks where nothing does."""


def main(program, seeds, paths):
    """Runs the checks by themselves, with as many seeds and paths."""
    from checks.program import HistoryProgram
    from results import Results

    results = Results()
    with tempfile.TemporaryDirectory() as folder:
        for name, steps in HISTORIES.items():
            repository = Repository(os.path.join(folder, name), "sha1")
            check_repository(HistoryProgram(program), results, repository, name, steps, int(seeds), int(paths))
    return results.finish()


if __name__ == "__main__":
    sys.exit(main(*sys.argv[1:]))
