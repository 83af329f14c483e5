"""Checks `git cgraph write` when all of its processes are killed before each system call by which it changes a file: the repository has
the old commit-graph or the new one, never none or a part, and a second `write` goes on, or names the lock that is in the way.
"""

import os
import re
import shutil
import signal
import struct
import subprocess
import tempfile

from checks.cgraph_checks import Installed, Way
from histories import shapes
from histories.repository import read_bytes
from wrappers.clone import run

LIBRARY = os.path.join(os.path.dirname(os.path.dirname(os.path.abspath(__file__))), "killing.c")
LOCKED = "git cgraph: the commit-graph is locked\n"

CASES = {
    "a file over a file": ([], []),
    "a file over a chain": (["--split"], []),
    "a layer on a chain": (["--split"], ["--split"]),
    "a layer on a file": ([], ["--split"]),
}
"""The options by which the old commit-graph is written, and those of the command that is killed, after a commit more."""


class Killed:
    """A repository in which commands are killed."""

    def __init__(self, installed, repository, library):
        self.installed, self.repository, self.library = installed, repository, library
        self.way = Way(repository.folder)
        self.count = os.path.join(repository.folder, "count")

    def lay(self, tree):
        """Puts a folder `info` in the place of what is there."""
        shutil.rmtree(self.repository.info_path(), ignore_errors=True)
        shutil.copytree(tree, self.repository.info_path(), symlinks=True)

    def run(self, options, at):
        """Runs a command that is killed before a call, if that is not 0. Answers how it ended, and how many calls it came to."""
        with open(self.count, "wb") as file:
            file.write(bytes(4))
        below = os.path.realpath(self.repository.info_path())
        killing = {"LD_PRELOAD": self.library, "KILL_BELOW": below, "KILL_COUNT": self.count, "KILL_AT": str(at)}
        variables = {**self.installed.variables, **killing}
        command = [os.path.join(self.installed.prefix, "bin", "git-cgraph"), "write", *options]
        streams = {"stdin": subprocess.DEVNULL, "stdout": subprocess.DEVNULL, "stderr": subprocess.PIPE}
        ended = subprocess.run(command, env=variables, cwd=self.way.folder, start_new_session=True, check=False, timeout=60, **streams)
        return ended, struct.unpack("i", read_bytes(self.count))[0]

    def stands(self):
        """The bytes of the commit-graph that counts: those of the file, or of the chain file and of each layer."""
        if os.path.lexists(self.repository.graph_path()):
            return [read_bytes(self.repository.graph_path())]
        if not os.path.lexists(os.path.join(self.repository.chain_path(), "commit-graph-chain")):
            return None
        return [content for _, content in self.repository.chain()]

    def files(self):
        """The files that are there, with their bytes."""
        found = []
        for folder, _, names in os.walk(self.repository.info_path()):
            found += [(name, read_bytes(os.path.join(folder, name))) for name in names]
        return tuple(sorted(found))


def check_all(programs, results, folder, new):
    """The checks of all cases."""
    if not shutil.which("cc"):
        print("left out, since there is no cc: git cgraph write, killed at each system call")
        return
    library = os.path.join(folder, "killing.so")
    subprocess.check_call(["cc", "-shared", "-fPIC", "-O1", LIBRARY, "-o", library])
    installed = Installed(os.path.join(folder, "installed"), programs)
    for title, (before, options) in CASES.items():
        killed = Killed(installed, new("sha1", "killed, " + title), library)
        check_case(results, killed, title, before, options)


def check_case(results, killed, title, before, options):
    """The checks of one case: a run that is killed before each call, and what comes after each state that is left so."""
    repository, title = killed.repository, "git cgraph write, %s" % title
    history = shapes.diamonds(3)
    repository.add(history[:7])
    killed.installed.ask(killed.way, "write", *before)
    repository.add(history[:8], 7)
    old = killed.stands()
    with tempfile.TemporaryDirectory() as kept:
        tree = os.path.join(kept, "info")
        shutil.copytree(repository.info_path(), tree)
        ended, calls = killed.run(options, 0)
        new, files = killed.stands(), killed.files()
        right = ended.returncode == 0 and calls > 4 and new != old and repository.git_verdict() == (0, False)
        results.check("%s, not killed" % title, None if right else "it is %r after %d calls" % (ended, calls))
        wrong, states = [], {}
        for at in range(1, calls + 1):
            killed.lay(tree)
            ended, _ = killed.run(options, at)
            if ended.returncode != -signal.SIGKILL or killed.stands() not in (old, new):
                wrong.append((at, ended, killed.stands()))
            if killed.files() not in states:
                states[killed.files()] = at
                shutil.copytree(repository.info_path(), os.path.join(kept, str(at)))
        results.check("%s, killed before each of %d calls" % (title, calls), "%r" % wrong[0] if wrong else None)
        for at in states.values():
            killed.lay(os.path.join(kept, str(at)))
            results.check("%s, goes on after call %d" % (title, at - 1), goes_on(killed, options, new, files))


def goes_on(killed, options, new, files):
    """A complaint where a second `write` does not end well, after the locks that it names are removed if there are any."""
    answer = killed.installed.ask(killed.way, "write", *options)
    if answer.status == 128 and answer.err.startswith(LOCKED):
        cure = re.search(r"^    (rm -f .*\.lock')$", answer.err, re.MULTILINE).group(1)
        run(["sh", "-c", cure], killed.installed.variables, cwd=killed.way.folder)
        answer = killed.installed.ask(killed.way, "write", *options)
    if answer.status == 0 and killed.stands() == new and killed.files() == files and killed.repository.git_verdict() == (0, False):
        return None
    return "it is %r, with %s" % (answer, [name for name, _ in killed.files()])
