"""A copy of the scripts in a folder of its own, with no sources, no program and no rt, and runs of its commands."""

import os
import shutil
import subprocess
from functools import lru_cache
from typing import NamedTuple

TOP = os.path.dirname(os.path.dirname(os.path.dirname(os.path.abspath(__file__))))
TOOLS = ("sh", "awk", "cat", "chmod", "cp", "dirname", "find", "git", "id", "ln", "mkdir", "mktemp", "mv", "readlink", "rm", "rmdir")
MORE_TOOLS = ("comm", "grep", "head", "od", "sed", "sleep", "sort", "stat", "sync", "tail", "tee", "touch", "tr", "wc")
PROGRAMS = ("graphtool", "historytool")
COPIED = (
    *("git-cgraph", "graphtool", "historytool", "VERSION", "docs/MANUAL.md", "docs/REFUSALS.md", "docs/PROGRAMS.md"),
    "tables/refusals.tsv",
    *("shell/answers.sh", "shell/usage.sh", "shell/explain.awk", "tables/commands", "tables/fields"),
    *("building/install", "building/program", "building/library", "building/package", "building/building.sh", "bindings/c/commitgraph.h"),
    *("bindings/c/commitgraph_path.h", "bindings/c/commitgraph.pc", "bindings/c/commitgraph.3", "bindings/c/commitgraph-config.cmake"),
    "bindings/c/commitgraph-config-version.cmake",
    *("crates/graphtool/src/main.rt", "crates/historytool/src/main.rt", "LICENSE-MIT", "LICENSE-APACHE"),
    "docs/DIFFERENCES.md",
)
BUILT = ("cgraph/target/release/git-cgraph", "cgraph/target/release/git-cgraph-texts")
"""What cargo builds, newer than all that is copied."""


@lru_cache(maxsize=None)
def build():
    """Has `git cgraph` built, if a source is newer."""
    subprocess.run([os.path.join(TOP, "git-cgraph"), "--version"], stdout=subprocess.DEVNULL, check=True)


class Answer(NamedTuple):
    """The status of a run, and what it wrote."""

    status: int
    out: str
    err: str


class Clone:
    """A copy of the scripts; its own folder `bin` has the tools that they need and is the whole PATH."""

    def __init__(self, folder):
        self.folder = os.path.join(folder, "a clone")
        self.temporary = os.path.join(folder, "temporary")
        self.home = os.path.join(folder, "home")
        for name in COPIED:
            with open(os.path.join(TOP, name), encoding="utf-8") as file:
                self.put(name, file.read())
        self.put("crates.txt", "")
        build()
        os.makedirs(os.path.join(self.folder, os.path.dirname(BUILT[0])))
        for name in BUILT:
            shutil.copyfile(os.path.join(TOP, name), os.path.join(self.folder, name))
            os.chmod(os.path.join(self.folder, name), 0o755)
        for made in ("bin", self.temporary, self.home):
            os.mkdir(os.path.join(self.folder, made))
        for tool in TOOLS + MORE_TOOLS:
            os.symlink(shutil.which(tool), os.path.join(self.folder, "bin", tool))

    def put(self, name, text):
        """Makes a file that may be run, in the place of one that stands there."""
        path = os.path.join(self.folder, name)
        os.makedirs(os.path.dirname(path), exist_ok=True)
        with open(path, "w", encoding="utf-8") as file:
            file.write(text)
        os.chmod(path, 0o755)

    def put_program(self, name, text, asks=False):
        """Makes a built program, newer than the sources, of a shell script. Unless it asks for newer commits itself, it asks for none."""
        asks_for_none = "" if asks else 'for word in "$@"; do [ "$word" != --newer ] || echo; done\n'
        self.put("crates/%s/out/%s" % (name, name), "#!/bin/sh\n" + asks_for_none + text)

    def put_library(self):
        """Makes the built library, newer than the sources, of a line of text."""
        for name in ("libcommitgraph_c.a", "libcommitgraph.a", "libcommitgraph.so"):
            self.put("crates/commitgraph_c/out/" + name, "the library\n")

    def surroundings(self, **more):
        """The variables of a run: a PATH with the tools alone, and no settings of the machine or the user."""
        return {
            "PATH": os.path.join(self.folder, "bin"),
            "HOME": self.home,
            "TMPDIR": self.temporary,
            "GIT_CONFIG_NOSYSTEM": "1",
            "LC_ALL": "C",
            **more,
        }

    def run(self, words, shell=(), path=None, **streams):
        """The answer of a command to some words, run by a shell if one is given."""
        return run([*shell, path or os.path.join(self.folder, words[0]), *words[1:]], self.surroundings(), **streams)

    def left_over(self):
        """A complaint where a run left something in the folder for temporary files or at home."""
        left = os.listdir(self.temporary) + os.listdir(self.home)
        return "it left %s" % left if left else None


def run(command, variables, **streams):
    """The answer of a command in such surroundings."""
    streams = {"stdin": subprocess.DEVNULL, "stdout": subprocess.PIPE, "stderr": subprocess.PIPE, **streams}
    if "input" in streams:
        del streams["stdin"]
    ended = subprocess.run(command, env=variables, check=False, timeout=60, **streams)
    out, err = ((text or b"").decode("utf-8", "surrogateescape") for text in (ended.stdout, ended.stderr))
    return Answer(ended.returncode, out, err)


def exactly(answer, status, out, err=""):
    """A complaint where an answer is not just this."""
    return None if answer == (status, out, err) else "it is %r" % (answer,)
