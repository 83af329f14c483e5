"""Checks building/release, in a copy of its files with a gate that the checks make."""

import datetime
import os
import shutil
import subprocess
import tempfile

import version
from wrappers.clone import TOP, run

COPIED = ("building/release", "building/version.py", version.CHANGES, *(path for path, _ in version.PLACES + version.AS_ONE))
NAME = {"GIT_%s_%s" % (who, what): "name@example.com" for who in ("AUTHOR", "COMMITTER") for what in ("NAME", "EMAIL")}
CHANGES = "# Changes\n\n## Unreleased\n\n- one\n\n## %s, 2020-01-01\n\n- none\n"


class Copy:
    """A repository with the files that name the version, and a gate that ends with a status."""

    def __init__(self, folder, gate=0, changes=CHANGES % version.number()):
        self.folder = folder
        for path in COPIED:
            os.makedirs(os.path.dirname(os.path.join(folder, path)), exist_ok=True)
            shutil.copy(os.path.join(TOP, path), os.path.join(folder, path))
        version.write(version.CHANGES, changes, folder)
        os.mkdir(os.path.join(folder, "gate"))
        version.write("gate/test", "#!/bin/sh\nexit %d\n" % gate, folder)
        os.chmod(os.path.join(folder, "gate", "test"), 0o755)
        for words in (["init", "--quiet"], ["add", "--all"], ["commit", "--quiet", "--message", "All"]):
            self.git(*words)

    def git(self, *words):
        """What a command of Git writes in the copy."""
        command = ["git", "-C", self.folder, *words]
        return subprocess.run(command, env=variables(), check=True, stdout=subprocess.PIPE, text=True).stdout

    def release(self, *words):
        """The answer of building/release."""
        return run([os.path.join(self.folder, "building", "release"), *words], variables())


def variables():
    """The surroundings of a run, with no settings of the machine or the user."""
    return {"PATH": os.environ["PATH"], "HOME": "/nowhere", "GIT_CONFIG_NOSYSTEM": "1", "LC_ALL": "C", "PYTHONDONTWRITEBYTECODE": "1", **NAME}


def check_all(results):
    """The checks of a release."""
    check_release(results)
    check_gate(results)
    check_refusals(results)


def check_release(results):
    """A number stands in all places then, the changes have it with the date, and a tag leads to the commit."""
    with tempfile.TemporaryDirectory() as folder:
        copy = Copy(folder)
        answer = copy.release("99.1.0")
        complaint = None if answer.status == 0 else "it is %r" % (answer,)
        results.check("building/release", complaint or next(version.wrong_places(folder), None))
        heading = "## 99.1.0, %s\n\n- one\n\n## %s, " % (datetime.date.today().isoformat(), version.number())
        changes = version.read(version.CHANGES, folder)
        right = version.number(folder) == "99.1.0" and heading in changes and version.UNRELEASED not in changes
        results.check("building/release, the changes are dated", None if right else "they are %r" % changes)
        right = copy.git("rev-parse", "v99.1.0^{commit}") == copy.git("rev-parse", "HEAD") and not copy.git("status", "--porcelain")
        results.check("building/release, a tag leads to the commit", None if right else copy.git("log", "--oneline", "--decorate"))


def check_gate(results):
    """Where the gate fails, everything is as it was."""
    with tempfile.TemporaryDirectory() as folder:
        copy = Copy(folder, gate=1)
        before = copy.git("rev-parse", "HEAD")
        answer = copy.release("99.1.0")
        right = answer.status == 1 and "the gate failed" in answer.err and copy.git("rev-parse", "HEAD") == before
        right = right and not copy.git("tag", "--list") and not copy.git("status", "--porcelain")
        results.check("building/release, the gate fails", None if right else "it is %r" % (answer,))


def check_refusals(results):
    """No release is made without changes, of what is not committed, or with a number that is none or not above the last."""
    for title, words, changes, why in (
        ("no number", ["1.2"], CHANGES, "is no number"),
        ("the number of the last version", [version.number()], CHANGES, "is not above"),
        ("no changes", ["99.1.0"], CHANGES.replace("- one\n\n", ""), "has no changes"),
        ("no heading for changes", ["99.1.0"], CHANGES.replace("## Unreleased\n\n", ""), "has no changes"),
    ):
        with tempfile.TemporaryDirectory() as folder:
            answer = Copy(folder, changes=changes % version.number()).release(*words)
            right = answer[:2] == (1, "") and why in answer.err
            results.check("building/release, " + title, None if right else "it is %r" % (answer,))
    with tempfile.TemporaryDirectory() as folder:
        copy = Copy(folder)
        version.write("more", "more\n", folder)
        answer = copy.release("99.1.0")
        right = answer[:2] == (1, "") and "not committed" in answer.err
        results.check("building/release, of what is not committed", None if right else "it is %r" % (answer,))
