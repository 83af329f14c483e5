"""When the edits of each crate were last tried: by the notes in gate/edits.tried, and by the later runs in this tree.

A run writes into `out`, which no commit has, and `gate/edits --note` takes what it wrote into the notes.
"""

import datetime
import glob
import hashlib
import os
import subprocess
from typing import List, NamedTuple

import entries
from documents import lower_crates

NOTES, RUNS = os.path.join("gate", "edits.tried"), os.path.join("out", "edits.tried")
HEAD = """\
# When gate/edits last tried the edits and right bodies of each crate, on which commit, how many passed and failed, and
# digests of the crate's texts and of those of the crates below it. Names at the end of a line are edits that are left, as
# the run was cut off. gate/edits --note writes this, from what the runs since found; gate/edits --when reads both.
"""
READ = ("src", "specs", "proofs")
"""The folders that a check of a crate above reads."""

OWN = {entries.EDITS: "edits", entries.RIGHT_BODIES: "must-pass"}
"""The files of entries, and the folder in which each entry counts as a file of its own: their order does not matter."""


class Trial(NamedTuple):
    """A run over all edits and right bodies of a crate; `left` names those of which nothing is known yet."""

    crate: str
    date: str
    commit: str
    passed: int
    failed: int
    own: str
    below: str
    left: List[str]


def recorded(top):
    """The last trial of each crate of a tree, by the crate's name: of one in the notes and one of a run in this tree, that of
    the run, unless it tried other texts than those that the crate has, and the other tried these.
    """
    noted, ran = written(top, NOTES), written(top, RUNS)
    stale = {crate for crate in noted.keys() & ran.keys() if not is_on(top, ran[crate]) and is_on(top, noted[crate])}
    return {**noted, **{crate: trial for crate, trial in ran.items() if crate not in stale}}


def written(top, name):
    """The trials in a file, by their crates."""
    path = os.path.join(top, name)
    lines = open(path, encoding="utf-8").read().split("\n") if os.path.exists(path) else []
    return {line.split()[0]: trial_of(*line.split()) for line in lines if line and not line.startswith("#")}


def is_on(top, trial):
    """Whether a trial was on the texts that a tree has."""
    return (trial.own, trial.below) == digests(top, trial.crate)


def trial_of(crate, date, commit, passed, failed, own, below, *left):
    """The trial of which these are the words of its line."""
    return Trial(crate, date, commit, int(passed), int(failed), own, below, list(left))


def begin(top, crate, names):
    """A trial of a crate's edits and right bodies of these names, on the texts as they are: one that was cut off, if there
    is one on the same texts, or else one with nothing passed or failed yet."""
    command = ["git", "-C", top, "rev-parse", "--short", "HEAD"]
    named = subprocess.run(command, stdout=subprocess.PIPE, stderr=subprocess.DEVNULL, check=False)
    commit = named.stdout.decode("ascii").strip() if named.returncode == 0 else "-"
    trial = Trial(crate, datetime.date.today().isoformat(), commit, 0, 0, *digests(top, crate), names)
    earlier = recorded(top).get(crate, trial)
    is_same = earlier.left and (earlier.own, earlier.below) == (trial.own, trial.below)
    return trial._replace(passed=earlier.passed, failed=earlier.failed, left=earlier.left) if is_same else trial


def record(top, trial, name, complaint):
    """The trial after one more edit, whose complaint is None if it passed. It is kept, so that a run may be cut off."""
    if name in trial.left:
        left = [other for other in trial.left if other != name]
        is_wrong = complaint is not None
        trial = trial._replace(passed=trial.passed + (not is_wrong), failed=trial.failed + is_wrong, left=left)
    write(top, RUNS, {**written(top, RUNS), trial.crate: trial})
    return trial


def note(top):
    """Takes what the runs in this tree found into the notes, and answers the crates whose line is another one then."""
    trials, noted = recorded(top), written(top, NOTES)
    write(top, NOTES, trials)
    return sorted(crate for crate in trials if trials[crate] != noted.get(crate))


def write(top, name, trials):
    """Writes trials into a file, sorted by their crates."""
    path = os.path.join(top, name)
    os.makedirs(os.path.dirname(path), exist_ok=True)
    with open(path + ".new", "w", encoding="utf-8") as file:
        file.write(HEAD + "".join("%s\n" % line_of(trials[crate]) for crate in sorted(trials)))
    os.replace(path + ".new", path)


def line_of(trial):
    """The line of a trial."""
    return " ".join(map(str, (*trial[:-1], *trial.left)))


def due(top, crates):
    """A line for each of these crates whose edits are to be tried, which says why."""
    trials = recorded(top)
    for crate in crates:
        trial = trials.get(crate)
        why = reason(trial, *digests(top, crate)) if trial else "no trial is recorded"
        if why:
            yield "%s: %s" % (crate, why)


def reason(trial, own, below):
    """Why the edits of a crate are to be tried again, or None where they are not."""
    tried = "tried on %s at %s, " % (trial.date, trial.commit)
    if trial.own != own:
        return tried + "and the crate changed since"
    if trial.below != below:
        return tried + "and a crate below it changed since"
    if trial.left:
        return tried + "and %d of them are left" % len(trial.left)
    return tried + "and %d failed" % trial.failed if trial.failed else None


def digests(top, crate):
    """Digests of the texts of a crate, and of those of the crates below it."""
    with open(os.path.join(top, "crates.txt"), encoding="utf-8") as file:
        lower = lower_crates(file.read()).get(crate, {crate})
    below = (text for other in sorted(lower - {crate}) for text in texts_of(top, other))
    return digest([*texts_of(top, crate), *entries_of(top, crate)]), digest(below)


def digest(texts):
    """A digest of texts and of their paths."""
    found = hashlib.sha256()
    for path, text in texts:
        found.update(b"%s %d\n" % (path.encode("utf-8"), len(text)) + text)
    return found.hexdigest()[:12]


def texts_of(top, crate):
    """The paths and the texts of what a check reads of a crate."""
    for folder in READ:
        for path in sorted(glob.glob(os.path.join(top, "crates", crate, folder, "**", "*.*"), recursive=True)):
            with open(path, "rb") as file:
                yield os.path.relpath(path, top), file.read()


def entries_of(top, crate):
    """The edits and the right bodies of a crate, each as a path and a text without the line of its name."""
    for name, folder in OWN.items():
        texts = {edit.entry: edit.text.split("\n", 1)[1] for edit in entries.of_crate(top, crate, name)}
        paths = {"crates/%s/%s/%s.edit" % (crate, folder, entry): text for entry, text in texts.items()}
        yield from ((path, paths[path].encode("utf-8")) for path in sorted(paths))
