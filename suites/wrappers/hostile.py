"""Checks `git cgraph` in hostile surroundings: words of odd bytes, no Git, thousands of folders of which objects are borrowed,
SIGKILL, and signals at any time. Git is the real one, and the programs are shell scripts.
"""

import os
import random
import shutil
import signal
import subprocess
import tempfile
import time

from wrappers.clone import BUILT, exactly, run
from wrappers.questions import is_running, said
from wrappers.writes import Written

WORDS = (
    *(b"verify", b"check", b"distinct", b"show", b"list", b"find", b"is-ancestor", b"walk", b"merge-base", b"-q", b"--json", b"-C", b"."),
    *(b"--object-dir", b"--", b"-j", b"3", b"HEAD", b"HEAD~1", b"\xff\xfe", b"", b"-v", b"--unchecked", b"--graph-only", b"--objects", b"--paths", b"--all-checks"),
    *(b"--if-exists", b"\x01\n", b"nothing", b"-\xff", b"--jobs=\xff", b"-h", b"--version", b":/first", b"'", b'"$(id)"'),
)
LINES = 600
"""So many command lines are tried."""

MANY = 10_000
"""So many object folders are borrowed from."""

SIGNALS = 60
"""So many signals come at any time."""


def check_all(results):
    """The checks, in one repository. The program itself is run, without the script that builds it."""
    with tempfile.TemporaryDirectory() as folder:
        written = Written(folder)
        path = os.path.join(written.clone.folder, BUILT[0])
        written.write("--split")
        check_words(results, written, path)
        check_no_git(results, written, path)
        check_alternates(results, written, path, os.path.join(folder, "pools"))
        check_killed(results, written, path)
        check_any_time(results, written, path)
        results.check("git cgraph in hostile surroundings, nothing is left over", written.clone.left_over())


def check_words(results, written, path):
    """Words of odd bytes end with the usage, with an answer, or with a sentence that says why there is none."""
    drawn, wrong = random.Random(7), []
    for _ in range(LINES):
        words = [word_of(drawn) for _ in range(drawn.randrange(6))]
        answer = run([os.fsencode(path), *words], written.clone.surroundings(), cwd=written.folder)
        right = answer.status in (0, 1, 128, 129) and "panicked" not in answer.err
        if not right or (answer.status == 129) != ("usage: git cgraph" in answer.err):
            wrong.append((words, answer))
    results.check("git-cgraph, %d lines of odd words" % LINES, "%d are wrong, first %r" % (len(wrong), wrong[0]) if wrong else None)


def word_of(drawn):
    """A word of the manual, or some bytes."""
    if drawn.random() < 0.9:
        return drawn.choice(WORDS)
    return bytes(drawn.randrange(1, 256) for _ in range(drawn.randrange(1, 6)))


def check_no_git(results, written, path):
    """Without Git that is said."""
    answer = run([path, "verify"], {**written.clone.surroundings(), "PATH": "/nonexistent"}, cwd=written.folder)
    right = answer[:2] == (128, "") and "git cannot be started: " in answer.err and answer.err.endswith(said(["Git tells of no repository here"]))
    results.check("git-cgraph, with no Git", None if right else "it is %r" % (answer,))
    ignoring = lambda: signal.signal(signal.SIGCHLD, signal.SIG_IGN)
    answer = run([path, "verify"], written.clone.surroundings(), cwd=written.folder, preexec_fn=ignoring)
    complaint = exactly(answer, 0, "ok commits %d longest 1\n" % len(written.ids()))
    results.check("git-cgraph, of a parent that ignores SIGCHLD", complaint)


def check_alternates(results, written, path, pools):
    """A commit-graph in the last of many folders of which objects are borrowed is found."""
    names = [os.path.join(pools, str(number)) for number in range(MANY)]
    for name in names:
        os.makedirs(name)
    aside = os.path.join(pools, "aside")
    os.rename(written.info, aside)
    shutil.copytree(aside, os.path.join(names[-1], "info"))
    os.mkdir(written.info)
    with open(os.path.join(written.info, "alternates"), "w", encoding="utf-8") as file:
        file.write("".join(name + "\n" for name in names))
    answer = run([path, "verify"], written.clone.surroundings(), cwd=written.folder)
    results.check("git-cgraph, with %d folders to borrow from" % MANY, exactly(answer, 0, "ok commits %d longest 1\n" % len(written.ids())))
    shutil.rmtree(written.info)
    os.rename(aside, written.info)


def start(written, path, words):
    """A run in a session of its own."""
    quiet = {"stdin": subprocess.DEVNULL, "stdout": subprocess.PIPE, "stderr": subprocess.PIPE}
    return subprocess.Popen([path, *words], env=written.clone.surroundings(), cwd=written.folder, start_new_session=True, **quiet)


def check_killed(results, written, path):
    """SIGKILL, which no process can take, ends the program that was asked too."""
    process = os.path.join(written.clone.folder, "process")
    written.clone.put_program("graphtool", "echo $$ >'%s'\nexec sleep 30\n" % process)
    with start(written, path, ["verify"]) as running:
        while not os.path.exists(process) or not os.path.getsize(process):
            time.sleep(0.01)
        running.kill()
        running.communicate()
    time.sleep(0.1)
    with open(process, encoding="ascii") as file:
        results.check("git-cgraph, sent SIGKILL, the program ends", "it runs" if is_running(file.read().strip()) else None)
    os.remove(process)
    written.put()


def check_any_time(results, written, path):
    """A signal at any time leaves no lock, no file of a moment and no process, and what stood stands or is complete."""
    drawn, wrong = random.Random(11), []
    handlers = [(number, signal.signal(number, signal.SIG_DFL)) for number in (signal.SIGINT, signal.SIGPIPE)]
    for round_number in range(SIGNALS):
        words = (["write"], ["write", "--split"], ["verify", "--objects", "-j3"], ["show", "--json"])[round_number % 4]
        number = (signal.SIGINT, signal.SIGTERM, signal.SIGHUP, signal.SIGQUIT)[drawn.randrange(4)]
        written.commit()
        with start(written, path, words) as running:
            time.sleep(drawn.random() * 0.15)
            running.send_signal(number)
            running.communicate()
        runs, files = of_session(running.pid), written.files()
        left = [name for name in files if name.endswith(".lock") or name.startswith("tmp_")] + os.listdir(written.clone.temporary)
        ended = running.returncode == -number or running.returncode in (0, 1, 128)
        layers = None if "commit-graph" in files else written.layers()
        if runs or left or not ended or layers == []:
            wrong.append((words, number, running.returncode, runs, left))
    for number, handler in handlers:
        signal.signal(number, handler)
    results.check("git-cgraph, %d signals at any time" % SIGNALS, "%d are wrong, first %r" % (len(wrong), wrong[0]) if wrong else None)


def of_session(leader):
    """The processes of a session that run."""
    found = []
    for name in filter(str.isdigit, os.listdir("/proc")):
        try:
            with open("/proc/%s/stat" % name, encoding="utf-8", errors="replace") as file:
                words = file.read().rsplit(") ", 1)[1].split()
        except OSError:
            continue
        if words[3] == str(leader) and words[0] not in "ZX":
            found.append(name)
    return found
