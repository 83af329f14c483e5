"""Checks `git cgraph` while Git writes the commit-graph anew all the time, and removes the layers of the one before."""

import os
import threading

from checks.cgraph_checks import Installed, Way
from histories import shapes

WRITTEN = "the commit-graph was written anew meanwhile"
FLAGS = ("--split=replace", "--expire-time=now")


class Writer(threading.Thread):
    """Writes a split commit-graph of some commits and then of all of them, again and again, until it is told to stop."""

    def __init__(self, repository, tips):
        super().__init__()
        self.repository, self.tips = repository, tips
        self.count, self.stopped, self.failure = 0, threading.Event(), None

    def run(self):
        """Writes them."""
        try:
            while not self.stopped.is_set():
                self.repository.write_graph(*FLAGS, tips=self.tips[: 1 + self.count % len(self.tips)])
                self.count += 1
        except RuntimeError as failure:
            self.failure = failure


def check_all(programs, results, folder, new, runs=100):
    """So many runs of `verify`, and a part of that of each other command."""
    installed = Installed(os.path.join(folder, "installed"), programs)
    repository = new("sha1", "written anew")
    ids = repository.add(shapes.diamonds(30))
    tips = [ids[30], ids[60], ids[-1]]
    repository.write_graph(*FLAGS, tips=tips[:1])
    commands = [["verify"]] * 7 + [["verify", "--all-checks"], ["is-ancestor", ids[3], ids[30]], ["list"]]
    commands += [["verify", "--objects"], ["show"]] * installed.knows_objects
    writer = Writer(repository, tips)
    writer.start()
    try:
        answers = [(commands[run % len(commands)], installed.ask(Way(repository.folder), *commands[run % len(commands)])) for run in range(runs)]
    finally:
        writer.stopped.set()
        writer.join()
    wrong = [pair for pair in answers if pair[1].status != 0 and not is_told(pair[1])]
    complaint = "%d of %d, first %r" % (len(wrong), runs, wrong[0]) if wrong else None
    results.check("git cgraph beside a writer, no false refusal in %d runs" % runs, complaint or writer.failure)
    late = sum(pair[1].status != 0 for pair in answers)
    print("      the commit-graph was written %d times meanwhile, and %d runs gave no answer for that" % (writer.count, late))
    results.check("git cgraph beside a writer, most runs answer", None if late * 5 <= runs else "%d do not" % late)


def is_told(answer):
    """Whether an answer is that the commit-graph is another one each time."""
    return answer.status == 128 and not answer.out and WRITTEN in answer.err
