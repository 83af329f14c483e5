"""One check of many runs of the program."""

import os
from concurrent.futures import ThreadPoolExecutor


def check_runs(results, name, runs):
    """One check of many runs, each given as a call that answers and the judge of the answer."""
    with ThreadPoolExecutor(max_workers=os.cpu_count()) as pool:
        complaints = list(pool.map(lambda pair: pair[1](pair[0]()), runs))
    wrong = ["run %d: %s" % (number, complaint) for number, complaint in enumerate(complaints) if complaint]
    summary = "%d wrong, first %s" % (len(wrong), wrong[0]) if wrong else None
    results.check("%s (%d runs)" % (name, len(runs)), summary)
