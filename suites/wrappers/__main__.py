"""`python3 suites/wrappers` checks the commands `git cgraph`, `graphtool` and `historytool` around their programs, their installation and
releases.

It runs copies of the scripts, with programs and an `rt` that these checks make. The last line is
`N passed, M failed`.
"""

import os
import sys

SUITES = os.path.dirname(os.path.dirname(os.path.abspath(__file__)))
sys.path[:0] = [SUITES, *(os.path.join(os.path.dirname(SUITES), room) for room in ("gate", "building"))]

from results import Results
from wrappers import commits, completions, coverage, hostile, installs, json_answers, newer, packages, pasted, questions
from wrappers import releases, repositories, sentences, tools, trees, writes


def main():
    """Runs the checks, and answers the exit status."""
    results = Results()
    parts = (tools, sentences, questions, repositories, commits, coverage, writes, hostile, pasted, json_answers, installs, completions, newer, trees)
    for part in (*parts, packages, releases):
        part.check_all(results)
    return results.finish()


if __name__ == "__main__":
    sys.exit(main())
