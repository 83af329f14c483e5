"""At which goals the prover refuses a function, by what a check prints, and the clause that each goal is about."""

import re

VERDICT = re.compile(r"^fn (\S+): (.*)$")
PROVED = "proved"
GOAL = re.compile(r"note: src/\S+:\d+:\d+: (it is not proved|`search` found no proof)")
GOAL_NAME = re.compile(r"\(`([^`]+)`\)")
GAVE_UP = "`search` gave up at one of its limits"
LIMIT = "stopped at its own limit"
"""What an error says of a search in a proof that gave up."""

ERROR = re.compile(r"(?:\./)?(proofs/(\S+)/\w+\.antt):(\d+):\d+: error: (.*(?:\n +.*)*)")
"""An error, with the lines below it that are set in: these say more of it."""

STALE = re.compile(r"has no field|is not in scope|has no `|was not admitted")
"""What an error says where a proof names what an edit took away."""

WAITING = re.compile(r"depends on .*, which was rejected")
"""What it says of a definition that rests on another one, of which an error tells, too."""

ANSWER = re.compile(r"(?:abbrev )?(?:pub )?([A-Za-z][\w-]*)")
"""The beginning of the first line of a definition in a proof file; an answer has the name of its goal."""

BRANCH = re.compile(r"-(then|else|in|in_ok|in_err|in_default)(-.*)?$")
"""Where in the code a goal comes up."""

COUNT = re.compile(r"-\d+$")
CLAUSE = "-clause-"
ENSURES, REQUIRES = "returns", re.compile(r"(.+?)-requires(?:-.*)?")
INVARIANT = re.compile(r"(?:invariant_of|invariant)-(.+)|(.+)-(?:init|preserved)")
MEASURE = re.compile(r"decreases-(.+)|(.+)-smaller")
"""Goals, and the definitions that a file of proofs has of what is to hold and to fall in a loop."""

UNNAMED = "a goal without a name"


class Verdict:
    """What a check says of one function: whether it is there and proved, and the clauses of goals that are not.

    Of some goals the prover says that it found no proof, or that one that a file has is wrong: these it refuses. At others
    it, or a search in a file's proof, gave up. A proof is stale where it names what an edit took away.
    """

    def __init__(self, crate, function, output, read):
        said, own = lines_about("%s::%s" % (crate, function), output)
        self.is_there, self.is_proved = said is not None, said == PROVED
        goals = list(filter(GOAL.match, own))
        errors = [found for found in ERROR.findall(output) if found[1] == function.replace("::", "/")]
        told = [(answered(read(path), int(line)), text) for path, _, line, text in errors if not WAITING.search(text)]
        stopped = [goal for goal, text in told if LIMIT in text]
        wrong = [goal for goal, text in told if LIMIT not in text and not STALE.search(text)]
        self.refused = clauses([name_of(goal) for goal in goals if GAVE_UP not in goal] + wrong)
        self.given_up = clauses([name_of(goal) for goal in goals if GAVE_UP in goal] + stopped)
        self.is_stale = bool(errors)


def lines_about(function, output):
    """The verdict on a function, or None, and the lines about it that stand before the verdict."""
    own = []
    for line in output.split("\n"):
        found = VERDICT.match(line)
        if found and found.group(1) == function:
            return found.group(2), own
        own = [] if found else own + [line]
    return None, []


def name_of(line):
    """The name of the goal that a line of a check's output tells of."""
    found = GOAL_NAME.search(line)
    return found.group(1) if found else UNNAMED


def answered(text, number):
    """The goal that is answered at a line of a file of proofs: the name of the definition that the line belongs to."""
    names = filter(None, map(ANSWER.match, reversed(text.split("\n")[:number])))
    return next((found.group(1) for found in names), UNNAMED)


def clauses(goals):
    """The clauses that goals are about, each once."""
    return list(dict.fromkeys(map(clause_of, goals)))


def clause_of(goal):
    """The clause that a goal is about, wherever in the code it comes up:

    - `ensures NAME`, or `ensures` where it is the only one of the function,
    - `requires NAME of CALLEE`, or `requires of CALLEE`,
    - `invariant of NAME`, of a loop or of a value, and `measure of NAME`, of a loop,
    - of what makes a step safe the goal's own name, as `overflow_add-count`.
    """
    whole, _, named = goal.partition(CLAUSE)
    name = " " + COUNT.sub("", named) if named else ""
    place = COUNT.sub("", BRANCH.sub("", whole))
    if place.split("-")[0] == ENSURES:
        return "ensures" + name
    for word, form in (("requires", REQUIRES), ("invariant", INVARIANT), ("measure", MEASURE)):
        found = form.fullmatch(place)
        if found:
            return "%s%s of %s" % (word, name, next(filter(None, found.groups())))
    return place + name
