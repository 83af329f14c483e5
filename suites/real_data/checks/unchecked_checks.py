"""Checks questions with `--unchecked` about damaged files, beside a slow reading of the file.

Of a right file the answer is the one that there is, or a shortest walk. Of any other it may be the refusal of `verify`; and
`yes` or a walk only where a walk leads there along the parents that stand in the file, between commits with these ids. Each
merge base is a common ancestor along them. `ask` answers as the commands by themselves do, also a second time.
"""

import re
import tempfile

from checks import many
from checks.base_checks import ANSWER
from checks.sweep_checks import FILES, PART, SOME_MASKS
from expected import reading

UNKNOWN = {"unknown 1\n", "unknown 2\n"}
"""The answers that an id is not there."""


def check_all(histories, results, every_value=False):
    """A check for each file: each byte changed, and the trailer then made right or left as it was."""
    masks = tuple(range(1, 256)) if every_value else SOME_MASKS
    for name, make in FILES.items():
        content = make()
        parts = [(histories.path, content, masks, start) for start in range(0, len(content), PART)]
        answers = many.in_processes(try_part, parts)
        complaints, kinds = [complaint for complaint, _ in answers if complaint], set().union(*(kinds for _, kinds in answers))
        title = "each byte of a file changed, %s, is-ancestor, walk, merge-base and ask --unchecked" % name
        results.check(title, complaints[0] if complaints else None)
        left_out = sorted({"refused", "unknown"} - kinds)
        results.check("the same, %s, each kind of answer" % name, "none is %s" % left_out if left_out else None)


def try_part(program, content, masks, start):
    """Tries some bytes of a file, from one on: a complaint or None, and the first words of the answers."""
    asked, kinds = pairs(content), set()
    with tempfile.TemporaryDirectory() as folder:
        bench = many.Bench(program, folder)
        for at in range(start, min(start + PART, len(content))):
            for mask in masks:
                edited = content[:at] + bytes([content[at] ^ mask]) + content[at + 1 :]
                for file in (edited, many.sealed(edited)):
                    complaint = complaint_of(bench, file, asked, kinds)
                    if complaint:
                        return "byte %d, mask %d: %s" % (at, mask, complaint), kinds
    return None, kinds


def pairs(content):
    """The pairs of ids that are asked for: the first commit of the file and the last, either way, and an id that is nowhere."""
    ids = [commit.hex() for commit in reading.read(content).ids]
    return [(ids[0], ids[-1]), (ids[-1], ids[0]), ("e" * len(ids[0]), ids[0])]


def complaint_of(bench, content, asked, kinds):
    """A complaint about an answer to some pairs of ids in a file of these bytes, or None."""
    bench.put(content)
    verified = reading.verified(content)
    leads, questions = Leads(content), []
    for first, second in asked:
        told = leads.told(first, second)
        wanted = {told} if verified.startswith("ok ") else {verified, told, "no\n", "unknown 1\n", "unknown 2\n"}
        status, text = bench.run("is-ancestor", "--unchecked", bench.path, first, second)
        kinds.update(text.decode("latin-1").split()[:1])
        if text.decode("latin-1") not in wanted or status != many.status_of(text):
            return "%s, %s: status %s and %r, expected %r" % (first, second, status, text[:80], min(wanted))
        questions.append(("is-ancestor %s %s" % (first, second), text))
        status, text = bench.run("walk", "--unchecked", bench.path, second, first)
        if not leads.may_be_found(second, first, verified, status, text.decode("latin-1")):
            return "walk, %s, %s: status %s and %r" % (second, first, status, text[:80])
        questions.append(("walk %s %s" % (second, first), text))
        status, text = bench.run("merge-base", "--unchecked", bench.path, second, first)
        if not leads.may_be_bases(second, first, verified, status, text.decode("latin-1")):
            return "merge-base, %s, %s: status %s and %r" % (second, first, status, text[:80])
        questions.append(("merge-base %s %s" % (second, first), text))
    return asked_odd(bench, content, verified, questions * 2)


def asked_odd(bench, content, verified, questions):
    """A complaint where `ask` does not answer these questions, pairs of a line and an answer, as the commands by themselves do: of
    a graph that is refused at first it tells that, and else how many commits there are; or None."""
    status, text = bench.run_on("".join(line + "\n" for line, _ in questions).encode(), "ask", "--unchecked", bench.path)
    opened, _, told = text.partition(b"\n\n")
    if status == 1 and text.decode("latin-1") == verified:
        return None if all(answer == text for _, answer in questions) else "ask is refused, and a question is not"
    wanted = b"".join(answer + b"\n" for _, answer in questions)
    counted = re.fullmatch(rb"ok commits (\d+)", opened)
    right = counted and (not verified.startswith("ok ") or verified.startswith(opened.decode() + " "))
    return None if status == 0 and right and told == wanted else "ask: status %s and %r, expected %r" % (status, text[:80], wanted[:80])


class Leads:
    """Which commits lead to which, along the parents that can be read in a file of these bytes, right or not."""

    def __init__(self, content):
        self.places, self.parents = {}, []
        try:
            layer = reading.read(content)
        except reading.Refused:
            return
        for place, (commit, record) in enumerate(zip(layer.ids, layer.records)):
            self.places.setdefault(commit.hex(), []).append(place)
            self.parents.append([item for item in reading.parents_of(layer, record) if 0 <= item < len(layer.ids)])

    def may_be_found(self, first, second, verified, status, text):
        """Whether this may be the answer to `walk` of two ids: of a right file a shortest walk, or that there is none; of any
        other a walk that is there, or any other answer."""
        shortest, is_right = self.shortest(first, second), verified.startswith("ok ")
        if status == 0:
            ids = text.splitlines()
            return text.endswith("\n") and self.is_walk(first, second, ids) and (not is_right or len(ids) == shortest)
        right = self.unknown(first, second) or "none\n"
        return status == 1 and text in ({right} if is_right else UNKNOWN | {"none\n", verified}) and not (is_right and shortest)

    def may_be_bases(self, first, second, verified, status, text):
        """Whether this may be the answer to `merge-base` of two ids: of a right file the best common ancestors; of any other some
        common ancestors, or any other answer."""
        match, is_right = ANSWER.fullmatch(text), verified.startswith("ok ")
        if not match:
            return status == 1 and text in ({self.unknown(first, second)} if is_right else UNKNOWN | {verified})
        bases = [(int(line.split()[1]), line.split()[2]) for line in match.group(1).splitlines() if line != "none"]
        one, other = (self.reached(self.places.get(commit, [])) for commit in (first, second))
        told = [place for place, _ in bases]
        there = all(place in self.places.get(commit, []) for place, commit in bases) and one & other >= set(told)
        if not there or status != int(not bases):
            return False
        best = sorted(place for place in one & other if all(place not in self.reached([it]) for it in one & other - {place}))
        counts = (str(len(one - other)), str(len(other - one)))
        return not is_right or not self.unknown(first, second) and (told, match.group(2, 3)) == (best, counts)

    def unknown(self, first, second):
        """What is said of the first of two ids that no commit has, or None."""
        missing = [number for number, commit in enumerate((first, second)) if commit not in self.places]
        return "unknown %d\n" % (missing[0] + 1) if missing else None

    def reached(self, places):
        """The places to which some places lead, themselves among them."""
        ahead, seen = list(places), set(places)
        while ahead:
            for parent in self.parents[ahead.pop()]:
                if parent not in seen:
                    seen.add(parent)
                    ahead.append(parent)
        return seen

    def is_walk(self, first, second, ids):
        """Whether some walk along parents has these ids, from one to the other."""
        there = set(self.places.get(first, []))
        for commit in ids[1:]:
            there = {parent for place in there for parent in self.parents[place]}.intersection(self.places.get(commit, []))
        return ids[:1] == [first] and ids[-1:] == [second] and bool(there)

    def shortest(self, first, second):
        """How many commits a shortest walk from one id to the other has, or None."""
        there, seen, count = set(self.places.get(first, [])), set(), 1
        while there and not there.intersection(self.places.get(second, [])):
            seen |= there
            there = {parent for place in there for parent in self.parents[place]} - seen
            count += 1
        return count if there else None

    def told(self, first, second):
        """What may be told of two ids: `yes`, where some commit with the second leads to one with the first, or why not."""
        if self.unknown(first, second):
            return self.unknown(first, second)
        return "yes\n" if self.reached(self.places[second]).intersection(self.places[first]) else "no\n"
