"""What `ancestor` and `walk` have to say of a walk along parents, made from Git's own words alone."""

import re
from collections import deque

from expected.listing import generations, places

ANSWER = re.compile(r"(?:walk((?: \d+)+)|none)\nvisits (\d+)\n")


class Walks:
    """The commits of some layers, with their parents and generations."""

    def __init__(self, words, layers):
        self.words = words
        self.place = places(layers)
        self.generation = generations(words)

    def judge(self, first, second, reached, answer):
        """The answer is a shortest walk, where Git says that the first commit reaches the second, or else that there is none.

        The number of visits lies within its bounds, which are numbers of commits. Breadth first, those that are fewer steps away
        than the end are visited, the end, and some that are as many; and where no walk is there, those above the end, and some at
        its generation number. Where the generation numbers allow no walk, nothing is visited, and where both commits are one, that
        alone.
        """
        match = ANSWER.fullmatch(answer.out.decode())
        if not match or answer.err or answer.status != (0 if reached else 1):
            return "status %s and %r, where Git says %s" % (answer.status, answer.out[:60], reached)
        steps = self.steps(first)
        if reached != (second in steps):
            return "Git says %s, and its own parents say otherwise" % reached
        commit_at = {place: commit for commit, place in self.place.items()}
        walk = [commit_at.get(int(pos)) for pos in match.group(1).split()] if match.group(1) else []
        complaint = self.no_walk(walk, first, second, steps[second] + 1) if reached else walk and "a walk %s" % walk
        level, end = self.generation[second], steps.get(second, len(steps))
        most = sum(self.generation[commit] >= level for commit in steps if steps[commit] <= end)
        above = sum(self.generation[commit] > level for commit in steps if steps[commit] < end)
        least, visits = above + int(reached), int(match.group(2))
        if first == second or self.generation[first] <= level:
            least = most = int(first == second)
        bounds = None if least <= visits <= most else "%d visits, not %d to %d" % (visits, least, most)
        return complaint or bounds

    def judge_ids(self, first, second, reached, answer):
        """The answer is the ids on a shortest walk, where Git says that the first commit reaches the second, or else `none`."""
        if answer.err or answer.status != (0 if reached else 1) or not answer.out.endswith(b"\n"):
            return "status %s and %r, where Git says %s" % (answer.status, answer.out[:60], reached)
        ids = answer.out.decode().splitlines()
        if reached:
            return self.no_walk(ids, first, second, self.steps(first)[second] + 1)
        return None if ids == ["none"] else "a walk %s" % ids

    def steps(self, first):
        """How many steps each commit that one reaches is away from it, by a plain search."""
        found, queue = {first: 0}, deque([first])
        while queue:
            commit = queue.popleft()
            for parent in self.words[commit].parents:
                if parent not in found:
                    found[parent] = found[commit] + 1
                    queue.append(parent)
        return found

    def no_walk(self, walk, first, second, length):
        """A complaint where commits are no walk of this length from the one to the other, or None."""
        parents = [self.words[commit].parents if commit in self.words else () for commit in walk]
        is_walk = all(later in before for later, before in zip(walk[1:], parents))
        if is_walk and len(walk) == length and walk[0] == first and walk[-1] == second:
            return None
        return "the walk %s, expected one of %d commits from %s to %s" % (walk, length, first, second)
