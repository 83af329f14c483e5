"""Counts checks, and prints a line for each."""


class Results:
    """The checks that passed and failed so far."""

    def __init__(self):
        self.passed = 0
        self.wrong = []

    def check(self, name, complaint):
        """Counts one check. It passed where the complaint is None."""
        if complaint is None:
            self.passed += 1
            print("ok    " + name, flush=True)
        else:
            self.wrong.append("WRONG " + name + ": " + complaint)
            print(self.wrong[-1], flush=True)

    def add(self, other):
        """Counts the checks of others too, whose lines are printed already."""
        self.passed += other.passed
        self.wrong += other.wrong

    def finish(self):
        """Prints the checks that failed once more, and the last line, and answers the exit status."""
        for line in self.wrong:
            print(line)
        print("%d passed, %d failed" % (self.passed, len(self.wrong)), flush=True)
        return 1 if self.wrong else 0
