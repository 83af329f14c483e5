"""Programs that are still being built when a script begins. The word `-` stands for the path of one, which comes as a line of
standard input."""
import os


class Later:
    """The lines of standard input. What the script runs itself finds nothing there."""

    def __init__(self):
        self.lines = os.fdopen(os.dup(0))
        os.dup2(os.open(os.devnull, os.O_RDONLY), 0)

    def path(self, word):
        """The path that a word stands for, or None where no line comes."""
        return self.lines.readline().strip() or None if word == "-" else word
