"""Makes the calls of the library about some shapes, while valgrind counts: python3 calls.py GIVEN TOLD

GIVEN has the paths of as many libraries as there are shapes, the names of the calls, and the shapes. TOLD gets for each shape and for
each call the bytes that it asks of the heap, and those of the files and of the answers; or a complaint about an answer. counting.c is in
the process. Without words it makes no calls.
"""

import ctypes
import json
import os
import pickle
import sys

sys.path[:0] = [os.path.dirname(os.path.dirname(os.path.abspath(__file__)))]

from costs.measured import PREFIX
from sizes import asking, exports, table
from sizes.library import Library


class Counted(Library):
    """A library, which notes how many bytes each call asks of the heap."""

    def __init__(self, path):
        super().__init__(path, PREFIX)
        self.memory, self.so_far = {}, ctypes.CDLL(None).counted_bytes
        self.so_far.restype, self.so_far.argtypes = ctypes.c_ulong, []

    def __getattr__(self, name):
        found = super().__getattr__(name)
        return lambda *taken: self.note(name, found, taken)

    def note(self, name, call, taken):
        """Makes a call, and notes what it asks for."""
        before = self.so_far()
        answer = call(*taken)
        self.memory[name] = self.memory.get(name, 0) + self.so_far() - before
        return answer


def made(path, names, shape):
    """Makes the calls of some names about a shape."""
    library, seen, wrong = Counted(path), {}, {}
    asked = exports.Asked(library, shape)
    for row in table.CALLS:
        name = table.base(row.name)
        if name in names:
            answer, right = row.ask(asked)
            seen[name] = seen.get(name, shape.file_bytes) + len(repr(answer))
            if answer != right:
                wrong[name] = "%s answers %s, and not %s" % (row.name, asking.excerpt(answer), asking.excerpt(right))
    return {name: wrong.get(name, (library.memory.get(name, 0), measure)) for name, measure in seen.items()}


def main(given, told):
    """Makes the calls about each shape."""
    with open(given, "rb") as file:
        paths, names, shapes = pickle.load(file)
    with open(told, "w", encoding="utf-8") as file:
        json.dump([made(path, names, shape) for path, shape in zip(paths, shapes)], file)


if __name__ == "__main__" and len(sys.argv) > 1:
    main(*sys.argv[1:])
