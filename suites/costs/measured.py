"""Counts instructions and bytes of memory: of a run of a program, of each answer of `ask`, and of each call of the library."""

import collections
import json
import os
import pickle
import re
import shutil
import subprocess
import sys
from typing import NamedTuple

from sizes import answers, asking, library, table

HERE = os.path.dirname(os.path.abspath(__file__))
COUNTING = os.path.join(HERE, "counting.c")
HEADER = "valgrind/callgrind.h"
PART = re.compile(r"^totals: (\d+)$", re.MULTILINE)
"""What valgrind counted up to some place."""

SECONDS = 3600
"""A run that takes longer hangs. The calls about three large shapes took 19 minutes beside many other programs."""

PREFIX = "counted_"
"""What stands before the names of the calls in the library that is counted."""

AS_ANYWHERE = {"GLIBC_TUNABLES": "glibc.cpu.x86_rep_movsb_threshold=2147483648:glibc.cpu.x86_rep_stosb_threshold=2147483648"}
"""The C library copies many bytes by an instruction that is counted for each of them, on some processors, unless it is told not to."""


class Cost(NamedTuple):
    """What something costs: instructions, bytes asked of the heap, and the bytes that were read and written."""

    instructions: int
    memory: int
    bytes: int


class Wrong(Exception):
    """An answer is not the one that the plan says, or nothing was counted."""


def lacking():
    """What is missing here for counting, or None."""
    missing = next((tool for tool in ("valgrind", "cc") if not shutil.which(tool)), None)
    if missing:
        return missing
    found = subprocess.run(["cc", "-E", "-include", HEADER, "-x", "c", os.devnull], capture_output=True, check=False)
    return None if found.returncode == 0 else "header " + HEADER


class Counter:
    """Counts in a folder of its own."""

    def __init__(self, folder):
        self.folder, self.counting = folder, os.path.join(folder, "counting.so")
        self.counts, self.memory, self.path = os.path.join(folder, "counts"), os.path.join(folder, "memory"), shutil.which("valgrind")
        subprocess.check_call(["cc", "-shared", "-fPIC", "-O1", COUNTING, "-o", self.counting])

    def libraries(self, archive, count):
        """The paths of so many equal libraries, in which each call is made by a function of C. Valgrind finds the call behind that: it
        does not find one that Python makes."""
        paths = [os.path.join(self.folder, "library-%d.so" % number) for number in range(count)]
        if not os.path.exists(paths[-1]):
            source = os.path.join(self.folder, "library.c")
            with open(source, "w", encoding="utf-8") as file:
                file.writelines(library.wrappers(PREFIX))
            words = "-shared", "-fPIC", "-O0", "-I" + os.path.dirname(library.HEADER), source
            subprocess.check_call(["cc", *words, "-Wl,--whole-archive", archive, "-Wl,--no-whole-archive", "-o", paths[0]])
            for path in paths[1:]:
                shutil.copy(paths[0], path)
        return paths

    def run(self, words, *options, given=os.devnull, folder=None, **variables):
        """Runs a program while it is counted, in a folder where one is told, with no variables but these. Answers how it ended."""
        for path in (self.counts, self.memory):
            if os.path.exists(path):
                os.remove(path)
        counted = ["--tool=callgrind", "--callgrind-out-file=" + self.counts, "--combine-dumps=yes", "--compress-strings=no"]
        variables.update(AS_ANYWHERE, LD_PRELOAD=self.counting, COUNTED=self.memory)
        with open(given, "rb") as source:
            return run_of([self.path, "-q", *counted, "--compress-pos=no", *options, *words], stdin=source, cwd=folder, env=variables)

    def parts(self):
        """What the last run cost up to the first answer that ends with an empty line, from there to the next, and so on: instructions and
        bytes of memory."""
        instructions = [int(number) for number in PART.findall(text_of(self.counts))]
        sums = [0, *map(int, text_of(self.memory).split())]
        if not instructions or len(sums) != len(instructions) + 1:
            raise Wrong("%d parts were counted, and the memory of %d" % (len(instructions), len(sums) - 1))
        return [(number, end - start) for number, start, end in zip(instructions, sums, sums[1:])]

    def of_command(self, programs, row, shape):
        """What the command of a row costs, whose answer has to be right."""
        given, wanted = row.given(shape) if row.given else os.devnull, asking.text_of(row, shape)
        run = self.run(asking.words_of(programs, row, shape), given=given)
        complaint = answers.complaint(wanted, answers.status(wanted), (run.returncode, run.stdout + run.stderr))
        if complaint:
            raise Wrong(complaint)
        read = os.path.getsize(given) if row.given else 0
        return Cost(*map(sum, zip(*self.parts())), shape.file_bytes + read + len(run.stdout))

    def of_rust(self, program, row, shape):
        """What the call of Rust of a row costs, which has to answer what is right: what comes behind the first empty line."""
        run = self.run([program, row.name], folder=row.ask(shape))
        complaint = answers.complaint(asking.text_of(row, shape), 0, (run.returncode, run.stdout + run.stderr))
        if complaint:
            raise Wrong(complaint)
        return Cost(*map(sum, zip(*self.parts()[1:])), shape.file_bytes + len(shape.written))

    def of_questions(self, program, rows, shape, flags):
        """For each question what it costs, or a complaint: all are asked in one run, and then once more."""
        path, lines = os.path.join(shape.folder, "questions"), [asking.line_of(row, shape) + "\n" for row in rows]
        with open(path, "w", encoding="ascii") as file:
            file.writelines(2 * lines)
        run = self.run([program, "ask", *flags, shape.path], given=path)
        head, *texts = run.stdout.split(b"\n\n")
        if run.returncode != 0 or head + b"\n" != table.counted(shape).encode() or len(texts) != 2 * len(rows) + 1:
            raise Wrong("status %s: %r" % (run.returncode, (run.stdout + run.stderr)[-200:]))
        return dict(self.told(rows, lines, shape, [text + b"\n" for text in texts]))

    def told(self, rows, lines, shape, texts):
        """For each question its name, and its cost or a complaint about one of these answers."""
        parts = self.parts()
        if len(parts) != 2 * len(rows) + 2:
            raise Wrong("%d parts were counted, of %d questions" % (len(parts), 2 * len(rows)))
        for place, row in enumerate(rows):
            turns, right = (place, place + len(rows)), asking.text_of(row, shape)
            complaints = [answers.complaint(right, 0, (0, texts[turn])) for turn in turns]
            instructions, memory = map(sum, zip(*(parts[1 + turn] for turn in turns)))
            cost = Cost(instructions, memory, shape.file_bytes + sum(len(lines[place]) + len(texts[turn]) for turn in turns))
            yield row.name, next(filter(None, complaints), cost)

    def of_calls(self, archive, names, made):
        """For each shape, and for each call of these names, what it costs in all rows of its name, or a complaint; all are made in one
        process."""
        paths = self.libraries(archive, len(made))
        given, told = os.path.join(self.folder, "given"), os.path.join(self.folder, "told")
        with open(given, "wb") as file:
            pickle.dump((paths, names, made), file)
        words = [sys.executable, "-S", "-s", os.path.join(HERE, "calls.py")]
        # What Python compiles is kept in the folder, by a run that makes no calls.
        variables = {"PYTHONHASHSEED": "0", "PYTHONPYCACHEPREFIX": os.path.join(self.folder, "compiled")}
        run_of(words, env=variables, stdin=subprocess.DEVNULL)
        run = self.run([*words, given, told], "--toggle-collect=cg_*", **variables)
        if run.returncode != 0:
            raise Wrong("the calls end with status %s: %r" % (run.returncode, run.stderr[-300:]))
        counted = inclusive(text_of(self.counts))
        return [dict(costs(seen, counted[path])) for path, seen in zip(paths, json.loads(text_of(told)))]


def text_of(path):
    """The text of a file, empty where there is none."""
    if not os.path.exists(path):
        return ""
    with open(path, encoding="utf-8", errors="replace") as file:
        return file.read()


def run_of(words, **streams):
    """How a run ended. A run that hangs is wrong."""
    try:
        return subprocess.run(words, capture_output=True, timeout=SECONDS, check=False, **streams)
    except subprocess.TimeoutExpired:
        raise Wrong("it takes longer than %d seconds" % SECONDS) from None


def inclusive(text):
    """For each library the instructions of each of its calls and of all that the call itself calls, by what callgrind wrote."""
    counted, place, name = collections.defaultdict(collections.Counter), None, None
    for line in text.splitlines():
        if line.startswith("ob="):
            place = line[3:]
        elif line.startswith("fn="):
            name = line[3:]
        elif line[:1].isdigit() and name and name.startswith("cg_"):
            counted[place][name] += int(line.split()[1])
    return counted


def costs(seen, counted):
    """For each call its name, and its cost or a complaint. `seen` has a complaint, or the bytes of memory and those that were read and
    written."""
    for name, told in seen.items():
        if isinstance(told, str):
            yield name, told
        else:
            yield name, Cost(counted[name], *told) if counted[name] else "nothing was counted of it"
