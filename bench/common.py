"""What the benchmarks have in common: our programs and those in plain Rust, what both print, and what Git takes."""

import os
import shutil
import subprocess
import time
from typing import NamedTuple, Set, Tuple

TOP = os.path.dirname(os.path.dirname(os.path.abspath(__file__)))


class Figure(NamedTuple):
    """A figure: the least time of ours and of the baseline's, and the numbers that came out, which are to be one."""

    ours: int
    other: int
    numbers: Set[Tuple[int, ...]]


def lines(program, words):
    """What one run of a program prints: the name of a figure, its time, and the numbers that came out."""
    for line in subprocess.check_output([program, *words], text=True).splitlines():
        name, *numbers = line.split()
        yield name, tuple(map(int, numbers))


def compared(programs, words, rounds):
    """The figures of ours and of the baseline, which are run in turn, by their names."""
    runs = [[dict(lines(program, words)) for program in programs] for _ in range(rounds)]
    found = {}
    for name in runs[0][0]:
        ours, other = (min(run[at][name][0] for run in runs) for at in range(2))
        found[name] = Figure(ours, other, {run[at][name][1:] for run in runs for at in range(2)})
    return found


def print_load():
    """Prints how many other processes run."""
    print("load     %.2f" % os.getloadavg()[0])


def program(name="graphtool"):
    """The path of a proved program of this repository, built where a source is newer."""
    return subprocess.check_output([os.path.join(TOP, "building", "program"), name], text=True).strip()


def sources(name):
    """The folder of the sources of both programs of a benchmark."""
    return os.path.join(TOP, "bench", name)


def baseline_program(folder, name):
    """The path of a benchmark's program in plain Rust, built."""
    program = os.path.join(folder, name + "_baseline")
    flags = ["--edition", "2024", "-O", "-C", "target-cpu=x86-64-v2", "-C", "codegen-units=1"]
    subprocess.check_call(["rustc", *flags, os.path.join(sources(name), "baseline.rs"), "-o", program])
    return program


def our_program(folder, name, libraries):
    """The path of a benchmark's own program, proved and built in a repository of its own over copies of crates.

    Its source ends with `.txt`, since the kit's gate takes code in the folders of crates alone."""
    repository, program = os.path.join(folder, name + "_repository"), name + "_bench"
    crate = os.path.join(repository, "crates", program)
    os.makedirs(os.path.join(crate, "src"), exist_ok=True)
    if not os.path.exists(os.path.join(repository, ".git")):
        subprocess.check_call(["git", "init", "--quiet", repository])
    used = needed(libraries, crates())
    with open(os.path.join(repository, "crates.txt"), "w", encoding="utf-8") as file:
        for library, uses in [*used.items(), (program, libraries)]:
            file.write("%s: %s\n" % (library, " ".join(uses)))
    for library in used:
        copy_crate(library, repository)
    # It ends with .txt where it is kept: what ends with .rt is taken for a part of the repository's crates.
    shutil.copyfile(os.path.join(sources(name), "main.rt.txt"), os.path.join(crate, "src", "main.rt"))
    built = os.path.join(crate, "out", program)
    if os.path.exists(built):
        os.remove(built)
    # With no arguments the program says how it is called, and fails.
    pipes = {"stdin": subprocess.DEVNULL, "stdout": subprocess.PIPE, "stderr": subprocess.STDOUT}
    run = subprocess.run(["rt", "run"], cwd=crate, check=False, **pipes)
    if not os.path.exists(built):
        raise RuntimeError(run.stdout.decode())
    return built


def crates():
    """The crates of this repository, each with the libraries that it uses."""
    with open(os.path.join(TOP, "crates.txt"), encoding="utf-8") as file:
        listed = [line.split(":") for line in file if ":" in line and not line.startswith("#")]
    return {name: uses.split() for name, uses in listed}


def needed(names, known):
    """The known ones of some crates, and of all that they use."""
    found = {}
    for name in names:
        if name in known:
            found.update(needed(known[name], known))
            found[name] = known[name]
    return found


def copy_crate(library, repository):
    """Copies a crate's files, and at first what earlier proofs of it have kept."""
    source = os.path.join(TOP, "crates", library)
    target = os.path.join(repository, "crates", library)
    for part in ("src", "specs", "proofs"):
        shutil.rmtree(os.path.join(target, part), ignore_errors=True)
        shutil.copytree(os.path.join(source, part), os.path.join(target, part))
    kept = os.path.join(source, "out")
    if os.path.isdir(kept) and not os.path.isdir(os.path.join(target, "out")):
        shutil.copytree(kept, os.path.join(target, "out"), symlinks=True)


def first_pairs(path, count):
    """The first pairs of ids of a file, as bytes and as pairs of texts."""
    with open(path, "rb") as file:
        asked = file.read(2 * 20 * count)
    ids = [asked[at : at + 20].hex() for at in range(0, len(asked), 20)]
    return asked, list(zip(ids[::2], ids[1::2]))


def asked_of_git(folder, commands):
    """What Git answers to some commands, one process each: how many end with 0, and how many words they write; then the
    microseconds that each takes beyond a process of Git that does nothing, and those of such a process."""
    started, yes, words = time.perf_counter(), 0, 0
    for command in commands:
        run = subprocess.run(["git", "-C", folder, *command], stdout=subprocess.PIPE, check=False)
        yes, words = yes + (run.returncode == 0), words + len(run.stdout.split())
    taken, started = time.perf_counter() - started, time.perf_counter()
    for _ in commands:
        subprocess.check_call(["git", "-C", folder, "rev-parse", "--git-dir"], stdout=subprocess.DEVNULL)
    idle = time.perf_counter() - started
    return yes, words, (taken - idle) * 1e6 / len(commands), idle * 1e6 / len(commands)
