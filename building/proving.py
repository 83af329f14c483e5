"""Proves crates, and builds programs and a library from them, all in one run: `python3 building/proving.py NAME..`.

The crates that a NAME uses are proved first, those side by side that do not use one another. Of a library it keeps
what its contracts say, and not their proofs, since the crates above read no more than that. So it takes less time than
`rt run` and `rt lib`, which keep the proofs too: those are for whoever changes a crate and checks it again. A library that
is newer than its sources and than what it uses stays as it is.

No library of Rattle exports a function to C. So from those for C a static library is made, of a crate that is written here:
each function stands there once more, with its contract, calls the library's, and is proved.
"""
import concurrent.futures
import fcntl
import functools
import os
import pathlib
import re
import shutil
import subprocess
import sys
import tempfile
import time

TOP = pathlib.Path(__file__).resolve().parent.parent
CRATES = TOP / "crates"
LISTED = (line.partition(":") for line in (TOP / "crates.txt").read_text().splitlines() if line and line[0] != "#")
USES = {crate.split()[0]: used.split() for crate, _, used in LISTED}
"""For each crate, those that crates.txt lists for it."""
STATIC = "commitgraph_c"
"""The library beside which the static library stands."""
FOR_C = ("c_opening", "c_writing", STATIC)
"""The libraries of whose functions it is made."""
EXPORTS = "exports"
"""The crate that is written here, of which the static library is built."""
USES[EXPORTS] = list(dict.fromkeys(name for crate in FOR_C for name in (*USES[crate], crate)))
EXPORTED = re.compile(r"^pub fn (cg_\w+)\((.*?)\)( -> \w+)?(\n.*?)\n\{\n", re.MULTILINE | re.DOTALL)
"""A function for C: its name, its parameters, its result and its contract."""
USED = re.compile(r"^use (?!crate::)([\w:]+)::(?:\{([^}]*)\}|(\w+));", re.MULTILINE)
"""What a file takes from other crates: the path, and several names or one."""
ALIGNMENT = 32
"""Each function of the static library begins at a multiple of so many bytes. Some processors take a jump across 32 bytes slowly, so
that where a program has a loop by chance would decide on its time."""
PROCESSORS = len(os.sched_getaffinity(0))
MOST_JOBS = 8
"""More jobs seldom make a check faster."""
JOBS_BESIDE_OTHERS = 2
"""So many jobs has a check beside others: more take more processor time in all, since each module is checked in a copy of the
process."""
MEMORY, FURTHER = 2 * 2**30, 2**29
"""As many bytes of memory have to be there for a check with one job, and for each further job of it."""
HALF_SPEED = ["nice", "-n", "3"]
"""Where processors are wanted, a process gets about half as much of them with these words before its command."""


@functools.lru_cache(maxsize=None)
def kit():
    """The folder of the Rattle kit."""
    return pathlib.Path(subprocess.run(["rt", "doc"], check=True, capture_output=True, text=True).stdout.strip()).parent


@functools.lru_cache(maxsize=None)
def below(crate):
    """The crates of this repository that a crate rests on, the lowest first."""
    return with_below(name for name in USES.get(crate, []) if name in USES)


def with_below(crates):
    """Crates and those that they rest on, the lowest first."""
    return list(dict.fromkeys(name for crate in crates for name in (*below(crate), crate)))


def is_program(crate):
    return (CRATES / crate / "src/main.rt").exists()


def made(crate):
    """What is built of a crate: a program, a library's folder, or the static library."""
    if crate == EXPORTS:
        return archive()
    out = CRATES / crate / "out"
    return out / crate if is_program(crate) else out / f"rlib/{crate}.rlib"


def archive():
    """The archive of the static library."""
    return CRATES / STATIC / f"out/lib{STATIC}.a"


def dated(crate):
    """The file whose time tells when a crate was built."""
    return made(crate) / "format" if made(crate).suffix == ".rlib" else made(crate)


def made_at(crate):
    """When a crate was built, 0 where it was not."""
    return dated(crate).stat().st_mtime if dated(crate).exists() else 0


def source_files(crate):
    """The files of a crate that a check reads."""
    return [path for part in ("src", "specs", "proofs") for path in (CRATES / crate / part).rglob("*.*")]


@functools.lru_cache(maxsize=None)
def is_current(crate):
    """Whether a crate is newer than its sources, and not older than what it uses, which is so too."""
    used = [name for name in USES[crate] if name in USES]
    is_newer = made_at(crate) > max((path.stat().st_mtime for path in source_files(crate)), default=0)
    return is_newer and all(made_at(name) <= made_at(crate) and is_current(name) for name in used)


def room():
    """How many checks there are side by side, and how many jobs one has that is alone, as far as there is memory for them."""
    lines_of_host = pathlib.Path("/proc/meminfo").read_text().splitlines()
    free = 1024 * next(int(line.split()[1]) for line in lines_of_host if line.startswith("MemAvailable:"))
    jobs = max(1, min(PROCESSORS, MOST_JOBS, 1 + (free - MEMORY) // FURTHER))
    return max(1, min(PROCESSORS, free // (MEMORY + (jobs - 1) * FURTHER))), jobs


def build_words(crate, used, root, kind, jobs):
    """The command that proves a crate over what it uses, and builds it."""
    rlibs = {name: made(name) for user in used if user in USES for name in (*below(user), user)}
    externs = [f"{name}={rlibs.get(name, kit() / 'rlibs' / f'{name}.rlib')}" for name in ("std", *used)]
    folders = [kit() / "rlibs", *(rlib.parent for rlib in rlibs.values())]
    return [
        *(kit() / "bin/rattle", "build", "--crate-name", crate, f"src/{root}.rt"),
        *(word for extern in externs for word in ("--extern", extern)),
        *(word for folder in folders for word in ("-L", f"dependency={folder}")),
        *("--antt-project", kit() / "rattle/logic/antt-project.json", "--logic-built", kit() / "logic_built"),
        *("--links", f"{crate}=", "--jobs", jobs, *kind),
    ]


def link_words(program):
    """The command that links a program."""
    archives = [kit() / f"c/lib{name}_c.a" for name in ("os", "libc")]
    target = ["--target", "x86_64-unknown-linux-gnu", "--toolchain", kit() / "toolchain"]
    return [kit() / "bin/rattle-link", *target, "-o", program, f"{program}.o", *archives]


def run(words, folder):
    """Runs a command, and answers what it wrote. Where it fails, all ends with that."""
    done = subprocess.run([str(word) for word in words], cwd=folder, stdout=subprocess.PIPE, stderr=subprocess.STDOUT, text=True)
    if done.returncode != 0:
        raise RuntimeError(done.stdout[-4000:])
    return done.stdout


def prove_in(folder, words):
    """Proves and builds what a command says, in a folder."""
    said = run(words, folder)
    if not any(line.startswith("logic=proved ") for line in said.splitlines()):
        raise RuntimeError(said[-4000:])


def build_crate(crate, jobs, priority):
    """Proves and builds a crate of this repository."""
    to = made(crate)
    if is_program(crate):
        root, kind = "main", [*linked(), "-o", f"{to}.o"]
    else:
        root, kind = "lib", ["--statements", "-o", to]
        shutil.rmtree(to.parent, ignore_errors=True)
    to.parent.mkdir(parents=True, exist_ok=True)
    prove_in(CRATES / crate, [*priority, *build_words(crate, USES[crate], root, kind, jobs)])
    if is_program(crate):
        run(link_words(to), CRATES / crate)


def prove(crate, jobs, priority, date):
    """Proves and builds what has this name. It is dated to the start, so that a source that is edited meanwhile is newer than it."""
    started = time.time()
    (build_archive if crate == EXPORTS else functools.partial(build_crate, crate))(jobs, priority)
    os.utime(dated(crate), (date, date))
    print(f"{dated(crate).name if crate == EXPORTS else crate}: proved in {time.time() - started:.0f} s", flush=True)


def linked():
    """Flags for what is compiled."""
    return ["--toolchain", kit() / "toolchain", "--backend", "llvm"]


def export(crate, text):
    """The text of the functions for C that a file of a crate has, empty where it has none."""
    functions = EXPORTED.findall(text)
    named = {word for function in functions for part in function for word in re.findall(r"\w+", part)}
    used = [(path, name) for path, several, one in USED.findall(text) for name in re.findall(r"[A-Z]\w+", several or one)]
    own = {name for name in named if name.startswith("Cg")}.difference(name for _, name in used)
    written = re.findall(r"^ghost use .*\n", text, re.MULTILINE)
    written += [f"use {crate}::{name};\n" for name in sorted(own)]
    written += [f"use {path}::{name};\n" for path, name in used if name in named]
    for name, taken, result, contract in functions:
        call = ", ".join(re.findall(r"(\w+):", taken))
        head = f"#[unsafe(no_mangle)]\npub extern \"C\" fn {name}({taken}){result}{contract}"
        written.append(f"\n{head}\n{{\n    {crate}::{name}({call})\n}}\n")
    return "".join(written) if functions else ""


def exports():
    """The files of the crate of the functions for C by their names, one for each file of the libraries for C that has some."""
    sources = {path: crate for crate in FOR_C for path in sorted((CRATES / crate / "src").glob("*.rt"))}
    written = {path.stem: export(crate, path.read_text()) for path, crate in sources.items()}
    return {name: text for name, text in sorted(written.items()) if text}


def write_exports(folder):
    """Writes that crate."""
    (folder / "src").mkdir()
    for name, text in exports().items():
        (folder / f"src/{name}.rt").write_text(text)
    lines_of_root = "".join(f"mod {name};\n" for name in exports())
    (folder / "src/lib.rt").write_text(f"#![tactic(auto)]\n\n{lines_of_root}")


def build_archive(jobs, priority):
    """Proves and builds the static library. No file of its crate stays, since the kit's gate takes code in the folders of crates
    alone; and a library that was not built to the end has another name."""
    new = archive().with_suffix(".new")
    new.parent.mkdir(parents=True, exist_ok=True)
    with tempfile.TemporaryDirectory() as folder:
        write_exports(pathlib.Path(folder))
        kind = ["--crate-type", "staticlib", *linked(), "-o", new]
        prove_in(folder, [*priority, *build_words(EXPORTS, USES[EXPORTS], "lib", kind, jobs)])
    run(["objcopy", "--set-section-alignment", f".text*={ALIGNMENT}", new], new.parent)
    new.replace(archive())


@functools.lru_cache(maxsize=None)
def lines(crate):
    """How many lines of code and contracts a crate has. The time of a proof is taken to grow with them."""
    if crate == EXPORTS:
        return sum(text.count("\n") for text in exports().values())
    return sum(path.read_bytes().count(b"\n") for path in source_files(crate) if path.suffix == ".rt")


def chains(crates):
    """For each of some crates, the lowest first, the lines of the longest chain that begins with it, of crates that use one
    another."""
    found = {}
    for crate in reversed(crates):
        found[crate] = lines(crate) + max((found[other] for other in found if crate in below(other)), default=0)
    return found


def prove_all(crates, date):
    """Proves crates, each as soon as those that it uses are proved, and dates them. Of those that are ready the one with the
    longest chain comes first, and one that is alone has all processors. One that would be in time at half the speed stands aside;
    where there are others enough for all processors, it has one job."""
    chain, (most, jobs) = chains(crates), room()
    left, running = sorted(crates, key=lambda crate: -chain[crate]), {}
    with concurrent.futures.ThreadPoolExecutor(most) as pool:
        while left or running:
            waited_for = {*left, *running.values()}
            longest = max(chain[crate] for crate in waited_for)
            ready = [crate for crate in left if waited_for.isdisjoint(below(crate))]
            side_by_side = len(ready) + len(running)
            beside = jobs if side_by_side == 1 else min(JOBS_BESIDE_OTHERS, jobs)
            for crate in ready[: most - len(running)]:
                is_aside = chain[crate] + lines(crate) < longest
                how = 1 if is_aside and side_by_side >= PROCESSORS else beside, HALF_SPEED if is_aside else []
                left.remove(crate)
                running[pool.submit(prove, crate, *how, date)] = crate
            for done in concurrent.futures.wait(running, return_when=concurrent.futures.FIRST_COMPLETED).done:
                running.pop(done)
                done.result()


def build(*names):
    """Proves and builds crates, and first what they use, where a source is newer. No `rt` works in their folders meanwhile."""
    goals = [EXPORTS if name == STATIC else name for name in names]
    crates = with_below(goals)
    locked = [os.open(CRATES / name, os.O_RDONLY) for name in sorted(crates) if name != EXPORTS]
    for folder in locked:
        fcntl.flock(folder, fcntl.LOCK_EX)
    date = time.time()
    prove_all([name for name in crates if not is_current(name)], date)
    for goal in goals:
        # It may be older than a source of a crate that it does not use.
        os.utime(dated(goal), (date, date))
    for folder in locked:
        os.close(folder)


def other_kit():
    """A line that says so where the kit is another one than that of the proofs, or nothing."""
    told = subprocess.run(["rt", "version"], capture_output=True, text=True).stdout.strip()
    wanted = (TOP / "VERSION").read_text().partition(", proved with ")[2].strip()
    return "" if told == wanted else f"the proofs are for the kit '{wanted}', and `rt version` says '{told}'\n"


def main(names):
    """Builds what has these names, and says what failed."""
    what = " and ".join(names)
    try:
        build(*names)
    except RuntimeError as error:
        sys.exit(f"{error}\n{other_kit()}{what}: not all was proved and built")
    except KeyboardInterrupt:
        sys.exit(f"{what}: not all was proved and built, since it was stopped; what is proved by now is kept")


if __name__ == "__main__":
    if len(sys.argv) < 2 or not USES.keys() - {EXPORTS} >= set(sys.argv[1:]):
        sys.exit(__doc__)
    main(sys.argv[1:])
