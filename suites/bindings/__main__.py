"""Tests the library for C, Rust, Python and Go: `python3 suites/bindings [GRAPHTOOL [HISTORYTOOL]]`. Its last line is
`N passed, M failed`.

It builds the static library, where it is not built, over what `rt ci` left, as building/library hands it out. What C and
Rust list and count is compared with what the program at the path GRAPHTOOL does, and what they
tell of dates and filters also with what the one at HISTORYTOOL does. Where one is not given, or a compiler or a tool is missing,
one line says what is left out. Where HISTORYTOOL is `-`, its path comes as a line of standard input: what needs it is done last.

`python3 suites/bindings --library LOG` only builds the static library, beside an `rt ci` that writes LOG, as soon as that has
proved the library for C.
"""
import branches
import chunked
import concurrent.futures
import ctypes
import fields
import functools
import gix
import hashlib
import large
import os
import pathlib
import real
import re
import resource
import shlex
import shutil
import subprocess
import sys
import tempfile
import threading
import time

sys.path[:0] = [str(pathlib.Path(__file__).resolve().parent.parent.parent / room) for room in ("suites", "gate", "building")]

import declarations
import later
import proving
import refusal_table

TOP = pathlib.Path(__file__).resolve().parent.parent.parent
HERE = TOP / "suites/bindings"
HEADER = TOP / "bindings/c"
NAME = proving.STATIC
GRAPHTOOL, HISTORYTOOL = [*sys.argv[1:3], None, None][:2]
KINDS = ("sha1", "sha256")
REFUSING = [f"-Wl,--wrap={name}" for name in ("malloc", "realloc", "free")]
LINES = [b"", b"\n", b"a", b"a\n", b"a\r\n\nb\r", b"\r\n\r\r\nc", b"\n\n", b"ab\ncd\n\r"]
"""Texts that are cut into lines."""
HELGRIND = ["valgrind", "-q", "--tool=helgrind", "--error-exitcode=99", f"--suppressions={HERE / 'helgrind.supp'}"]
SANITIZED = "-Zsanitizer=thread -Cunsafe-allow-abi-mismatch=sanitizer"
"""Flags of a nightly Rust compiler. Its standard library is not built with them."""
CALLING_ALL = ("ask.c", "memory.c", "threads.c")
"""The programs that make each call. Those of fields.c are the calls that write a struct. What each call says of large graphs, suites/sizes
asks by its table."""
IN_HEADER = {"cg_strerror", "cg_advice", "cg_closed", "cg_no_bytes", "cg_no_flag", "cg_not_lent"}
"""Functions that the header has whole."""
SENTENCES = ("cg_strerror", "cg_advice")
"""Those of them that the library has too."""
MAY_BE_IGNORED = {
    *("cg_close", "cg_flag_raise", "cg_flag_free", "cg_bytes_free", "cg_bytes_copy", "cg_verify", "cg_verify_layer", "cg_layer"),
    *("cg_layer_checksum", "cg_base_id_at", "cg_lookup_all", "cg_id_at", "cg_tree_at", "cg_lend_id", "cg_lend_tree", "cg_lend_bytes"),
    *("cg_commit_at", "cg_commits"),
}
"""Calls whose answer stands in an out parameter too, or may be known before."""
STRICT = ["-D_GNU_SOURCE", "-Wall", "-Wextra", "-Wpedantic", "-Werror"]
COUNTING = threading.Lock()
LATER = later.Later()
passed = failed = 0
LAST = []
"""The calls that need `historytool`."""


def run(*words, text=True, **options):
    return subprocess.run([str(word) for word in words], capture_output=True, text=text, **options)


def expect(name, good, detail=""):
    global passed, failed
    with COUNTING:
        passed += bool(good)
        failed += not good
    if not good:
        print(f"failed: {name}\n{detail}", flush=True)


def present(tool, part):
    found = shutil.which(tool)
    if not found:
        print(f"{part}: left out, since {tool} is not installed")
    return found


def built():
    """The library, built if it is older than a source."""
    crates = proving.with_below(proving.FOR_C)
    newest = max(path.stat().st_mtime for crate in crates for path in proving.source_files(crate))
    if not proving.archive().exists() or proving.archive().stat().st_mtime < newest:
        try:
            # What `rt ci` proved is not proved again.
            proving.build(NAME)
            complaint = ""
        except RuntimeError as error:
            complaint = error
        expect("the library is proved and built", not complaint, complaint)
    return pathlib.Path(run(TOP / "building/library").stdout.strip())


def wait_for_crates(log):
    """Waits until `rt ci` has proved the libraries for C and the crates below them, or has ended: the last line of its log counts.
    Answers whether it has proved them."""
    while True:
        text = log.read_text(errors="replace") if log.exists() else ""
        told = set(re.findall(r"^rt: (\w+) (?:proved|is kept)", text, re.MULTILINE))
        if told.issuperset(proving.with_below(proving.FOR_C)):
            return True
        if re.search(r"^\d+ passed, \d+ failed$", text, re.MULTILINE):
            return False
        time.sleep(2)


def exports(archive):
    """No export has a `requires`, and each has an `ensures`. The library, the header and the Rust crate have just them,
    and each is called by the Rust crate, and by the programs that make all calls."""
    texts = [path.read_text() for name in proving.FOR_C for path in (TOP / "crates" / name / "src").glob("*.rt")]
    found = {name: contract for text in texts for name, _, _, contract in proving.EXPORTED.findall(text)}
    expect("no export has a `requires`", found and not any("requires" in contract for contract in found.values()), found)
    silent = [name for name, contract in found.items() if "ensures" not in contract]
    expect("each export says what it answers", silent == [], silent)
    header, rust = HEADER / "commitgraph.h", TOP / "bindings/rust/src/sys.rs"
    for path, pattern in ((header, r"^(?!static)[\w ]+ \*?(cg_\w+)\("), (rust, r"pub fn (cg_\w+)\(")):
        declared = re.findall(pattern, path.read_text(), re.MULTILINE)
        expect(f"{path.name} declares the exports", sorted(declared) == sorted(found), declared)
    if present("nm", "the names in the library"):
        named = re.findall(r" [A-Z] (\w+)$", run("nm", "--extern-only", "--defined-only", archive).stdout, re.MULTILINE)
        expect("the library has the exports, the sentences and no other names", sorted(named) == sorted([*found, *SENTENCES]), named)
    crate = "".join(path.read_text() for path in rust.parent.glob("*.rs"))
    calls = {"the Rust crate": re.findall(r"sys::(cg_\w+)\(", crate)}
    for program in CALLING_ALL:
        calls[program] = re.findall(r"\b(cg_\w+)\(", (HERE / program).read_text())
    for caller, made in calls.items():
        expect(f"{caller} makes each call", set(made) - IN_HEADER == set(found), set(found) ^ set(made))


def sentences(library):
    """The library says of each number what the table of refusals says."""
    loaded, rows = ctypes.CDLL(str(library)), refusal_table.read_rows()
    loaded.cg_strerror.restype = loaded.cg_advice.restype = ctypes.c_char_p
    codes, anew = refusal_table.codes(rows), refusal_table.anew_of(rows)
    for row in codes:
        told = loaded.cg_strerror(row.number).decode(), loaded.cg_advice(row.number).decode()
        expect(f"the library's sentences of {row.name}", told == (row.said(), refusal_table.advice(row, anew)), told)
    numbers = {row.number for row in codes}
    unknown = {(loaded.cg_strerror(number), loaded.cg_advice(number)) for number in range(1000) if number not in numbers}
    expect("the library's sentence of numbers that are not known", unknown == {(b"a number that is not known", b"")}, unknown)


def warned_of(compiler, scratch):
    """Where the answer of a call is ignored, or a pointer is NULL that may not be, the compiler warns, and nowhere else."""
    lines, wanted = ['#include "commitgraph.h"'], {"unused-result": set(), "nonnull": set()}
    for _, call, taken in declarations.CALL.findall((HEADER / "commitgraph.h").read_text()):
        taken = [" ".join(one.split()) for one in taken.split(",")]
        names = [re.search(r"\w+$", one).group() if one != "void" else "" for one in taken]
        tried = [(number, one) for number, one in enumerate(taken) if "*" in one]
        for number, given in [(None, names), *((number, [*names[:number], "NULL", *names[number + 1 :]]) for number, _ in tried)]:
            made = f"try_{call}_{len(lines)}({', '.join(taken)})"
            lines.append(f"void {made}; void {made} {{ {call}({', '.join(given)}); }}")
            if call not in MAY_BE_IGNORED:
                wanted["unused-result"].add(len(lines))
            if number is not None and not any(after.startswith("size_t ") for after in taken[number + 1 : number + 2]):
                wanted["nonnull"].add(len(lines))
    source = scratch / compiler / "warned.c"
    source.write_text("\n".join(lines) + "\n")
    done = run(compiler, "-std=c11", "-O1", "-Wall", "-Wno-unused-parameter", f"-I{HEADER}", "-c", source, "-o", os.devnull)
    for kind, expected in wanted.items():
        told = {int(line) for line in re.findall(rf"^\S+?:(\d+):\d+: warning: .*\[-W{kind}\]$", done.stderr, re.MULTILINE)}
        lacking = [lines[line - 1] for line in sorted(told ^ expected)]
        expect(f"{compiler}: what it warns of, {kind}", done.returncode == 0 and told == expected, (lacking[:3], done.stderr[-2000:]))


def git(where, *words):
    at = {"GIT_AUTHOR_DATE": "1000000000 +0000", "GIT_COMMITTER_DATE": "1000000000 +0000"}
    names = {f"GIT_{who}_{what}": "a@b" for who in ("AUTHOR", "COMMITTER") for what in ("NAME", "EMAIL")}
    done = run("git", "-C", where, *words, env={**os.environ, **at, **names})
    assert done.returncode == 0, done.stderr
    return done.stdout.strip()


def repository(where, kind, *words):
    """A small history with a merge of three parents, and its commit-graph, written with these words."""
    run("git", "init", "-q", f"--object-format={kind}", where)
    tree = git(where, "write-tree")
    ids = [git(where, "commit-tree", tree, "-m", "0")]
    for number in range(1, 40):
        ids.append(git(where, "commit-tree", tree, "-p", ids[number // 2], "-m", str(number)))
    ids.append(git(where, "commit-tree", tree, "-p", ids[37], "-p", ids[38], "-p", ids[39], "-m", "merge"))
    git(where, "update-ref", "refs/heads/main", ids[-1])
    git(where, "commit-graph", "write", "--reachable", *words)
    return ids


def compare(name, program, graph, ids):
    """What Git says of the commits beside what the library says."""
    where = graph.parent.parent.parent.parent
    reachable = git(where, "rev-list", "main").split()
    check = run(program, graph, "verify")
    expect(f"{name}: so many commits", len(reachable) == 11, reachable)
    expect(f"{name}: verify", check.stdout.startswith(f"ok commits {len(reachable)} longest "), check)
    expect(f"{name}: one merge of three parents", "parents 3 commits 1\n" in check.stdout, check)
    for commit in ids:
        found = run(program, graph, "find", commit)
        expect(f"{name}: find {commit}", (commit in reachable) == (found.returncode == 0), found)
        if commit in reachable:
            expect(f"{name}: time of {commit}", found.stdout.endswith(" time 1000000000\n"), found)
            answer = run(program, graph, "parents", commit)
            expect(f"{name}: parents of {commit}", answer.stdout.split() == parents_of(where, commit), answer)
    same_as_program(name, program, graph, ids)
    for first, *others in [(one, two) for one in reachable for two in reachable] + [tuple(reachable[:5])]:
        answer = run(program, graph, "bases", first, *others)
        expect(f"{name}: bases of {first} {others}", told(answer) == asked(where, first, tuple(others)), answer)


def same_as_program(name, program, graph, ids):
    """Each answer of the library beside that of `graphtool`, for a file or for a chain."""
    opened = graph.parent if graph.name == "commit-graph-chain" else graph
    for words in questions(ids) if GRAPHTOOL else ():
        same_answer(name, program, graph, opened, *words)
    for layer in [opened, *opened.glob("*.graph")] if GRAPHTOOL else ():
        if layer.is_file():
            same_list(name, program, layer)


def same_answer(name, program, graph, opened, command, *words):
    """One answer beside that of `graphtool`, which opens the same graph by another path where it is a chain."""
    answer, expected = run(program, graph, command, *words), told_by_program(command, opened, *words)
    expect(f"{name}: {command} {' '.join(words)}", answers_alike(answer, expected), (answer, expected))


@functools.lru_cache(maxsize=None)
def told_by_program(*words):
    """The answer of `graphtool`. No file is changed once it was asked about."""
    return run(GRAPHTOOL, *words)


@functools.lru_cache(maxsize=None)
def listed_by_program(file):
    """The lines of a file that `graphtool` lists, and its status."""
    with open(file, "rb") as given:
        return run(GRAPHTOOL, "list", stdin=given)


def questions(ids):
    """The commands about a graph, with some commits, none of which may be in it."""
    few = [*ids[::9], ids[-1]]
    pairs = [(first, second) for first in few for second in few]
    return [("verify",), ("distinct",), *(("find", it) for it in ids), *(("ancestor", *pair) for pair in pairs)]


def same_list(name, program, file):
    """The lines of the layer of a file and of its commits, or of its refusal."""
    answer, expected = run(program, file, "list"), listed_by_program(file)
    expect(f"{name}: list", answers_alike(answer, expected), (answer, expected))


def answers_alike(answer, expected):
    """The same lines and the same status."""
    return (answer.stdout, answer.returncode) == (expected.stdout, expected.returncode)


@functools.lru_cache(maxsize=None)
def chain(scratch, kind):
    """A repository with a chain of four layers."""
    where = scratch / f"chain-{kind}"
    repository(where, kind, "--split=no-merge")
    head = git(where, "rev-parse", "main")
    for number in range(3):
        head = git(where, "commit-tree", f"{head}^{{tree}}", "-p", head, "-p", f"{head}~1", "-m", f"later {number}")
        git(where, "update-ref", "refs/heads/main", head)
        git(where, "commit-graph", "write", "--reachable", "--split=no-merge")
    return where


def chained(name, program, scratch, kind):
    """A chain of layers, opened by its lines, and the lines of odd texts."""
    text_file = program.parent / "text"
    where = chain(scratch, kind)
    file = where / ".git/objects/info/commit-graphs/commit-graph-chain"
    commits = len(git(where, "rev-list", "main").split())
    expect(f"{name}: a chain of 4 layers", len(file.read_text().split()) == 4, file.read_text())
    check, listed = run(program, file, "verify"), run(program, file, "list")
    expect(f"{name}: the chain is right", check.stdout.startswith(f"ok commits {commits} "), check)
    expect(f"{name}: the commits of the chain", len(listed.stdout.splitlines()) == commits, listed)
    same_as_program(f"{name}, chain", program, file, git(where, "rev-list", "main").split())
    for number, text in enumerate(LINES):
        text_file.write_bytes(text)
        found = run(program, text_file, "lines", text=False)
        wanted = b"".join(b"%d %s\n" % (len(line), line) for line in lines_of(text))
        expect(f"{name}: the lines of text {number}", (found.returncode, found.stdout) == (0, wanted), found)


def lines_of(text):
    """Lines as the design notes of Git have them: the last one needs no newline, and keeps its carriage return then."""
    *lines, last = text.split(b"\n")
    return [line.removesuffix(b"\r") for line in lines] + ([last] if last else [])


def refused_and_shared(name, compiler, archive, scratch, graphs):
    """Each allocation of each call refused in turn, over a file and over a chain; and four threads that read one graph."""
    program = scratch / compiler / "memory"
    done = run(compiler, "-std=c11", "-O1", *STRICT, f"-I{HEADER}", HERE / "memory.c", *REFUSING, archive, "-o", program)
    expect(f"{name}: memory.c", done.returncode == 0, done.stderr)
    for kind, (graph, ids) in graphs.items():
        for layers, tip in (([graph], ids[-1]), (layers_of(chain(scratch, kind)), git(chain(scratch, kind), "rev-parse", "main"))):
            done = run(program, tip, ids[0], *layers)
            calls = dict(line.split() for line in done.stdout.splitlines()) if done.returncode == 0 else {}
            title = f"{name}, {kind}, {len(layers)} layers"
            expect(f"{title}: each allocation is refused in turn", calls.pop("reading", None) == "0", done)
            expect(f"{title}: bytes that are no layer are not copied", calls.pop("open_wrong", None) == "0", done)
            expect(f"{title}: commits with a null id are refused before any memory is asked for", calls.pop("write_null", None) == "0", done)
            expect(f"{title}: a query made again asks for no memory", calls.pop("ancestor_again", None) == "0", done)
            expect(f"{title}: each call that allocates is refused", calls and all(int(n) > 0 for n in calls.values()), done)
            expect(f"{title}: many pairs are searched with one memory", calls.get("one_pair") == calls.get("three_pairs"), done)
            again, first = (int(calls.get(name, 0)) for name in ("bases_again", "bases"))
            expect(f"{title}: merge bases sought again ask for no dates", 0 < again < first, done)
        apart, alike = (run(program, "check", "-", *real.fronted(scratch / compiler, kind, it)) for it in (b"\x11\x22", b"\x11\x11"))
        counts = [int(done.stdout.split()[1]) if done.returncode == 0 else 0 for done in (apart, alike)]
        expect(f"{name}, {kind}: whole ids are sorted only where fronts are alike", 0 < counts[0] < counts[1], (apart, alike))
    graph, _ = graphs["sha1"]
    for tool, flags, words in (("", ["-fsanitize=thread"], []), ("valgrind", [], HELGRIND)):
        program = scratch / compiler / "threads"
        done = run(compiler, "-std=c11", "-O1", *flags, *STRICT, "-pthread", f"-I{HEADER}", HERE / "threads.c",
                   archive, "-o", program)
        if flags and done.returncode:
            print(f"{name}: ThreadSanitizer: left out, since {compiler} does not link it")
        elif not tool or present(tool, "helgrind"):
            expect(f"{name}: threads.c", done.returncode == 0, done.stderr)
            done = run(*words, program, graph)
            expect(f"{name}: four threads {' '.join(flags) or tool}", done.returncode == 0, done)


def memory_to_write(compiler, archive, scratch):
    """What `cg_write` takes at most besides the file, for one layer and on top of others, is what its comment in the header says."""
    header = " ".join((HEADER / "commitgraph.h").read_text().replace("\n *", "").split())
    said = re.search(r"whose memory is at most some (\d+) bytes a commit besides the file, and (\d+) for each commit of the graph below", header)
    expect("the header says what cg_write takes", said)
    new, below = map(int, said.groups()) if said else (0, 0)
    program = scratch / compiler / "peak"
    done = run(compiler, "-std=c11", "-O1", *STRICT, f"-I{HEADER}", HERE / "peak.c", *REFUSING, archive, "-o", program)
    expect(f"{compiler}: peak.c", done.returncode == 0, done.stderr)
    for size in (20, 32):
        for count, before, least in ((131_073, 0, new * 131_073), (100, 100_000, below * 100_000), (50_000, 50_000, 0)):
            done = run(program, size, count, before)
            told, most = int(done.stdout or -1), new * count + below * before
            expect(f"{compiler}: what cg_write takes for {count} commits on {before}, ids of {size} bytes", 0.9 * least <= told <= 1.02 * most, (told, most))


def layers_of(where):
    """The files of the layers of a chain, the lowest first."""
    folder = where / ".git/objects/info/commit-graphs"
    return [folder / f"graph-{name}.graph" for name in (folder / "commit-graph-chain").read_text().split()]


def each_field(name, compiler, archive, scratch):
    """What calls write into each field of each struct, read by the layout of the header."""
    program, file, source = (scratch / compiler / part for part in ("fields", "changed", "asserted.c"))
    source.write_text(declarations.assertions((HEADER / "commitgraph.h").read_text()))
    done = run(compiler, "-std=c11", *STRICT, f"-I{HEADER}", "-c", source, "-o", os.devnull)
    expect(f"{name}: each struct lies in memory as in Rust and Python", done.returncode == 0, done.stderr)
    done = run(compiler, "-std=c11", "-O1", *STRICT, f"-I{HEADER}", HERE / "fields.c", archive, "-o", program)
    expect(f"{name}: fields.c", done.returncode == 0, done.stderr)
    graph = scratch / "sha1/.git/objects/info/commit-graph"
    history = fields.History(git(scratch / "sha1", "rev-list", "--parents", "main").splitlines())
    rows, visits = fields.without_visits(run(program, graph).stdout.splitlines())
    expect(f"{name}: each field of a right graph", rows == list(history.lines()), rows)
    expect(f"{name}: visits", max(visits, default=0) == len(history.ids), visits)
    for fault, data, verdict, parents in fields.faults(graph.read_bytes(), history):
        file.write_bytes(data)
        rows, _ = fields.without_visits(run(program, file).stdout.splitlines())
        told = [row for row in rows if row[0] == "commit"][verdict[4]]
        expect(f"{name}: each field, {fault}", ["verdict", *verdict] in rows and told[3:] == parents + parents, rows)
        expect(f"{name}: refused, {fault}", ["checked", verdict[0], 0, 0, 0] in rows, rows)
        alone_as_told(f"{name}: {fault}", rows, verdict)
    for fault, data, dates in fields.date_faults(graph.read_bytes(), history):
        file.write_bytes(data)
        rows, _ = fields.without_visits(run(program, file).stdout.splitlines())
        expect(f"{name}: each field, {fault}", ["dates", *dates] in rows, rows)
        code, position, layer, expected, _ = dates
        written = ["written", code, position, 0, 0, layer, expected, 0, 0, 0]
        expect(f"{name}: no layer on {fault}", written in rows, rows)
    whole = [layer.read_bytes() for layer in layers_of(chain(scratch, "sha1"))]
    for fault, layers, error, verdict in fields.layered(whole):
        files = [scratch / compiler / f"changed-{number}" for number in range(len(layers))]
        for path, data in zip(files, layers):
            path.write_bytes(data)
        rows, _ = fields.without_visits(run(program, *files).stdout.splitlines())
        expect(f"{name}: each field, {fault}", rows[0] == ["error", *error] and rows[1] == ["verdict", *verdict], rows)
        alone_as_told(f"{name}: {fault}", rows, verdict)
        told = [row[1:] for row in rows if row[0] == "layer"]
        expect(f"{name}: layers, {fault}", told == (fields.layers_of(layers) if error[0] == 0 else []), told)


def alone_as_told(name, rows, verdict):
    """What is told of layers alone: the fault of one that the verdict names; else that all are right."""
    alone, layers = ([row[1:] for row in rows if row[0] == word] for word in ("alone", "layer"))
    at, wanted = fields.alone(verdict, layers) or (None, None)
    others = [row for number, row in enumerate(alone) if number != at]
    expect(f"{name}, each layer alone", all(row[0] == 0 for row in others) and (at is None or alone[at] == wanted), alone)


def many_commits(compiler, archive, scratch):
    """A graph of 300,000 commits through each call, and faults that stand near its end."""
    program, file, questions, answers = (scratch / f"large-{name}" for name in ("program", "graph", "questions", "answers"))
    done = run(compiler, "-std=c11", "-O1", *STRICT, f"-I{HEADER}", HERE / "large.c", archive, "-o", program)
    expect("large.c", done.returncode == 0, done.stderr)
    data = large.graph()
    file.write_bytes(data)
    questions.write_bytes(large.questions())
    done = run(program, file, questions, answers)
    rows = [[word if word.isalpha() else int(word) for word in line.split()] for line in done.stdout.splitlines()]
    expect("a large graph: what is told of it", (done.returncode, rows) == (0, list(large.rows())), (done.stderr, rows))
    before, after = large.answers()
    told = answers.read_bytes() if answers.exists() else b""
    expect("a large graph: its commits, dates and filters", told.startswith(before), len(told))
    expect("a large graph: pairs and merge bases", told.endswith(after), len(told))
    expect("a large graph: a walk", large.is_walk(told[len(before) : -len(after)]), len(told))
    for fault, changed, wanted in large.faults(data):
        file.write_bytes(changed)
        rows = [[word if word.isalpha() else int(word) for word in line.split()] for line in run(program, file).stdout.splitlines()]
        expect(f"a large graph, {fault}", all(row in rows for row in wanted), (rows, wanted))


def parents_of(where, commit):
    return git(where, "log", "-1", "--format=%P", commit).split()


def told(answer):
    """The merge bases of an answer, in any order, and its last line."""
    *bases, counts = answer.stdout.splitlines() or [""]
    return sorted(bases), counts


@functools.lru_cache(maxsize=None)
def asked(where, first, others):
    """What Git says: the merge bases, and how many commits the first alone leads to, and some of the others alone."""
    bases = git(where, "merge-base", "--all", first, *others).split()
    ahead = git(where, "rev-list", "--count", first, *("^" + other for other in others))
    behind = git(where, "rev-list", "--count", *others, "^" + first)
    return sorted(bases), f"ahead {ahead} behind {behind}"


def same_as_real(name, program, scratch, folders=False):
    """Each answer of the library beside that of `graphtool`, of the graphs of suites/real_data and of its damaged files.

    A program that opens no chain by its lines is given the folder.
    """
    for kind in KINDS if GRAPHTOOL else ():
        for title, graph, ids in real.graphs(scratch / "real", kind):
            opened = graph.parent if folders and graph.name == "commit-graph-chain" else graph
            same_as_program(f"{name}, {title}", program, opened, ids)
        for number, (title, file, ids) in enumerate(real.damaged(scratch / "real", kind)):
            same_list(f"{name}, {title}", program, file)
            first, *others = questions(ids)
            for words in (first, others[number % len(others)]):
                same_answer(f"{name}, {title}", program, file, file, *words)


def same_chunks(name, program, scratch, folders=False):
    """What is told of the dates and filters of each graph beside what has to be told, and what `historytool check` says."""
    for title, path, layers in (row for kind in KINDS for row in chunked.graphs(scratch / "chunked", kind)):
        opened, check = path.parent if folders else path, checked_by_program(path.parent) if HISTORYTOOL else []
        lines = tells(f"{name}: {title}", program, (opened, "dates"), chunked.wanted_dates(title, layers))
        same_check(f"{name}: {title}, dates", "dates", lines[0], check)
        for asked in ("file", "folder", "folder/file", "no/such/file"):
            lines = tells(f"{name}: {title}", program, (opened, "probe", asked), chunked.told_filters(layers, asked.encode()))
        computed = sum(line != "2" for line in lines)
        none = "none" if computed == 0 and "filters none" in check else f"commits {computed}"
        refused = lines[:1] if "".join(lines[:1]).startswith("refused") else [f"filters {none}"]
        same_check(f"{name}: {title}, filters", "filters", refused[0], check)


def tells(name, program, words, wanted):
    """The lines that a program writes, which have to be these; its status is 1 where they refuse."""
    done = run(program, *words)
    expect(f"{name}: {words[1:]}", (done.stdout, done.returncode) == (wanted, int(wanted[:1] == "r")), (done, wanted))
    return done.stdout.splitlines()


def same_check(name, word, line, check):
    """What is told is what `historytool check` says, where it comes to that."""
    said = [row for row in check if row.startswith((word + " ", f"refused {word} "))]
    expect(f"{name}, as checked", said in ([], [line]), (line, said))


@functools.lru_cache(maxsize=None)
def checked_by_program(folder):
    """The lines of `historytool check`."""
    return run(HISTORYTOOL, "check", folder).stdout.splitlines()


def rust_tests(crate, environment):
    """The tests of the Rust crate, and that of its threads under ThreadSanitizer, where a toolchain can."""
    done = run("cargo", "test", "--quiet", "--offline", cwd=crate, env=environment)
    expect("Rust: tests", done.returncode == 0 and "4 threads read" in done.stdout, done)
    expect("Rust: the tests are all made", re.findall(r"(\d+) passed", done.stdout) == ["1", "32", "4", "4", "4"], done)
    command = ["cargo", "+nightly", "test", "--quiet", "--offline", "--test", "threads", "--target", "x86_64-unknown-linux-gnu"]
    at = {**environment, "RUSTFLAGS": SANITIZED}
    if run(*command, "--no-run", cwd=crate, env=at).returncode:
        print("Rust under ThreadSanitizer: left out, since there is no nightly toolchain that links it")
    else:
        done = run(*command, cwd=crate, env=at)
        expect("Rust: ThreadSanitizer", done.returncode == 0 and "4 threads read" in done.stdout, done)


DOCUMENTED = ["-W", "clippy::missing_errors_doc", "-W", "clippy::must_use_candidate"]
"""What clippy is asked for besides: that each call says its errors, and that no answer is dropped unseen."""


def without_warnings(crate, environment):
    """What clippy says of both Rust crates."""
    if run("cargo", "clippy", "--version").returncode:
        print("Rust: clippy: left out, since cargo has no clippy")
        return
    for folder, flags in ((crate, []), (crate / "gix-commitgraph", ["--features", "sha1,sha256"])):
        words = ["cargo", "clippy", "--quiet", "--offline", "--all-targets", *flags, "--", *DOCUMENTED, "-D", "warnings"]
        done = run(*words, cwd=folder, env=environment)
        expect(f"Rust: clippy, {folder.name}", done.returncode == 0 and not done.stderr, done)


def linked_anew(crate, environment, archive):
    """A newer archive is linked anew, and a folder that is named by a part of its path is found, whatever `PWD` says."""
    missing = run("cargo", "build", "--offline", cwd=crate, env={**environment, "COMMITGRAPH_LIB": "no/such/folder"})
    words = (f"there is no {crate.resolve()}/no/such/folder/libcommitgraph.a, and ", "unset COMMITGRAPH_LIB and run ")
    expect("Rust: a folder without the library", missing.returncode and all(word in missing.stderr for word in words), missing)
    for shell in ("/", str(crate), ""):
        at = {**environment, "COMMITGRAPH_LIB": "crates/commitgraph_c/out", "PWD": shell}
        done = run("cargo", "build", "--offline", "--manifest-path", crate / "Cargo.toml", cwd=crate.parent.parent, env=at)
        expect(f"Rust: a folder that begins where Cargo is started, PWD {shell!r}", done.returncode == 0, done)
    for named in ({}, {"COMMITGRAPH_LIB": "../../crates/commitgraph_c/out", "PWD": str(crate)}):
        at = {**environment, **named}
        built = [run("cargo", "build", "--offline", cwd=crate, env=at) for _ in range(2)]
        os.utime(archive)
        built.append(run("cargo", "build", "--offline", cwd=crate, env=at))
        compiled = ["Compiling" in done.stderr for done in built]
        expect(f"Rust: linked anew, {named}", compiled == [True, False, True], built)


def rust(environment, archive, scratch, graphs):
    """The Rust crate, in a clone with the library: its tests, its example, and its answers beside those of `graphtool`."""
    library = scratch / "clone/crates/commitgraph_c/out"
    library.mkdir(parents=True)
    shutil.copy(archive, library)
    crate = shutil.copytree(TOP / "bindings/rust", scratch / "clone/bindings/rust", ignore=shutil.ignore_patterns("target"))
    rust_tests(crate, environment)
    without_warnings(crate, environment)
    linked_anew(crate, environment, library / archive.name)
    graph, ids = graphs["sha1"]
    done = run("cargo", "build", "--quiet", "--offline", "--examples", cwd=crate, env=environment)
    expect("Rust: examples", done.returncode == 0, done)
    built = scratch / "target/debug/examples"
    done = run(built / "demo", graph, ids[-1])
    expect("Rust: demo", done.returncode == 0 and done.stdout.count("11 reached") == 4, done)
    for kind, (graph, ids) in graphs.items() if GRAPHTOOL else ():
        same_as_program(f"Rust, {kind}", built / "ask", graph, ids)
        where = chain(scratch, kind)
        commits = git(where, "rev-list", "main").split()
        same_as_program(f"Rust, {kind}, chain", built / "ask", where / ".git/objects/info/commit-graphs", commits)
    same_as_real("Rust", built / "ask", scratch, folders=True)
    LAST.append(functools.partial(same_chunks, "Rust", built / "ask", scratch, folders=True))
    short_of_memory(built / "ask", scratch)
    names_of_the_original(crate / "gix-commitgraph", environment, scratch)


def short_of_memory(program, scratch):
    """An info folder with a large file beside a small chain: where the file finds no memory, the chain is not opened in its place."""
    info = scratch / "short"
    shutil.copytree(chain(scratch, "sha1") / ".git/objects/info/commit-graphs", info / "commit-graphs")
    (info / "commit-graph").write_bytes(large.graph())
    whole, told = run(program, info, "verify").stdout, set()
    expect("Rust: a large file beside a chain", whole.startswith(f"ok commits {large.COMMITS} "), whole[:200])
    for megabytes in range(8, 129, 8):
        limit = functools.partial(resource.setrlimit, resource.RLIMIT_AS, (megabytes << 20, megabytes << 20))
        # A panic that tells its backtrace wants memory.
        done = run(program, info, "verify", preexec_fn=limit, env={**os.environ, "RUST_BACKTRACE": "0"})
        told.add("no memory" if "memory ran out" in done.stderr else done.stdout)
    expect("Rust: a file that finds no memory hides no chain", {"no memory", whole} <= told <= {"no memory", whole, ""}, told)


def names_of_the_original(crate, environment, scratch):
    """The crate with the names of `gix-commitgraph`, over the graphs of suites/real_data: beside `graphtool`, and beside the original,
    or what it answered once."""
    done, program = gix.build(crate, environment)
    expect("gix-commitgraph: each public item", done.returncode == 0, done)
    done = run("cargo", "test", "--quiet", "--offline", "--tests", "--features", "sha1,sha256", cwd=crate, env=environment)
    expect("gix-commitgraph: tests", done.returncode == 0 and "7 passed" in done.stdout, done)
    done, original = gix.build_original(crate, environment, scratch)
    expect("gix-commitgraph: each public item of the original", done is None or done.returncode == 0, done)
    known, unknown = gix.recorded(), 0
    for kind in KINDS if GRAPHTOOL else ():
        for title, graph, ids in [*real.graphs(scratch / "real", kind), *real.damaged(scratch / "real", kind)]:
            for words, good, detail in gix.beside_graphtool(program, graph, ids, told_by_program, listed_by_program):
                expect(f"gix-commitgraph, {title}: {words}", good, detail)
            path = gix.opened(graph)
            listed = listed_by_program(path).stdout if path.is_file() else ""
            if gix.is_excused(title, listed, told_by_program("verify", path).stdout):
                continue
            key, answers = gix.digest_of(program, graph, ids)
            wanted = gix.digest_of(original, graph, ids)[1] if original else known.get(key)
            unknown += wanted is None
            expect(f"gix-commitgraph, {title}: as the original", wanted in (None, answers), graph)
    if unknown:
        print(f"gix-commitgraph: {unknown} graphs are left out, since no answer of the original was recorded for their bytes")


def c(compiler, archive, scratch, graphs):
    """The C programs by a compiler: the answers, the fields, refused allocations, threads, and the example."""
    program = scratch / compiler / "ask"
    program.parent.mkdir()
    for flags in ([], ["-g", "-fsanitize=address,undefined", "-fno-sanitize-recover=undefined"]):
        name = " ".join([compiler, *flags[1:2]])
        done = run(compiler, "-std=c11", "-O1", *flags, *STRICT, f"-I{HEADER}", HERE / "ask.c", archive, "-o", program)
        expect(f"{name}: ask.c", done.returncode == 0, done.stderr)
        for kind, (graph, ids) in graphs.items():
            compare(f"{name}, {kind}", program, graph, ids)
            chained(f"{name}, {kind}", program, scratch, kind)
        if flags:
            same_as_real(name, program, scratch)
            LAST.append(functools.partial(same_chunks, name, program, scratch))
        elif present("valgrind", "valgrind"):
            nothing_left(name, program, scratch, graphs)
    each_field(compiler, compiler, archive, scratch)
    warned_of(compiler, scratch)
    memory_to_write(compiler, archive, scratch)
    refused_and_shared(compiler, compiler, archive, scratch, graphs)
    example(compiler, archive, scratch, graphs)
    opened_path(compiler, archive, scratch, graphs)
    plus = {"gcc": "g++", "clang": "clang++"}[compiler]
    including = scratch / compiler / "including"
    including.write_text('#include "commitgraph_path.h"\ncg_graph closed(void);\ncg_graph closed(void) { return CG_CLOSED; }\n'
                         'cg_bytes no_bytes(void);\ncg_bytes no_bytes(void) { return CG_NO_BYTES; }\n'
                         'cg_flag no_flag(void);\ncg_flag no_flag(void) { return CG_NO_FLAG; }\n'
                         'cg_lent not_lent(void);\ncg_lent not_lent(void) { return CG_NOT_LENT; }\n')
    for command, standard in ((compiler, "c99"), (compiler, "c11"), (plus, "c++98"), (plus, "c++17")):
        if present(command, f"the header as {standard}"):
            kind = "c++" if command == plus else "c"
            done = run(command, f"-std={standard}", *STRICT, "-fsyntax-only", f"-I{HEADER}", "-x", kind, including)
            expect(f"{command}: the header alone as {standard}", done.returncode == 0, done.stderr)


def nothing_left(name, program, scratch, graphs):
    """Each command under valgrind: no error, and no block that is left."""
    words = ["valgrind", "-q", "--error-exitcode=99", "--leak-check=full", "--show-leak-kinds=all", "--errors-for-leak-kinds=all"]
    for kind, (graph, ids) in graphs.items():
        file = chain(scratch, kind) / ".git/objects/info/commit-graphs/commit-graph-chain"
        asked = [("list",), ("dates",), ("probe", "file"), ("parents", ids[-1]), ("bases", *ids[-3:]), *questions([ids[0], ids[-1]])]
        for opened, command in [(opened, command) for opened in (graph, file) for command in asked]:
            done = run(*words, program, opened, *command)
            expect(f"{name}: valgrind {kind} {command}", done.returncode in (0, 1) and not done.stderr, done)
        cut = program.parent / "cut"
        cut.write_bytes(graph.read_bytes()[:-1])
        done = run(*words, program, cut, "verify")
        expect(f"{name}: valgrind {kind}, a refused file", done.returncode == 1 and not done.stderr, done)


def example(compiler, archive, scratch, graphs):
    """The example: what it prints of a merge of three parents."""
    program = scratch / compiler / "example"
    done = run(compiler, "-std=c11", *STRICT, f"-I{HEADER}", HEADER / "example.c", archive, "-o", program)
    expect(f"{compiler}: example.c", done.returncode == 0, done.stderr)
    for kind, (graph, ids) in graphs.items():
        done = run(program, graph, ids[-1])
        parents = [f"parent {commit}" for commit in parents_of(scratch / kind, ids[-1])]
        commits, record, *rest = done.stdout.splitlines() or ["", ""]
        expect(f"{compiler}: example, {kind}", (done.returncode, commits, rest) == (0, "11 commits", parents), done)
        expect(f"{compiler}: example, time", record.endswith(" time 1000000000"), done)
        refused_example(compiler, program, graph.read_bytes(), kind)
        done = run(program, graph, "HEAD")
        expect(f"{compiler}: example, no commit", done.returncode == 1 and "no commit has the id 'HEAD'; what to do: " in done.stdout, done)
    for path, words in (("no/such/file", "`git commit-graph write --reachable` makes"), (scratch, "give the path of a file in it")):
        done = run(program, path, ids[-1])
        told = done.stderr.startswith(f"{path}: ") and f"\nwhat to do: {words}" in done.stderr
        expect(f"{compiler}: example, {words}", done.returncode == 2 and told, done)


def opened_path(compiler, archive, scratch, graphs):
    """The example that opens what stands at a path: files, info folders and chains; and what it says of what is refused."""
    program = scratch / compiler / "open_path"
    done = run(compiler, "-std=c11", *STRICT, f"-I{HEADER}", HEADER / "open_path.c", archive, "-o", program)
    expect(f"{compiler}: open_path.c", done.returncode == 0, done.stderr)
    for kind, (graph, _) in graphs.items():
        folder = scratch / compiler / f"opened-{kind}"
        layers, data = folder / "commit-graphs", graph.read_bytes()
        layers.mkdir(parents=True)
        name = data[-32 if kind == "sha256" else -20 :].hex()
        (layers / f"graph-{name}.graph").write_bytes(data)
        (layers / "commit-graph-chain").write_text(f"{name}\n")
        for path in (graph, graph.parent, folder, layers):
            done = run(program, path)
            expect(f"{compiler}: open_path {path}", (done.returncode, done.stdout) == (0, "11 commits, layers: 1\n"), done)
        commits = len(git(chain(scratch, kind), "rev-list", "main").split())
        done = run(program, chain(scratch, kind) / ".git/objects/info")
        expect(f"{compiler}: open_path, a chain", (done.returncode, done.stdout) == (0, f"{commits} commits, layers: 4\n"), done)
        if present("valgrind", "open_path under valgrind"):
            words = ["valgrind", "-q", "--error-exitcode=99", "--leak-check=full", "--errors-for-leak-kinds=all"]
            done = run(*words, program, folder)
            expect(f"{compiler}: open_path, valgrind", done.returncode == 0 and not done.stderr, done)
        (folder / "commit-graph").write_bytes(data[:100])
        done = run(program, folder)
        expect(f"{compiler}: open_path, the chain alone", (done.returncode, done.stdout) == (0, "11 commits, layers: 1\n"), done)
        (layers / "commit-graph-chain").write_text("")
        refused = [(f"{layers}/commit-graph-chain", "the chain file names no layer")]
        refused += [(f"{folder}/commit-graph", "the file has fewer than 1100 bytes: often it is truncated")]
        for path, why in refused:
            done = run(program, folder)
            told = done.stderr.startswith(f"{path}: {why}\nwhat to do: ")
            expect(f"{compiler}: open_path, {why}", done.returncode == 1 and told, done)
            shutil.rmtree(layers, ignore_errors=True)
        opened_other_bytes(compiler, program, graph, folder)
    done = run(program, "no/such/file")
    expect(f"{compiler}: open_path, none", done.stderr.startswith("no/such/file: no file or folder is at the path\nwhat to do: "), done)


def opened_other_bytes(compiler, program, graph, folder):
    """The same below a folder whose name is no UTF-8, and at such a name: a file, a chain, an info folder, and what is told of them."""
    root, data = os.fsencode(folder) + b"/\xff", graph.read_bytes()
    name = data[-32 if data[5] == 2 else -20 :].hex().encode()
    chain_of = root + b"/commit-graphs"
    os.makedirs(chain_of)
    layer = chain_of + b"/graph-" + name + b".graph"
    for path, text in ((layer, data), (chain_of + b"/commit-graph-chain", name + b"\n"), (root + b"/\xfe", data)):
        pathlib.Path(os.fsdecode(path)).write_bytes(text)
    for path in (root, root + b"/", chain_of, layer, root + b"/\xfe"):
        done = run(program, os.fsdecode(path))
        expect(f"{compiler}: open_path {path}", (done.returncode, done.stdout) == (0, "11 commits, layers: 1\n"), done)
    wrong = layer.replace(name, b"0" * len(name))
    os.rename(layer, wrong)
    pathlib.Path(os.fsdecode(root + b"/\xfe")).write_bytes(data[:100])
    why = "the file has fewer than 1100 bytes: often it is truncated"
    refused = [(root, layer, "a file is not there or may not be read"), (wrong, wrong, "a file is named `graph-X.graph`, and X is not")]
    refused += [(root + b"/\xfe", root + b"/\xfe", why), (root + b"/none", root + b"/none", "no file or folder is at the path")]
    for path, told, why in refused:
        done = run(program, os.fsdecode(path), errors="surrogateescape")
        said = os.fsencode(done.stderr).startswith(told + b": " + why.encode())
        expect(f"{compiler}: open_path {path}, {why}", done.returncode == 1 and said, done)


def refused_example(compiler, program, data, kind):
    """What the example says of a damaged file, and of one with another generation number of its first commit."""
    path, size = program.parent / "refused", hashlib.new(kind).digest_size
    ids, records = (int.from_bytes(data[data.index(name) + 4 :][:8], "big") for name in (b"OIDL", b"CDAT"))
    changed = bytearray(data[:-size])
    changed[records + size + 11] ^= 64
    sealed = bytes(changed) + hashlib.new(kind, changed).digest()
    commit = f"the commit at position 0 is {data[ids : ids + size].hex()}\n"
    for title, content, words in (
        ("a checksum", data[:-1] + bytes([data[-1] ^ 1]), ["the checksum ", "\nwhat to do: check the disk, "]),
        ("a generation number", sealed, ["the generation number ", "\n" + commit + "what to do: remove the files that were opened "]),
        ("an empty file", b"", ["the file has fewer than 1100 bytes", "\nwhat to do: remove the files that were opened "]),
    ):
        path.write_bytes(content)
        done = run(program, path, "00" * size)
        right = done.returncode == 1 and done.stderr.startswith(f"refused: {path}: ") and all(word in done.stderr for word in words)
        expect(f"{compiler}: example, {kind}, {title}", right, done)


def installed(compilers, scratch, graphs):
    """What building/library puts below a folder, which is then moved: the example over it, as each kind of library is linked."""
    prefix, ids = scratch / "installed elsewhere", graphs["sha1"][1]
    done = run(TOP / "building/library", "--put", scratch / "put")
    expect("building/library --put", done.returncode == 0, done)
    (scratch / "put").rename(prefix)
    put = {str(path.relative_to(prefix)) for path in prefix.rglob("*") if not path.is_dir()}
    expect("building/library --files", put == set(run(TOP / "building/library", "--files").stdout.split()), put)
    page = (prefix / "share/man/man3/commitgraph.3").read_text()
    header = (prefix / "include/commitgraph.h").read_text()
    missing = [name for name in re.findall(r"^(?:static inline )?[\w ]+ \*?(cg_[a-z_]+)\(", header, re.MULTILINE) if name not in page]
    expect("the manual page names each call", missing == ["cg_closed", "cg_no_flag", "cg_not_lent", "cg_no_bytes"], missing)
    number = (TOP / "VERSION").read_text().split(",")[0]
    first, second, third = map(int, number.split("."))
    expect("the header has the version", f"#define CG_VERSION {10000 * first + 100 * second + third}\n" in header, number)
    at = {**os.environ, "PKG_CONFIG_PATH": str(prefix / "lib/pkgconfig"), "LD_LIBRARY_PATH": str(prefix / "lib")}
    for compiler in compilers if present("pkg-config", "the installed library by pkg-config") else ():
        for kind, words in (("shared", ""), ("static", "-static"), ("archive", "")):
            program = scratch / f"installed-{compiler}-{kind}"
            flags = shlex.split(run("pkg-config", "--cflags", "--libs", "commitgraph", env=at).stdout)
            if kind == "archive":
                flags = ["-l:libcommitgraph.a" if word == "-lcommitgraph" else word for word in flags]
            done = run(compiler, "-D_GNU_SOURCE", *words.split(), HEADER / "example.c", *flags, "-o", program)
            done = run(program, graphs["sha1"][0], ids[-1], env=at) if done.returncode == 0 else done
            expect(f"installed, {compiler}, {kind}", done.returncode == 0 and "\nparent " in done.stdout, done)
    if present("musl-gcc", "the installed library under musl"):
        program = scratch / "installed-musl"
        flags = [f"-I{prefix}/include", f"-L{prefix}/lib", "-l:libcommitgraph.a"]
        done = run("musl-gcc", "-static", "-D_GNU_SOURCE", HEADER / "example.c", *flags, "-o", program)
        done = run(program, graphs["sha1"][0], ids[-1]) if done.returncode == 0 else done
        expect("installed, musl", done.returncode == 0 and "\nparent " in done.stdout, done)
    if present("pkg-config", "Go") and present("go", "Go"):
        go(prefix, at, scratch)
    if compilers and present("cmake", "the installed library by CMake"):
        by_cmake(compilers[0], prefix, scratch, graphs["sha1"][0], ids[-1])


def go(prefix, environment, scratch):
    """The package for Go over the installed library: what `go vet` and `gofmt` say of it, and its tests."""
    # cgo takes no path with a space in it.
    package, found = shutil.copytree(TOP / "bindings/go", scratch / "go"), scratch / "found"
    found.symlink_to(prefix)
    own = {"PKG_CONFIG_PATH": str(found / "lib/pkgconfig"), "GOCACHE": str(scratch / "go-built"), "GOFLAGS": "-mod=mod"}
    at = {**environment, **own}
    done = run("go", "vet", "./...", cwd=package, env=at)
    expect("Go: vet", done.returncode == 0 and not done.stdout, done)
    copied = package / "copied_test.go"
    copied.write_text("package commitgraph\n\nfunc copied(graph *Graph) Graph { return *graph }\n")
    done = run("go", "vet", "./...", cwd=package, env=at)
    expect("Go: vet tells of a graph that is copied", done.returncode != 0 and "copies lock" in done.stdout + done.stderr, done)
    copied.unlink()
    if present("gofmt", "Go: the layout"):
        done = run("gofmt", "-l", ".", cwd=package)
        expect("Go: the layout", done.returncode == 0 and not done.stdout, done)
    made = re.findall(r"^func (Test\w+)", (package / "commitgraph_test.go").read_text(), re.MULTILINE)
    for flags in ([], ["-race"]):
        if flags and run("go", "test", *flags, "-c", "-o", os.devnull, cwd=package, env=at).returncode:
            print("Go: the tests with its detector of races: left out, since go does not link it")
            continue
        done = run("go", "test", *flags, "-v", "-count=1", cwd=package, env=at)
        ran = re.findall(r"^--- PASS: (\w+)", done.stdout, re.MULTILINE)
        expect(f"Go: tests {' '.join(flags)}", done.returncode == 0 and ran == made, done)


CMAKE = """cmake_minimum_required(VERSION 3.10)
project(example C)
find_package(commitgraph %s REQUIRED)
foreach(kind commitgraph static)
  add_executable(with-${kind} example.c)
  target_compile_definitions(with-${kind} PRIVATE _GNU_SOURCE)
  target_link_libraries(with-${kind} commitgraph::${kind})
endforeach()
"""


def by_cmake(compiler, prefix, scratch, graph, commit):
    """Both targets; and another version is not taken."""
    source, number = scratch / "cmake", (TOP / "VERSION").read_text().split(",")[0]
    source.mkdir()
    shutil.copy(HEADER / "example.c", source)
    for wanted, taken in (("99.0", False), (number, True)):
        (source / "CMakeLists.txt").write_text(CMAKE % wanted)
        built = source / f"built-{wanted}"
        done = run("cmake", "-S", source, "-B", built, f"-DCMAKE_PREFIX_PATH={prefix}", f"-DCMAKE_C_COMPILER={compiler}")
        expect(f"CMake, version {wanted}", (done.returncode == 0) == taken, done)
    done = run("cmake", "--build", source / f"built-{number}")
    expect("CMake: built", done.returncode == 0, done)
    for kind in ("commitgraph", "static"):
        done = run(source / f"built-{number}/with-{kind}", graph, commit)
        expect(f"CMake: {kind}", done.returncode == 0 and "\nparent " in done.stdout, done)


def python(library):
    """The module for Python: its types, as `mypy` reads them, and its tests, over the shared library."""
    module = TOP / "bindings/python/commitgraph.py"
    if present("mypy", "Python: the types"):
        done = run("mypy", "--strict", f"--cache-dir={os.devnull}", module)
        expect("Python: mypy", done.returncode == 0, done)
    if sys.version_info < (3, 10):
        print("Python: left out, since it is older than 3.10")
        return
    tests = module.with_name("test_commitgraph.py")
    done = run(sys.executable, "-B", tests, env={**os.environ, "COMMITGRAPH_LIB": str(library.parent)})
    expect("Python: tests", done.returncode == 0 and "Ran 14 tests" in done.stderr, done)


def parts(archive, scratch, graphs):
    """The calls for each compiler that is there. One is enough for the graph of many commits."""
    compilers = [compiler for compiler in ("gcc", "clang") if present(compiler, f"C with {compiler}")]
    yield from (functools.partial(c, compiler, archive, scratch, graphs) for compiler in compilers)
    yield from (functools.partial(many_commits, compiler, archive, scratch) for compiler in compilers[:1])
    yield functools.partial(installed, compilers, scratch, graphs)
    yield functools.partial(python, archive)
    yield functools.partial(own_root, archive.with_suffix(".so"))
    if present("cargo", "Rust"):
        at = {**os.environ, "CARGO_TARGET_DIR": str(scratch / "target")}
        at.pop("COMMITGRAPH_LIB", None)
        yield functools.partial(rust, at, archive, scratch, graphs)


def together(calls):
    """Makes calls side by side. They wait for the programs that they run, most of the time."""
    with concurrent.futures.ThreadPoolExecutor() as pool:
        for done in [pool.submit(call) for call in calls]:
            done.result()


def own_root(library):
    """Merge bases over a branch that begins with a root of its own."""
    for name, seen, good in branches.checks(library):
        expect(f"a branch with a root of its own, {name}", good, seen)


def with_historytool():
    """Makes the calls that need `historytool`, once its path is known."""
    global HISTORYTOOL
    HISTORYTOOL = LATER.path(HISTORYTOOL)
    if not HISTORYTOOL:
        print("what historytool says of dates and filters: left out, since no HISTORYTOOL is given")
    together(LAST)


def main():
    if sys.argv[1:2] == ["--library"]:
        if wait_for_crates(pathlib.Path(sys.argv[2])):
            proving.prove(proving.EXPORTS, 2, (), time.time())
        return
    archive = built()
    exports(archive)
    sentences(archive.with_suffix(".so"))
    if not GRAPHTOOL:
        print("what graphtool lists and counts: left out, since no GRAPHTOOL is given")
    with tempfile.TemporaryDirectory() as folder:
        scratch = pathlib.Path(folder)
        (scratch / "real").mkdir()
        (scratch / "chunked").mkdir()
        graphs = {}
        for kind in KINDS:
            ids = repository(scratch / kind, kind)
            graphs[kind] = (scratch / kind / ".git/objects/info/commit-graph", ids)
            chain(scratch, kind)
            real.graphs(scratch / "real", kind)
            real.damaged(scratch / "real", kind)
            chunked.graphs(scratch / "chunked", kind)
        together(parts(archive, scratch, graphs))
        with_historytool()
    print(f"{passed} passed, {failed} failed")
    return failed != 0


sys.exit(main())
