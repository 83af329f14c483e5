"""The crate with the names of `gix-commitgraph`: a program that uses each public item, over the graphs of suites/real_data, its
answers beside those of `graphtool` and of the original.

The original is compiled where GIX_COMMITGRAPH names a folder with the sources of the crates `gix-commitgraph`, `gix-hash` and
`memmap2`, and of those that they need, as `cargo vendor` lays them out. Where it is not there, what it answered once is compared,
by the digests in `gix_answers.txt`: `python3 suites/bindings/gix.py ORIGINAL` writes them, with the program built with the original.
"""
import functools
import hashlib
import os
import pathlib
import re
import shutil
import subprocess
import sys
import tempfile

RECORD = pathlib.Path(__file__).resolve().parent / "gix_answers.txt"
HEAD = """# What `gix-commitgraph` 0.41.0 answers to `examples/every_item.rs` over the graphs of suites/real_data, made by Git 2.39.5: for each a
# digest of the bytes of its files, and one of the answers.
"""
FEATURES = 'features = ["sha1", "sha256"]'
PROJECT = f"""[package]
name = "every-item"
version = "0.0.0"
edition = "2021"
[dependencies]
gix-commitgraph = {{ version = "*", {FEATURES} }}
gix-hash = {{ version = "*", {FEATURES} }}
memmap2 = "*"
"""


def build(crate, environment):
    """The program, built with this crate and the stand-ins beside it; or what Cargo says."""
    words = ["cargo", "build", "--quiet", "--offline", "--example", "every_item", "--features", "sha1,sha256"]
    done = subprocess.run(words, cwd=crate, env=environment, capture_output=True, text=True)
    return done, pathlib.Path(environment["CARGO_TARGET_DIR"]) / "debug/examples/every_item"


def build_original(crate, environment, scratch):
    """The program, built with the original; or `None` where its sources are not at hand."""
    sources = os.environ.get("GIX_COMMITGRAPH")
    if not sources:
        return None, None
    project = scratch / "original"
    (project / "src").mkdir(parents=True)
    (project / ".cargo").mkdir()
    (project / "Cargo.toml").write_text(PROJECT)
    (project / ".cargo/config.toml").write_text(
        f'[source.crates-io]\nreplace-with = "here"\n[source.here]\ndirectory = "{pathlib.Path(sources).resolve()}"\n')
    shutil.copy(crate / "examples/every_item.rs", project / "src/main.rs")
    at = {**environment, "CARGO_TARGET_DIR": str(scratch / "original-target")}
    done = subprocess.run(["cargo", "build", "--quiet", "--offline"], cwd=project, env=at, capture_output=True, text=True)
    return done, scratch / "original-target/debug/every-item"


@functools.lru_cache(maxsize=None)
def told(program, *words):
    """The lines of an answer, and its status: the path of the folder that is asked about is left out of them."""
    done = subprocess.run([str(program), *map(str, words)], capture_output=True)
    lines = done.stdout.decode(errors="replace").replace(str(pathlib.Path(words[1]).parent) + "/", "")
    return lines, done.returncode


def opened(graph):
    """A chain is opened by its folder."""
    return graph.parent if graph.name == "commit-graph-chain" else graph


def asked(graph, ids):
    """What is asked of a graph: each command with its words."""
    path = opened(graph)
    files = sorted(path.glob("*.graph")) if path.is_dir() else [path]
    yield from ((command, path) for command in ("verify", "openers", "walk"))
    yield from ((command, file) for file in files for command in ("list", "items"))
    yield from (("find", path, commit) for commit in ids)


def as_graphtool(answer):
    """An answer of `graphtool` in the lines of the program."""
    lines, status = answer
    if lines.startswith("refused"):
        return "refused\n", 1
    return re.sub(r"!\d", "!", lines), 0 if lines == "none\n" else status


def beside_graphtool(program, graph, ids, answer_of, list_of):
    """What differs from `graphtool`: `answer_of` has its answer to some words, and `list_of` its list of a file."""
    for command, path, *rest in asked(graph, ids):
        if command in ("verify", "find", "list"):
            done = list_of(path) if command == "list" else answer_of(command, path, *rest)
            wanted, found = as_graphtool((done.stdout, done.returncode)), told(program, command, path, *rest)
            yield f"{command} {path.name} {' '.join(rest)}", found == wanted, (found, wanted)


def is_excused(title, listed, verified):
    """Whether a damaged file is one of which the original says something else: `docs/DIFFERENCES.md` has the three kinds."""
    fan = listed.startswith("refused file 17") or verified.startswith("refused verify 4 layer 0 fault 3")
    return fan or title.endswith(", an empty chunk, unknown")


def digest_of(program, graph, ids):
    """A digest of the bytes of a graph's files, and one of all that the program answers of it."""
    path = opened(graph)
    files = sorted(path.glob("*.graph")) if path.is_dir() else [path]
    key = hashlib.sha256(b"".join(hashlib.sha256(file.read_bytes()).digest() for file in files)).hexdigest()[:16]
    answers = "".join(f"{words[0]} {told(program, *words)}\n" for words in asked(graph, ids))
    return key, hashlib.sha256(answers.encode()).hexdigest()[:16]


def recorded():
    """The digests of the original's answers, by those of the files."""
    return dict(line.split() for line in RECORD.read_text().splitlines() if not line.startswith("#"))


def record(original):
    """Writes the digests of what the original answers, which is a program that `build_original` has built."""
    import real

    with tempfile.TemporaryDirectory() as folder:
        scratch = pathlib.Path(folder)
        rows = [row for kind in ("sha1", "sha256") for row in [*real.graphs(scratch, kind), *real.damaged(scratch, kind)]]
        lines = sorted({" ".join(digest_of(original, graph, ids)) for _, graph, ids in rows})
    RECORD.write_text(HEAD + "".join(line + "\n" for line in lines))


if __name__ == "__main__":
    record(sys.argv[1])
