"""Programs in the place of graphtool and historytool, for the checks in pasted.py: `programs.py graphtool verify PATH`.

They read files that Git wrote, and find no more wrong with them than these checks need: a file that is short, has no signature
or a wrong checksum, or is not there. Git makes what they write.
"""

import hashlib
import os
import shutil
import subprocess
import sys
import tempfile
import zlib


def files_at(path):
    """The files of the layers at a path, the lowest first."""
    if os.path.isfile(path):
        return [path]
    if os.path.exists(os.path.join(path, "commit-graph")):
        return [os.path.join(path, "commit-graph")]
    if os.path.exists(os.path.join(path, "commit-graph-chain")):
        with open(os.path.join(path, "commit-graph-chain"), encoding="ascii") as file:
            return [os.path.join(path, "graph-%s.graph" % name) for name in file.read().split()]
    below = os.path.join(path, "commit-graphs")
    return files_at(below) if os.path.exists(below) else [os.path.join(path, "none")]


def ids_in(content):
    """The ids of a layer."""
    chunks = [content[8 + 12 * at : 20 + 12 * at] for at in range(content[6])]
    start = {chunk[:4]: int.from_bytes(chunk[4:], "big") for chunk in chunks}
    count = int.from_bytes(content[start[b"OIDF"] + 1020 : start[b"OIDF"] + 1024], "big")
    return [content[start[b"OIDL"] + 20 * at :][:20].hex() for at in range(count)]


def chunks_of(content):
    """The bytes of each chunk of a layer, by its name."""
    rows = [content[8 + 12 * at : 20 + 12 * at] for at in range(content[6] + 1)]
    starts = [int.from_bytes(row[4:], "big") for row in rows]
    return {row[:4]: content[start:end] for row, start, end in zip(rows, starts, starts[1:])}


def refusal(path):
    """The line of the first fault of the files at a path, or None, and the ids of all layers."""
    ids = []
    for number, name in enumerate(files_at(path)):
        if not os.path.isfile(name) or not os.access(name, os.R_OK):
            return "refused open 2", ids
        with open(name, "rb") as file:
            content = file.read()
        if len(content) < 1100 or content[:4] != b"CGPH":
            return "refused open 5 layer %d file %d" % (number, 1 if len(content) < 1100 else 2), ids
        if hashlib.sha1(content[:-20]).digest() != content[-20:]:
            return "refused verify 4 layer %d fault 1" % number, ids
        ids += ids_in(content)
    return None, ids


def entries():
    """The commits that `git cat-file --batch` writes, each with its id, and None for one that is missing."""
    stream = sys.stdin.buffer
    for header in iter(stream.readline, b""):
        commit, *rest = header.decode().split()
        yield commit, None if rest == ["missing"] else stream.read(int(rest[1]) + 1)[:-1]


def write(below):
    """Writes the layer of the commits on standard input, on top of others, as Git makes it of them."""
    commits = dict(entries())
    missing = [at for at, content in enumerate(commits.values()) if content is None]
    if missing or not commits:
        print("refused stream 3 entry %d" % missing[0] if missing else "refused write 9")
        return 1
    variables = {name: value for name, value in os.environ.items() if not name.startswith("GIT_")}
    with tempfile.TemporaryDirectory() as folder:
        subprocess.run(["git", "init", "-q", "--bare", folder], env=variables, check=True)
        for commit, content in commits.items():
            path = os.path.join(folder, "objects", commit[:2], commit[2:])
            os.makedirs(os.path.dirname(path), exist_ok=True)
            with open(path, "wb") as file:
                file.write(zlib.compress(b"commit %d\0" % len(content) + content))
        chain = os.path.join(folder, "objects/info/commit-graphs")
        if below:
            shutil.copytree(below[0], chain)
        words = ["git", "-C", folder, "commit-graph", "write", "--stdin-commits", "--no-changed-paths"]
        words += ["--split=no-merge"] if below else []
        subprocess.run(words, env=variables, check=True, input="\n".join(commits).encode(), stdout=2)
        with open(files_at(chain if below else os.path.join(folder, "objects/info"))[-1], "rb") as file:
            sys.stdout.buffer.write(file.read())
    return 0


def show(path):
    """Shows the layers at a path, as far as they are right."""
    line, _ = refusal(path)
    for number, name in enumerate(files_at(path) if not line else []):
        with open(name, "rb") as file:
            content = file.read()
        print("layer %d commits %d hash sha1 bases %d dates yes filters none" % (number, len(ids_in(content)), number))
        print("checksum %s\nchunks OIDF 1024" % content[-20:].hex())
    print(line or "graph layers 1 commits 1 generation 1\nright")
    return 1 if line else 0


def compare(path, first, last):
    """Compares the commits on standard input with those at a path."""
    found = list(entries())
    missing = [at for at, (_, content) in enumerate(found) if content is None]
    if missing:
        print("refused objects 4 position %d" % (int(first) + missing[0]))
    elif len(found) < int(last) - int(first):
        print("refused objects 1 position %d" % (int(first) + len(found)))
    else:
        print("ok commits %d" % len(found))
        return 0
    return 1


def hold(path):
    """Holds the filters of the layers at a path against the root trees alone, for which it asks: one without a bit lacks `file0`."""
    line, count, position = None, None, 0
    for content in map(bytes_of, files_at(path)):
        chunks = chunks_of(content)
        ends = [int.from_bytes(chunks.get(b"BIDX", b"")[at : at + 4], "big") for at in range(0, len(chunks.get(b"BIDX", b"")), 4)]
        count = (count or 0) + len(ends) if b"BIDX" in chunks else count
        for number, end in enumerate(ends):
            own = chunks[b"BDAT"][12 + (ends[number - 1] if number else 0) : 12 + end]
            line = line or refused_tree(position + number, chunks[b"CDAT"][36 * number :][:20].hex(), any(own))
        position += len(chunks[b"CDAT"]) // 36
    print("\n" + (line or "filters " + ("none" if count is None else "commits %d" % count)))
    return 1 if line else 0


def bytes_of(path):
    """The bytes of a file."""
    with open(path, "rb") as file:
        return file.read()


def refused_tree(position, tree, has_bits):
    """The line of what is wrong with the root tree of a commit, for which it asks, or with its filter; or None."""
    print(tree, flush=True)
    stream = sys.stdin.buffer
    header = stream.readline().split()
    at = "position %d id %s" % (position, tree)
    if header[1:] == [b"missing"] or not header:
        return "refused paths %d %s" % (4 if header else 1, at)
    content = stream.read(int(header[2]) + 1)[:-1]
    if header[1] != b"tree":
        return "refused paths 5 " + at
    if hashlib.sha1(b"tree %d\0" % len(content) + content).hexdigest() != tree:
        return "refused paths 6 " + at
    return None if has_bits else 'refused paths 11 position %d path "file0"' % position


def gather(ids, known):
    """Asks for the commits that are not known, and all that they lead to. The line of what is wrong with one, or None."""
    wanted, asked = list(ids), set(known)
    while wanted:
        commit = wanted.pop()
        if commit in asked:
            continue
        asked.add(commit)
        print(commit, flush=True)
        _, content = next(entries())
        if content is None:
            return "unknown %d" % (ids.index(commit) + 1) if commit in ids else "refused newer 4 id " + commit
        head = content.decode("utf-8", "replace").split("\n\n")[0]
        wanted += [line[len("parent ") :] for line in head.split("\n") if line.startswith("parent ")]
    return None


def answer_newer(*rest):
    """Answers a question about commits of a graph, or of none, and of newer ones."""
    line, known = refusal(rest[0]) if os.path.exists(rest[0]) else (None, [])
    line = line or gather([word for word in rest if not os.path.exists(word)], known)
    print("\n" + (line or "yes"))
    return 1 if line else 0


def answer(word, *rest):
    """Answers one command, and gives its status."""
    if word == "write":
        return write(rest)
    if "--newer" in rest[:2]:
        return answer_newer(*rest[rest.index("--newer") + 1 :])
    path, *rest = [part for part in rest if part != "--unchecked"] or ["."]
    if word == "show":
        return show(path)
    if word == "objects":
        return compare(path, *rest)
    line, ids = refusal(path) if word != "list" else (None, [])
    if line:
        print(line)
        return 1
    if word == "paths":
        return hold(path)
    if word == "ids":
        print("".join(commit + "\n" for commit in (ids[int(rest[0]) : int(rest[1])] if rest else ids)), end="")
        return 0
    unknown = next((at for at, commit in enumerate(rest, 1) if commit not in ids), None)
    print("unknown %d" % unknown if unknown else "yes" if rest else "ok commits %d longest 1" % len(ids))
    return 1 if unknown else 0


if __name__ == "__main__":
    sys.exit(answer(*sys.argv[2:]))
