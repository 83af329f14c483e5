"""Over a commit-graph that Git writes: what the module answers is what Git says."""

import copy
import ctypes.util
import errno
import hashlib
import os
import pathlib
import pickle
import shutil
import subprocess
import sys
import tempfile
import threading
import unittest
from collections.abc import Callable

import commitgraph
from commitgraph import Code, Error, Flag, Graph, NeitherError, NewCommit

WHO = {f"GIT_{who}_{what}": "a@b" for who in ("AUTHOR", "COMMITTER") for what in ("NAME", "EMAIL")}
WHEN = {"GIT_AUTHOR_DATE": "1000000000 +0000", "GIT_COMMITTER_DATE": "1000000000 +0000"}
ALONE = {"GIT_CONFIG_GLOBAL": "/dev/null", "GIT_CONFIG_NOSYSTEM": "1"}


class OverGit(unittest.TestCase):
    def setUp(self) -> None:
        self.folder = tempfile.TemporaryDirectory()
        self.info = pathlib.Path(self.folder.name) / ".git/objects/info"
        self.git("init", "-q")
        tree, self.ids = self.git("write-tree"), []
        for number in range(8):
            parents = [f"-p{self.ids[at]}" for at in {0: [], 7: [4, 5, 6]}.get(number, [(number - 1) // 2])]
            self.ids.append(self.git("commit-tree", tree, "-m", str(number), *parents))
        self.git("update-ref", "refs/heads/main", self.ids[-1])

    def tearDown(self) -> None:
        self.folder.cleanup()

    def git(self, *words: str) -> str:
        at = {**os.environ, **WHO, **WHEN, **ALONE}
        done = subprocess.run(["git", "-C", self.folder.name, *words], env=at, check=True, capture_output=True, text=True)
        return done.stdout.strip()

    def asked(self, graph: Graph) -> None:
        reachable = self.git("rev-list", "main").split()
        self.assertEqual(sorted(reachable), sorted(graph.id(position).hex() for position in range(len(graph))))
        for commit in reachable:
            position = graph.lookup(commit)
            assert position is not None
            parents, tree = self.git("log", "-1", "--format=%P", commit).split(), self.git("log", "-1", "--format=%T", commit)
            self.assertEqual([graph.id(parent).hex() for parent in graph.parents(position)], parents)
            self.assertEqual((graph.tree(position).hex(), graph.record(position).time), (tree, 1000000000))
            for other in reachable:
                at = graph.lookup(bytes.fromhex(other))
                assert at is not None
                bases = self.git("merge-base", "--all", commit, other).split()
                self.assertEqual(sorted(graph.id(base).hex() for base in graph.compare(position, [at]).bases), sorted(bases))
                self.assertEqual(graph.is_ancestor(position, at), commit in bases)

    def many(self, graph: Graph) -> None:
        """Calls for many answer as those for one."""
        all_of = range(len(graph))
        ids = graph.ids(all_of)
        self.assertEqual(ids, [graph.id(position) for position in all_of])
        self.assertEqual(graph.lookup_all([*reversed(ids), b"\7" * 20]), [*reversed(all_of), None])
        self.assertEqual(graph.lookup_all([ids[0], b"\7" * 32, b""]), [0, None, None])
        pairs = [(one, two) for one in all_of for two in all_of]
        self.assertEqual(graph.compare_all(pairs), [graph.compare(one, [two]) for one, two in pairs])
        for text in ("HEAD", ids[0].hex()[:7], "g" * 40, f"{ids[0].hex()[:-1]} "):
            with self.assertRaisesRegex(ValueError, f"^{text!r} is no id, "):
                graph.lookup(text)
        self.assertEqual((graph.lookup(ids[0].hex().upper()), graph.lookup("0" * 64)), (0, None))
        self.assertEqual((graph.ids([]), graph.lookup_all([]), graph.compare_all([])), ([], [], []))
        for none in (len(graph), -1, 2**32, -(2**32)):
            for refused in (lambda: graph.ids([0, none]), lambda: graph.compare_all([(0, 0), (0, none)])):
                self.refused(Code.NO_SUCH_POSITION, refused, number=1)
                with self.assertRaisesRegex(Error, "number 1 of those asked"):
                    refused()
            asked: list[Callable[[], object]] = [
                *(lambda: graph.id(none), lambda: graph.tree(none), lambda: graph.record(none), lambda: graph.parents(none)),
                *(lambda: graph.is_ancestor(0, none), lambda: graph.is_ancestor(none, 0)),
                *(lambda: graph.compare(0, [0, none]), lambda: graph.compare(none, [0])),
            ]
            for call in asked:
                self.refused(Code.NO_SUCH_POSITION, call, position=none)
                with self.assertRaisesRegex(Error, f"the graph has no such position: {none}$"):
                    call()

    def refused(self, code: Code, call: Callable[[], object], **told: object) -> None:
        with self.assertRaises(Error) as raised:
            call()
        self.assertEqual((raised.exception.code, {name: getattr(raised.exception, name) for name in told}), (code, told))

    def says(self, call: Callable[[], object], *words: str) -> None:
        """What is raised names these, and what to type."""
        with self.assertRaises((Error, OSError)) as raised:
            call()
        for word in (*words, "git commit-graph write --reachable"):
            self.assertIn(word, str(raised.exception))

    def misnumbered(self, data: bytes) -> tuple[bytes, str]:
        """A file with another generation number of its first commit, and the checksum of its bytes; and the id of that commit."""
        changed, table = bytearray(data[:-20]), data[8 : 8 + 12 * (data[6] + 1)]
        ids, records = (int.from_bytes(table[table.index(name) + 4 :][:8], "big") for name in (b"OIDL", b"CDAT"))
        changed[records + 31] ^= 64
        return bytes(changed) + hashlib.sha1(changed).digest(), data[ids : ids + 20].hex()

    def commits(self, revisions: str) -> list[NewCommit]:
        """What Git says of commits."""
        lines = self.git("log", "--format=%H %T %ct %P", revisions).splitlines()
        words = (line.split() for line in lines)
        read = bytes.fromhex
        return [NewCommit(read(name), read(tree), [*map(read, parents)], int(time)) for name, tree, time, *parents in words]

    def test_writing(self) -> None:
        self.git("commit-graph", "write", "--reachable")
        told = self.commits("main")
        self.assertEqual(commitgraph.write_file(told[::-1]), (self.info / "commit-graph").read_bytes())
        (self.info / "commit-graph").unlink()
        for commit in (self.ids[4], self.ids[-1]):
            self.git("update-ref", "refs/heads/main", commit)
            self.git("commit-graph", "write", "--reachable", "--split=no-merge")
        folder = self.info / "commit-graphs"
        low, high = [folder / f"graph-{name}.graph" for name in (folder / "commit-graph-chain").read_text().split()]
        below = Graph([(low.read_bytes(), "")])
        own = [commit for commit in told if below.lookup(commit.id) is None]
        self.assertEqual(below.write_layer(own), high.read_bytes())
        first = next(number for number, commit in enumerate(told) if commit not in own)
        place = below.lookup(told[first].id)
        self.refused(Code.WRITE_BELOW, lambda: below.write_layer(told), number=first, position=place)
        below.close()
        self.refused(Code.CLOSED_GRAPH, lambda: below.write_layer(own))
        for call in (below.id, below.tree, below.record):
            self.refused(Code.CLOSED_GRAPH, lambda: call(0))
        for commits in ([told[first].id], [told[first].id, b"\0"]):
            self.refused(Code.CLOSED_GRAPH, lambda: below.lookup_all(commits))
        self.refused(Code.CLOSED_GRAPH, lambda: below.lookup(told[first].id))

    def test_commits_that_are_refused(self) -> None:
        one, two = NewCommit(b"\1" * 20, b"\1" * 20, [], 5), NewCommit(b"\2" * 20, b"\1" * 20, [b"\1" * 20], 5)
        for handed, code, told in (
            ([], Code.WRITE_NOTHING, {"advice": "see whether `git rev-list --all` lists any"}),
            ([one, one], Code.WRITE_TWICE, {"number": 1, "other": 0}),
            ([one, two._replace(parents=[b"\1" * 20, b"\3" * 20])], Code.WRITE_PARENT, {"number": 1, "other": 1}),
            ([one, two._replace(parents=[b"\1" * 40])], Code.WRITE_NO_IDS, {"number": 1}),
            ([one, two._replace(tree=b"")], Code.WRITE_NO_IDS, {"number": 1}),
            ([one, two._replace(tree=b"\0" * 20)], Code.WRITE_NULL_TREE, {"number": 1}),
            *(([one, two._replace(time=time)], Code.WRITE_TIME, {"number": 1}) for time in (-1, 2**34, 2**64)),
        ):
            self.refused(code, lambda: commitgraph.write_file(handed), **told)
        self.assertEqual(len(Graph([(commitgraph.write_file([two, one]), "")])), 2)

    def test_a_file(self) -> None:
        self.git("commit-graph", "write", "--reachable")
        for path in (self.info, self.info / "commit-graph"):
            with commitgraph.open(path, distinct_ids=True) as graph:
                self.asked(graph)
                self.many(graph)
                self.assertIsNone(graph.lookup(b"\0" * 20))

    def test_a_chain(self) -> None:
        for commit in (self.ids[4], self.ids[-1]):
            self.git("update-ref", "refs/heads/main", commit)
            self.git("commit-graph", "write", "--reachable", "--split=no-merge")
        for path in (self.info, self.info / "commit-graphs"):
            with commitgraph.open(path) as graph:
                self.asked(graph)
                self.many(graph)

    def test_paths(self) -> None:
        """What stands at a path is opened as the programs open it; and what is told where nothing is."""
        for commit in (self.ids[4], self.ids[-1]):
            self.git("update-ref", "refs/heads/main", commit)
            self.git("commit-graph", "write", "--reachable", "--split=no-merge")
        chain, file = self.info / "commit-graphs", self.info / "commit-graph"
        lines, whole = (chain / "commit-graph-chain").read_bytes(), len(commitgraph.open(self.info))
        for data in (b"", b"CGPH"):
            file.write_bytes(data)
            self.assertEqual(len(commitgraph.open(self.info)), whole)
        low = chain / f"graph-{lines.split()[0].decode()}.graph"
        lowest = low.read_bytes()
        file.write_bytes(lowest)
        self.assertLess(len(commitgraph.open(self.info)), whole)
        file.write_bytes(low.read_bytes()[:-1] + b"\7")
        self.refused(Code.CHECK_CHECKSUM, lambda: commitgraph.open(self.info))
        self.says(lambda: commitgraph.open(self.info), f"{file}: the checksum ", "check the disk")
        (chain / "commit-graph-chain").write_bytes(lines + b"\xff\n")
        self.refused(Code.OPEN_CHAIN_NOT_TEXT, lambda: commitgraph.open(chain), layer=2)
        self.says(lambda: commitgraph.open(chain), f"{chain}/commit-graph-chain: a line ", ": line 2, counted from 0; ")
        (chain / "commit-graph-chain").write_bytes((lines.split()[0] + b"\n") * 300)
        self.refused(Code.CHECK_TOO_MANY_FILES, lambda: commitgraph.open(chain), path=str(chain / "commit-graph-chain"))
        (chain / "commit-graph-chain").write_bytes(lines + b"\xff\n")
        named = os.fsencode(self.folder.name) + b"/\xff"
        os.rename(self.info, named)
        (pathlib.Path(os.fsdecode(named)) / "commit-graph").unlink()
        self.refused(Code.OPEN_CHAIN_NOT_TEXT, lambda: commitgraph.open(os.fsdecode(named)), layer=2)
        (pathlib.Path(os.fsdecode(named)) / "commit-graphs/commit-graph-chain").write_bytes(lines)
        self.assertEqual(len(commitgraph.open(os.fsdecode(named))), whole)
        low = pathlib.Path(os.fsdecode(named)) / "commit-graphs" / low.name
        low.unlink()
        with self.assertRaises(FileNotFoundError) as raised:
            commitgraph.open(os.fsdecode(named))
        self.assertEqual(os.fsencode(raised.exception.filename), os.fsencode(low))
        (pathlib.Path(os.fsdecode(named)) / "commit-graphs/commit-graph-chain").unlink()
        (pathlib.Path(os.fsdecode(named)) / "commit-graph").write_bytes(b"CGPH")
        self.refused(Code.FILE_TOO_SHORT, lambda: commitgraph.open(os.fsdecode(named)))
        misnamed = os.fsdecode(named + b"/graph-" + b"0" * 40 + b".graph")
        pathlib.Path(misnamed).write_bytes(lowest)
        self.refused(Code.CHECK_FILE_NAME, lambda: commitgraph.open(misnamed))

    def test_neither(self) -> None:
        """Neither refusal of an info folder hides the other; one of what is missing does not count."""
        file, chain = self.info / "commit-graph", self.info / "commit-graphs/commit-graph-chain"
        chain.parent.mkdir()
        file.write_bytes(b"CGPH")
        self.refused(Code.FILE_TOO_SHORT, lambda: commitgraph.open(self.info), path=str(file))
        chain.write_bytes(b"")
        with self.assertRaises(NeitherError) as raised:
            commitgraph.open(self.info)
        told = raised.exception
        self.assertEqual((told.code, told.path), (Code.GRAPH_NO_FILES, str(chain)))
        parts = (f"{file}: the file has fewer than 1100 bytes: often it is truncated", f"{chain}: the chain file names no layer")
        self.assertEqual(str(told), f"neither the file nor the chain was opened: {'; '.join(parts)}; what to do: {told.advice}")
        again = pickle.loads(pickle.dumps(told))
        self.assertEqual((str(again), str(again.file), again.chain.path), (str(told), str(told.file), str(chain)))
        for part, said in zip((told.file, told.chain), parts):
            self.assertTrue(str(part).startswith(said + "; what to do: remove "), str(part))
        chain.unlink()
        chain.symlink_to(chain)
        with self.assertRaisesRegex(NeitherError, f"; cannot read {chain}: Too many levels of symbolic links; ") as raised:
            commitgraph.open(self.info)
        self.assertEqual((raised.exception.code, raised.exception.path), (Code.FILE_TOO_SHORT, str(file)))
        file.unlink()
        file.symlink_to(file)
        with self.assertRaisesRegex(OSError, f"cannot read {file}: .*; cannot read {chain}: .*; what to do: ") as unread:
            commitgraph.open(self.info)
        self.assertEqual((unread.exception.errno, unread.exception.filename), (errno.ELOOP, str(chain)))
        file.unlink()
        chain.unlink()
        chain.write_bytes(b"")
        self.refused(Code.GRAPH_NO_FILES, lambda: commitgraph.open(self.info), path=str(chain))

    def test_limits(self) -> None:
        """Within as many commits as there are all is answered; within none, and after a flag was raised, it is stopped."""
        self.git("commit-graph", "write", "--reachable")
        flag, raised = Flag(), Flag()
        raised.raise_()
        with commitgraph.open(self.info, visits=8, flag=flag) as graph:
            root, tip = graph.lookup(self.ids[0]), graph.lookup(self.ids[-1])
            assert root is not None and tip is not None
            for wide in ({"visits": 8}, {"flag": flag}, {"visits": 24, "flag": flag}):
                self.assertTrue(graph.is_ancestor(root, tip, **wide))
                self.assertEqual(graph.compare(tip, [root], **wide), graph.compare(tip, [root]))
            for narrow in ({"visits": 0}, {"visits": -1}, {"flag": raised}):
                self.refused(Code.STOPPED, lambda: graph.is_ancestor(root, tip, **narrow))
                self.refused(Code.STOPPED, lambda: graph.compare(tip, [root], **narrow))
                self.refused(Code.STOPPED, lambda: commitgraph.open(self.info, **narrow))
        self.refused(Code.STOPPED, lambda: commitgraph.open(self.info, visits=6), position=6)

    def test_copies(self) -> None:
        """A graph and a flag are neither copied nor pickled, and go on as before."""
        self.git("commit-graph", "write", "--reachable")
        flag = Flag()
        with commitgraph.open(self.info) as graph:
            first = graph.id(0)
            for one in (graph, flag):
                for made in (copy.copy, copy.deepcopy, pickle.dumps):
                    with self.assertRaisesRegex(TypeError, "cannot be copied or pickled; what to do: "):
                        made(one)
            self.assertEqual((graph.id(0), graph.is_ancestor(0, 0, flag=flag)), (first, True))

    def test_closing(self) -> None:
        """Threads that ask a graph while another one closes it have whole answers, until they learn that it is closed."""
        self.git("commit-graph", "write", "--reachable")
        data, wrong = (self.info / "commit-graph").read_bytes(), []
        for _ in range(40):
            graph, begun = Graph([(data, "")]), threading.Barrier(5)
            all_ids, others = graph.ids(range(len(graph))), list(range(1, len(graph)))
            whole = graph.compare(0, others)

            def ask() -> None:
                begun.wait()
                try:
                    while (graph.ids(range(len(all_ids))), graph.compare(0, others)) == (all_ids, whole):
                        pass
                    wrong.append("another answer")
                except Error as error:
                    if error.code != Code.CLOSED_GRAPH:
                        wrong.append(str(error))

            threads = [threading.Thread(target=ask) for _ in range(4)]
            for thread in threads:
                thread.start()
            begun.wait()
            graph.close()
            for thread in threads:
                thread.join()
        self.assertEqual(wrong, [])

    def test_faults(self) -> None:
        """The layer and the commit of which a check speaks are told, of a file by its bytes, and of a chain by its path."""
        self.says(lambda: commitgraph.open(self.info), "commit-graphs/commit-graph-chain")
        self.git("commit-graph", "write", "--reachable")
        bad, commit = self.misnumbered((self.info / "commit-graph").read_bytes())
        self.says(lambda: Graph([(bad, "a file")]), "a file: the generation number ", f"; the commit at position 0 is {commit}; ")
        (self.info / "commit-graph").unlink()
        for tip in (self.ids[4], self.ids[-1]):
            self.git("update-ref", "refs/heads/main", tip)
            self.git("commit-graph", "write", "--reachable", "--split=no-merge")
        chain = self.info / "commit-graphs"
        low, high = (chain / "commit-graph-chain").read_text().split()
        bad, commit = self.misnumbered((chain / f"graph-{high}.graph").read_bytes())
        renamed = chain / f"graph-{bad[-20:].hex()}.graph"
        renamed.write_bytes(bad)
        (chain / "commit-graph-chain").unlink()
        (chain / "commit-graph-chain").write_text(f"{low}\n{bad[-20:].hex()}\n")
        self.says(lambda: commitgraph.open(self.info), f"{renamed}: ", f" is {commit}; ")
        self.refused(Code.CHECK_GENERATION, lambda: commitgraph.open(self.info), layer=1, commit=bytes.fromhex(commit))
        (chain / "commit-graph-chain").write_text("")
        self.says(lambda: commitgraph.open(chain), f"{chain}/commit-graph-chain: the chain file names no layer")

    def test_without_the_library(self) -> None:
        """Where there is no library, or another one, what is said names it, and what to type."""
        shutil.copy(commitgraph.__file__, self.folder.name)
        at = {**os.environ, "PYTHONPATH": self.folder.name, "LD_LIBRARY_PATH": ""}
        for named, words in (
            ("", ["libcommitgraph.so.1: ", "what to do: run building/library in a clone", "building/install --library PREFIX"]),
            ("no/such/folder", ["no/such/folder/libcommitgraph.so: ", "unset COMMITGRAPH_LIB and run ", "name the folder PREFIX/lib"]),
        ):
            if not named and ctypes.util.find_library("commitgraph"):
                continue
            command = [sys.executable, "-B", "-c", "import commitgraph"]
            done = subprocess.run(command, env={**at, "COMMITGRAPH_LIB": named}, capture_output=True, text=True, cwd="/")
            for word in ("ImportError: ", *words):
                self.assertIn(word, done.stderr)
        installed = pathlib.Path(self.folder.name) / "libcommitgraph.so.1"
        installed.write_bytes(b"")
        done = subprocess.run(command, env={**at, "COMMITGRAPH_LIB": self.folder.name}, capture_output=True, text=True, cwd="/")
        self.assertIn(f"ImportError: {installed}: file too short", done.stderr)
        if shutil.which("cc"):
            older = f"unsigned cg_version(void) {{ return {commitgraph.VERSION}; }}"
            made = ["cc", "-shared", "-x", "c", "-", "-o", str(installed)]
            subprocess.run(made, input=older, text=True, check=True)
            done = subprocess.run(command, env={**at, "COMMITGRAPH_LIB": self.folder.name}, capture_output=True, text=True, cwd="/")
            self.assertIn(f"ImportError: {installed} is older than this module, and has no cg_open; what to do: ", done.stderr)

    def test_taken(self) -> None:
        """A call that takes a graph, a flag or bytes leaves none where it was, also where a check refuses the graph."""
        self.git("commit-graph", "write", "--reachable")
        data = (self.info / "commit-graph").read_bytes()
        for layer, code in ((data, Code.OK), (self.misnumbered(data)[0], Code.CHECK_GENERATION)):
            files, _kept = commitgraph._files([(layer, "")])
            opened, checked = commitgraph._Graph(None, False), commitgraph._Graph(None, False)
            self.assertEqual(commitgraph._library.cg_open(files, 1, opened).code, Code.OK)
            told = commitgraph._library.cg_check_within(
                opened, False, commitgraph._limit(None, None), commitgraph._Verdict(), (commitgraph.c_uint32 * 2)(), 0, checked
            )
            self.assertEqual((told, opened.address, opened.opened, checked.opened), (code, None, False, code == Code.OK))
            self.assertFalse(commitgraph._library.cg_close(opened))
            self.assertEqual(commitgraph._library.cg_close(checked), code == Code.OK)
            self.assertEqual((checked.address, checked.opened), (None, False))
        flag, file = commitgraph._Flag(None, False), commitgraph._Bytes(None, False)
        self.assertEqual(commitgraph._library.cg_flag_new(flag), Code.OK)
        self.assertEqual([commitgraph._library.cg_flag_free(flag) for _ in range(2)], [True, False])
        self.assertFalse(commitgraph._library.cg_bytes_free(file))
        self.assertEqual((flag.address, flag.kept, file.address, file.kept), (None, False, None, False))

    def test_sentences(self) -> None:
        """Each number has a sentence; and what to do speaks of what was opened, and not of a path."""
        for code in Code:
            self.assertNotIn("not known", str(Error(code)))
            self.assertNotIn(".git/objects/info/commit-graph", str(Error(code)))
        told = str(Error(Code.CHECK_FAN, path="a"))
        self.assertTrue(told.startswith("a: the fan (chunk `OIDF`) "), told)
        self.assertIn("; what to do: remove the files that were opened (of a chain, its whole folder), and then run `git ", told)
        self.assertEqual((Error(Code.STOPPED).advice, Error(Code.OUT_OF_MEMORY).advice), ("", "give the program more memory"))

    def test_refusals(self) -> None:
        self.git("commit-graph", "write", "--reachable")
        data = (self.info / "commit-graph").read_bytes()
        for layers, code in (
            ([], Code.GRAPH_NO_FILES),
            ([(b"", "a")], Code.FILE_TOO_SHORT),
            ([(data[:-1] + bytes([data[-1] ^ 1]), "")], Code.CHECK_CHECKSUM),
        ):
            with self.assertRaises(Error) as raised:
                Graph(layers)
            self.assertEqual(raised.exception.code, code)
        with self.assertRaisesRegex(Error, "^no layer is handed in; what to do: hand in at least one$"):
            Graph([])
        with self.assertRaises(FileNotFoundError) as missing:
            commitgraph.open("no/such/folder")
        self.assertIn("check the path; the path is: 'no/such/folder'", str(missing.exception))


if __name__ == "__main__":
    unittest.main()
