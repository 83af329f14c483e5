"""Checks `ask`, also with `--unchecked`: each question beside the command of its name, at once, over two pipes, over a terminal and
among noise, and graphs that take the place of one another, also while Git writes them. And `git cgraph ask`, with the programs of
the manual that ask over two pipes.
"""

import itertools
import os
import pty
import random
import re
import select
import shutil
import socket
import subprocess
import sys
import termios
import threading
from functools import partial

import refusals
from checks.program import LINES, SECONDS
from checks.question_checks import FAILED_WRITE, check_failed_write
from checks.surroundings_checks import in_pieces
from expected import judge
from histories import shapes
from histories.repository import read_bytes, write_bytes
from wrappers.clone import run as run_words
from wrappers.tools import read

NO_QUESTIONS = ["", "nonsense", "is-ancestor", "find 00", "parents x", "walk  a", "find " + "0" * (1 << 20)]
"""Lines that ask nothing: the last has more than a megabyte."""

WRITES = 25
"""So many layers are written beside a program that opens the graph anew all the time."""


CHAIN = os.path.join("commit-graphs", "commit-graph-chain")
"""The chain file in an info folder."""

NOISE = 80
"""Among noise every so many lines there is a question."""

NO_FEED = [byte for byte in range(256) if byte != 10]
"""The bytes that end no line."""

STEPS = 400
"""So often a graph takes the place of another one."""

WAYS = (["ask"], ["ask", "--unchecked"])
"""How the program is asked: of a graph that is checked, and of one that is trusted."""

ANSWER = re.compile(
    r"(ok commits \d+|position \d+ generation \d+ time \d+|parents( [0-9a-f]{40,64})*|none|unknown 1|refused [a-z]+ \d.*)\n\n"
)
"""What may be told of one commit, or of a graph that is opened anew."""


class Asking:
    """A run of a command that answers questions; an answer that does not come in time is empty."""

    def __init__(self, command, **streams):
        streams = {"stdin": subprocess.PIPE, "stdout": subprocess.PIPE, "env": {}, **streams}
        self.run = subprocess.Popen(command, **streams)
        self.timer = threading.Timer(SECONDS, self.run.kill)
        self.timer.start()

    def __enter__(self):
        return self

    def __exit__(self, *reason):
        self.timer.cancel()
        self.run.kill()
        self.run.__exit__(*reason)

    def answer(self):
        """The lines up to an empty one."""
        lines = []
        while not lines or lines[-1] not in (b"\n", b""):
            lines.append(self.run.stdout.readline())
        return b"".join(lines).decode()

    def ask(self, question):
        """The answer to a question."""
        self.run.stdin.write(question.encode() + b"\n")
        self.run.stdin.flush()
        return self.answer()

    def end(self):
        """The status, after the input has ended."""
        self.run.stdin.close()
        return self.run.wait()


def check_kind(programs, results, new):
    """The checks of the program; a new repository comes from a function of its name."""
    histories = programs[1]
    repository = new("questions")
    history = shapes.tangled(30, seed=11)
    repository.add(history[:20])
    repository.write_graph("--split=no-merge")
    path, kind = repository.info_path(), repository.object_format
    asked = list(questions(repository))
    for way in WAYS:
        title = "%s, %s" % (kind, " ".join(way))
        answers = [answer_alone(programs, path, question, repository, way[1:]) for question in asked]
        check_way(histories, results, title, [*way, path], list(zip(asked, answers)))
        check_reload(programs, results, repository, history, way)
    for name, complaint in in_turn(histories, new("questions over graphs in turn")):
        results.check("%s, %s, graphs in turn" % (kind, name), complaint)
    results.check("%s, ask beside a writer" % kind, beside_writer(histories, new("questions beside a writer")))
    trusted = trusted_beside_writer(histories, new("questions beside a writer, trusted"))
    results.check("%s, ask --unchecked beside a writer" % kind, trusted)
    LINES.add(("ask", "refused question"))


def check_way(histories, results, title, words, rows):
    """The answers of the program for these words, over each kind of stream; a row is a line and its answer."""
    asked, answers = zip(*rows)
    command, opened = [histories.path, *words], "ok commits 20\n\n"
    for name, ends in (("", "\n"), (", the last line without its end", "")):
        said = histories.run(*words, input=("\n".join(asked) + ends).encode())
        results.check("%s, all at once%s" % (title, name), judge.exactly(0, opened + "".join(answers), "", said))
    results.check("%s, one after another" % title, over_pipes(command, rows, 20))
    results.check("%s, each answer is written by itself" % title, in_messages(command, asked[:-1], answers))
    results.check("%s, over a terminal" % title, over_terminal(command, rows[: -len(NO_QUESTIONS)]))
    results.check("%s, nothing" % title, judge.exactly(0, opened, "", histories.run(*words, input=b"")))
    refused = histories.run(*words[:-1], words[-1] + "/nowhere", input=b"reload\n")
    results.check("%s, no graph" % title, judge.exactly(1, "refused open 1\n", "", refused))
    check_streams(histories, results, title, words, [(line.encode(), answer) for line, answer in rows if len(line) < 1000])


def questions(repository):
    """Questions about the commits of a repository, and lines that ask nothing."""
    names = repository.git("rev-list", "--all").decode().split()
    unknown = "01" * (len(names[0]) // 2)
    for name in [*names[:6], names[-1], unknown]:
        yield "find " + name
        yield "parents " + name.upper()
    for first, second in itertools.product([*names[:4], names[-1], unknown], repeat=2):
        yield "is-ancestor %s %s" % (first, second)
        yield "walk %s %s" % (first, second)
        yield "merge-base %s %s %s" % (first, second, names[2])
    yield from NO_QUESTIONS


def answer_alone(programs, path, question, repository, options=()):
    """What has to be told for a question: what the command of its name writes, with these options where it is about the history, or
    Git's own word on parents."""
    if question in NO_QUESTIONS:
        return "refused question\n\n"
    word, *names = question.split(" ")
    if word == "parents":
        found = repository.git("rev-list", "--all", "--parents").decode().splitlines()
        parents = [line.split()[1:] for line in found if line.split()[0] == names[0].lower()]
        return "".join(" ".join(["parents", *some]) for some in parents or []) + ("\n\n" if parents else "unknown 1\n\n")
    if word == "find":
        return programs[0].run(word, path, *names, stdin=subprocess.DEVNULL).out.decode() + "\n"
    return programs[1].run(word, *options, path, *names, stdin=subprocess.DEVNULL).out.decode() + "\n"


def over_pipes(command, asked, commits, **streams):
    """A complaint where an answer is another one, or is not there before the next question is sent."""
    with Asking(command, **streams) as run:
        told = run.answer()
        if told != "ok commits %d\n\n" % commits:
            return "at first it tells %r" % told
        for question, answer in asked:
            told = run.ask(question)
            if told != answer:
                return "for %.60r it tells %r, and not %r" % (question, told, answer)
        status = run.end()
        return None if status == 0 else "the status is %s" % status


def in_messages(command, asked, answers):
    """A complaint where two answers come in one write. All questions are sent at once, and the output is a socket that keeps
    its writes apart. An answer may come in several.
    """
    ours, theirs = socket.socketpair(socket.AF_UNIX, socket.SOCK_SEQPACKET)
    with ours, Asking(command, stdout=theirs) as run:
        theirs.close()
        sender = threading.Thread(target=run.run.communicate, args=("".join(line + "\n" for line in asked).encode(),))
        sender.start()
        messages = list(iter(lambda: ours.recv(1 << 20), b""))
        sender.join()
    text, ends = "", []
    for message in messages:
        text += message.decode()
        ends.append(len(text))
    if text != "ok commits 20\n\n" + "".join(answers[: len(asked)]):
        return "it tells %.200r" % text
    wanted = list(itertools.accumulate(len(answer) for answer in ["ok commits 20\n\n", *answers[: len(asked)]]))
    joined = sorted(set(wanted) - set(ends))
    return "no write ends with the answer at byte %d" % joined[0] if joined else None


def check_streams(histories, results, title, words, rows):
    """Questions that come byte by byte, and among noise; input that cannot be read, and output that cannot be written."""
    opened, chance = "ok commits 20\n\n", random.Random(14)
    noise = [bytes(chance.choices(NO_FEED, k=chance.randrange(60))) for _ in range(NOISE * len(rows))]
    noisy = [rows[place // NOISE] if place % NOISE == 0 else (line, "refused question\n\n") for place, line in enumerate(noise)]
    for name, lines, size in (("byte by byte", rows, 1), ("among noise", noisy, 97)):
        text = opened + "".join(answer for _, answer in lines)
        said = in_pieces(partial(histories.run, *words), b"".join(line + b"\n" for line, _ in lines), size)
        results.check("%s, %s" % (title, name), judge.exactly(0, text, "", said))
    closed = histories.run(*words, preexec_fn=partial(os.close, 0))
    results.check("%s, input that is closed" % title, judge.exactly(1, opened + "refused read 2\n", "", closed))
    check_failed_write(results, title, partial(histories.run, *words, input=b""))
    with Asking([histories.path, *words], stderr=subprocess.PIPE) as run:
        run.answer()
        run.run.stdout.close()
        run.run.stdin.write(b"nonsense\n")
        run.run.stdin.flush()
        answer = run.run.wait(), run.run.stderr.read().decode()
    results.check("%s, nobody reads on" % title, None if answer == (2, FAILED_WRITE) else "it is %r" % (answer,))


def over_terminal(command, asked, **surroundings):
    """A complaint where an answer is another one on a terminal, at the end of whose input Ctrl-D is typed."""
    ours, theirs = pty.openpty()
    modes = termios.tcgetattr(theirs)
    modes[1] &= ~termios.OPOST
    modes[3] &= ~termios.ECHO
    termios.tcsetattr(theirs, termios.TCSANOW, modes)
    with Asking(command, stdin=theirs, stdout=theirs, start_new_session=True, **surroundings) as run:
        os.close(theirs)
        try:
            told = read_terminal(ours)
            for question, answer in asked:
                os.write(ours, question.encode() + b"\n")
                told = read_terminal(ours)
                if told != answer:
                    return "for %r it tells %r, and not %r" % (question, told, answer)
            os.write(ours, b"\x04")
            status = run.run.wait()
            return None if status == 0 else "the status is %s" % status
        finally:
            os.close(ours)


def read_terminal(terminal):
    """What a terminal shows up to an empty line."""
    text = b""
    while not text.endswith(b"\n\n") and select.select([terminal], [], [], SECONDS)[0]:
        text += os.read(terminal, 1 << 16)
    return text.decode()


def in_turn(histories, repository):
    """Of both ways a name and a complaint, or None, about graphs that take the place of one another."""
    path, ids = repository.info_path(), repository.add(shapes.tangled(30, seed=12))
    asked = ["%s %s" % (word, name) for name in ids for word in ("find", "parents")]
    right, wrong = right_and_wrong(repository, ids)
    alone = []
    for files in right + wrong:
        put_files(path, files)
        alone.append(histories.run("ask", path, input="\n".join(asked).encode()))
    if [answer.status for answer in alone] != [0] * len(right) + [1] * len(wrong):
        return [("ask", "new runs end with %r" % [answer.status for answer in alone])]
    steps = [0, *random.Random(13).choices(range(len(alone)), k=STEPS)]
    graphs = list(zip(right + wrong, alone))
    return [(" ".join(way), judged(histories, path, asked, [graphs[step] for step in steps])) for way, judged in JUDGED]


def checked_in_turn(histories, path, asked, graphs):
    """A complaint where an answer is not that of a new run; or where the new graph is refused, not that of the last one which was
    taken.
    """
    put_files(path, graphs[0][0])
    with Asking([histories.path, "ask", path]) as run:
        told = run.answer() + "".join(map(run.ask, asked))
        for place, (files, alone) in enumerate(graphs):
            put_files(path, files)
            line, before = alone.out.decode(), told.partition("\n\n")[2]
            told = run.ask("reload") + "".join(map(run.ask, asked))
            wanted = line + "\n" + before if alone.status else line
            if told != wanted:
                return "at step %d it tells %.200r, and not %.200r" % (place, told, wanted)
        status = run.end()
    return None if status == 0 else "the status is %s" % status


def trusted_in_turn(histories, path, asked, graphs):
    """A complaint where an answer of a right graph that was opened anew is not that of a new run, or something that is no answer is
    told: before it is opened anew, or of a wrong graph.
    """
    put_files(path, graphs[0][0])
    chance = random.Random(15)
    with Asking([histories.path, "ask", "--unchecked", path]) as run:
        told = [run.answer()]
        for place, (files, alone) in enumerate(graphs):
            put_files(path, files)
            told += map(run.ask, chance.sample(asked, 6))
            anew = [run.ask("reload"), *map(run.ask, asked)]
            if alone.status == 0 and "".join(anew) != alone.out.decode():
                return "at step %d it tells %.200r, and not %.200r" % (place, "".join(anew), alone.out.decode())
            odd = [answer for answer in told + anew if not ANSWER.fullmatch(answer)]
            if odd:
                return "at step %d it tells %.200r" % (place, odd[0])
            told = []
        status = run.end()
    return None if status == 0 else "the status is %s" % status


JUDGED = list(zip(WAYS, (checked_in_turn, trusted_in_turn)))
"""The ways, and how graphs in turn are judged."""


def right_and_wrong(repository, ids):
    """What may stand in the folder: chains with other layers, and files; and chains that are refused, of which a file has the
    bytes of another one, or is damaged or gone, or the lines are others.
    """

    def written(files, tips, flags=("--split=no-merge",)):
        put_files(repository.info_path(), files)
        repository.write_graph(*flags, tips=tips)
        return files_of(repository.info_path())

    lower, file = written({}, ids[:10]), written({}, ids, flags=())
    two, other = (written(lower, tips) for tips in (ids[10:15], ids[15:25]))
    three, others = written(two, ids[15:]), written(written({}, ids[3:5]), ids[:10])
    (base, upper), (other_base, _) = map(layers_of, (two, others))
    lines = [files[CHAIN].splitlines(True) for files in (two, others)]
    right = [two, lower, other, three, others, file, {**two, **file}, {**two, "commit-graph": file["commit-graph"][:-1]}]
    wrong = [
        {**two, upper: other[layers_of(other)[1]]},
        {**two, base: others[other_base]},
        {**two, upper: two[upper][:-1] + bytes([two[upper][-1] ^ 1])},
        {**three, layers_of(three)[2]: b""},
        {name: two[name] for name in (CHAIN, base)},
        {name: two[name] for name in (CHAIN, upper)},
        {**two, **others, CHAIN: lines[1][0] + lines[0][1]},
        {**two, CHAIN: lines[0][1]},
        {**two, CHAIN: b""},
        {},
    ]
    return right, wrong


def layers_of(files):
    """The names of the files of a chain's layers, the lowest first."""
    return [os.path.join("commit-graphs", "graph-%s.graph" % line) for line in files[CHAIN].decode().split()]


def files_of(folder):
    """The bytes of the files in a folder and below it, by their names there."""
    paths = [os.path.join(path, name) for path, _, names in os.walk(folder) for name in names]
    return {os.path.relpath(path, folder): read_bytes(path) for path in paths}


def put_files(folder, files):
    """Makes these the files in a folder and below it."""
    shutil.rmtree(folder)
    os.mkdir(folder)
    for name, content in files.items():
        path = os.path.join(folder, name)
        os.makedirs(os.path.dirname(path), exist_ok=True)
        write_bytes(path, content)


def beside_writer(histories, repository):
    """A complaint where a graph that is opened anew beside `git commit-graph write --split` is neither one that was written nor
    refused for a layer that is gone, or where a graph with fewer commits answers after one with more.
    """
    history = shapes.linear(10 * (WRITES + 1))
    ids = repository.add(history)
    repository.write_graph("--split", tips=[ids[9]])
    writer = LayerWriter(repository, [ids[at] for at in range(19, len(ids), 10)])
    with Asking([histories.path, "ask", repository.info_path()]) as run:
        run.answer()
        writer.start()
        commits, reloads = 10, 0
        while writer.is_alive() or reloads == 0:
            told, reloads = run.ask("reload"), reloads + 1
            now = re.fullmatch(r"ok commits (\d+)\n\n", told)
            if now and int(now[1]) >= commits and int(now[1]) % 10 == 0:
                commits = int(now[1])
            elif not re.fullmatch(r"refused open (2|3|5 layer \d+ file \d+)\n\n", told):
                return "after %d commits it tells %r" % (commits, told)
            if run.ask("is-ancestor %s %s" % (ids[0], ids[commits - 1])) != "yes\n\n":
                return "the graph of %d commits does not answer" % commits
            if commits < len(ids) and run.ask("parents " + ids[-1]) != "unknown 1\n\n":
                return "a graph of %d commits answers for that of %d" % (len(ids), commits)
        writer.join()
        told = run.ask("reload"), run.ask("parents " + ids[-1]), run.end()
        right = "ok commits %d\n\n" % len(ids), "parents %s\n\n" % ids[-2], 0
        return writer.failure or (None if told == right else "at the end it tells %r" % (told,))


def trusted_beside_writer(histories, repository):
    """A complaint where a trusted graph that is opened anew beside such a writer does not answer what is so of all its graphs. Its
    files may be gone, and then the answer is that or a refusal.
    """
    ids = repository.add(shapes.linear(10 * (WRITES + 1)))
    repository.write_graph("--split", tips=[ids[9]])
    writer = LayerWriter(repository, [ids[at] for at in range(19, len(ids), 10)])
    refused = r"refused open (2|3|5 layer \d+ file \d+)"
    wanted = [r"ok commits \d+0", "yes", "parents " + ids[0], "none"]
    with Asking([histories.path, "ask", "--unchecked", repository.info_path()]) as run:
        run.answer()
        writer.start()
        while True:
            is_last = not writer.is_alive()
            asked = ["reload", "is-ancestor %s %s" % (ids[0], ids[9]), "parents " + ids[1], "find " + "0" * len(ids[0])]
            for question, answer in zip(asked, wanted):
                told = run.ask(question)
                if not re.fullmatch(r"(%s|%s)\n\n" % (answer, refused), told):
                    return "for %r it tells %r" % (question, told)
            if is_last:
                break
        writer.join()
        told = run.ask("reload"), run.ask("parents " + ids[-1]), run.end()
        right = "ok commits %d\n\n" % len(ids), "parents %s\n\n" % ids[-2], 0
        return writer.failure or (None if told == right else "at the end it tells %r" % (told,))


class LayerWriter(threading.Thread):
    """Writes a layer for each of some tips. The layers of before are removed where they are merged."""

    def __init__(self, repository, tips):
        super().__init__()
        self.repository, self.tips, self.failure = repository, tips, None

    def run(self):
        """Writes them."""
        try:
            for at, tip in enumerate(self.tips):
                flag = "--split=no-merge" if at % 5 else "--split"
                self.repository.write_graph(flag, "--expire-time=now", tips=[tip])
        except RuntimeError as failure:
            self.failure = failure


def check_reload(programs, results, repository, history, way):
    """The graph gets a layer, which is then damaged, where nobody sees it who trusts it, mended, and taken away; after each, the path
    is opened anew. At the end the graph is the one of before.
    """
    path, title = repository.info_path(), "%s, %s" % (repository.object_format, " ".join(way))
    files = files_of(path)
    with Asking([programs[1].path, *way, path]) as run:
        ask = run.ask
        run.answer()
        tip = repository.add(history, 20)[-1]
        repository.write_graph("--split=no-merge")
        before = ask("find " + tip)
        told = [before, ask("reload"), ask("find " + tip)]
        right = ["none\n\n", "ok commits 30\n\n", answer_alone(programs, path, "find " + tip, repository)]
        results.check("%s, a layer more" % title, None if told == right else "it tells %r, and not %r" % (told, right))
        checksum, layer = repository.chain()[-1]
        top = os.path.join(repository.chain_path(), "graph-%s.graph" % checksum)
        os.chmod(top, 0o644)
        write_bytes(top, layer[:-1] + bytes([layer[-1] ^ 1]))
        refusal = programs[0].verify(path).out.decode() + "\n" if way == ["ask"] else right[1]
        told = [ask("reload"), ask("find " + tip)]
        right = [refusal, right[2]]
        results.check("%s, a damaged layer" % title, None if told == right else "it tells %r, and not %r" % (told, right))
        write_bytes(top, layer)
        told = ask("reload")
        results.check("%s, it is mended" % title, None if told == "ok commits 30\n\n" else "it tells %r" % told)
        before = ask("find " + tip)
        os.remove(top)
        told = [ask("reload"), ask("find " + tip)]
        results.check("%s, a layer that is gone" % title, None if told == ["refused open 2\n\n", before] else "it tells %r" % told)
    put_files(path, files)


def check_by_git(installed, results, repository, way):
    """`git cgraph ask`: the same answers, a chain that takes the place of the file, refusals, and the programs of the manual."""
    history = shapes.diamonds(4)
    ids = repository.add(history)
    repository.git("update-ref", "refs/heads/topic", ids[2])
    repository.git("symbolic-ref", "HEAD", "refs/heads/tip-%d" % (len(ids) - 1))
    for words in WAYS:
        check_command(installed, results, repository, ids, ["git", "cgraph", *words])
    repository.write_graph()
    check_refused_by_git(installed, results, repository, way)
    check_scripts(installed, results, repository, ids, way)


def check_command(installed, results, repository, ids, command):
    """The answers of the command of some words, and a chain that takes the place of the file."""
    repository.write_graph(tips=[ids[6]])
    surroundings = {"env": installed.variables, "cwd": repository.folder}
    asked = [
        ("is-ancestor %s %s" % (ids[0], ids[6]), "yes\n\n"),
        ("parents %s" % ids[0], "parents\n\n"),
        ("nonsense", "refused question\n\n"),
        ("parents %s" % ids[-1], "unknown 1\n\n"),
    ]
    title, commits = " ".join(command), len(repository.git("rev-list", ids[6]).split())
    results.check("%s, over two pipes" % title, over_pipes(command, asked, commits, **surroundings))
    results.check("%s, over a terminal" % title, over_terminal(command, asked, **surroundings))
    with Asking(command, **surroundings) as run:
        run.answer()
        repository.write_graph("--split")
        told = run.ask("reload"), run.ask("is-ancestor %s %s" % (ids[0], ids[-1])), run.end()
        right = "ok commits %d\n\n" % len(ids), "yes\n\n", 0
        results.check("%s, a chain in the place of a file" % title, None if told == right else "it tells %r" % (told,))
    shutil.rmtree(repository.chain_path())


def check_refused_by_git(installed, results, repository, way):
    """A commit-graph that is refused or not there, questions that cannot be read, and options that are not for `ask`."""
    content, rows = read_bytes(repository.graph_path()), refusals.read_rows()
    folder = os.open(repository.folder, os.O_RDONLY)
    answer = run_words(["git", "cgraph", "ask"], installed.variables, cwd=repository.folder, stdin=folder)
    os.close(folder)
    unread = "the questions could not be read to their end"
    commits = len(repository.git("rev-list", "--all").split())
    err = refusals.written("git cgraph", [unread, *refusals.sentences(rows, unread, "ask")])
    right = (128, "ok commits %d\n\nrefused read 2\n" % commits, err)
    results.check("git cgraph ask, a folder as input", None if answer == right else "it is %r, expected %r" % (answer, right))
    for title, damaged, line in (
        ("a checksum", content[:-1] + bytes([content[-1] ^ 1]), "refused verify 4 layer 0 fault 1"),
        ("an empty file", b"", "refused open 5 layer 0 file 2"),
    ):
        write_bytes(repository.graph_path(), damaged)
        answers = [installed.ask(way, word, *words) for word, words in (("ask", []), ("is-ancestor", ["topic", "topic"]))]
        right = answers[0] == answers[1] and answers[0][0] == 128 and answers[0].out.startswith(line[:12])
        results.check("git cgraph ask, damaged: %s" % title, None if right else "it is %r" % (answers,))
    os.remove(repository.graph_path())
    answer = installed.ask(way, "ask")
    right = answer[:2] == (128, "refused open 2\n") and "there is no commit-graph" in answer.err
    results.check("git cgraph ask, no commit-graph", None if right else "it is %r" % (answer,))
    repository.write_graph()


def check_scripts(installed, results, repository, ids, way):
    """The programs of the manual that ask over two pipes, in bash and in Python."""
    section = re.search(r"## Questions over two pipes\n(.*?)\n## ", read("docs", "MANUAL.md"), re.DOTALL).group(1)
    scripts = [re.sub("(?m)^    ", "", block) for block in re.findall(r"((?:^    .*\n)+)", section, re.MULTILINE)]
    commits = "ok commits %d\n" % len(ids)
    bases = installed.ask(way, "merge-base", "-v", "topic", "HEAD").out
    branches = repository.git("for-each-ref", "--format=%(refname:short)", "refs/heads").decode().split()
    told = ["%s %s\n" % (name, "yes" if repository.reaches("HEAD", name) else "no") for name in branches]
    wanted = [commits + "yes\n" + bases, commits + "".join(told)]
    results.check("the manual has two programs that ask", None if len(scripts) == 2 else "they are %r" % scripts)
    variables = {**installed.variables, "PATH": installed.variables["PATH"] + ":" + os.environ["PATH"]}
    for words, script, out in zip((["bash", "-c"], [sys.executable, "-c"]), scripts, wanted):
        answer = run_words([*words, script], variables, cwd=repository.folder)
        results.check("the manual's program for %s" % os.path.basename(words[0]), None if answer == (0, out, "") else "it is %r" % (answer,))
