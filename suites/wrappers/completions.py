"""Checks the completion of `git cgraph` for zsh and fish, as it is installed, by the shells themselves."""

import os
import pty
import select
import shutil
import tempfile
import time

from wrappers.clone import PROGRAMS, Clone, run
from wrappers.questions import make_repository
from wrappers.table import commands

ASKED = {
    "git cgraph ": {command.word for command in commands() if command.by_git},
    "git cgraph ver": {"verify"},
    "git-cgraph is": {"is-ancestor"},
    "git cgraph find anno": {"annotated"},
    "git cgraph find HE": {"HEAD"},
    "git cgraph -q walk HEAD HE": {"HEAD"},
    "git cgraph --q": {"--quiet"},
    "git cgraph --js": {"--json"},
    "git cgraph verify --js": {"--json"},
    "git cgraph verify --all": {"--all-checks"},
    "git cgraph verify --ob": {"--objects", "--object-dir"},
    "git cgraph verify -q --jo": {"--jobs"},
    "git cgraph verify --pa": {"--paths"},
    "git cgraph find --objects": set(),
    "git cgraph merge-base --verb": {"--verbose"},
    "git cgraph is-ancestor --unch": {"--unchecked"},
    "git cgraph walk --unch": {"--unchecked"},
    "git cgraph walk --gr": {"--graph-only"},
    "git cgraph find --gr": set(),
    "git cgraph merge-base --unch": {"--unchecked"},
    "git cgraph ask --unch": {"--unchecked"},
    "git cgraph find --unch": set(),
    "git cgraph ask --js": set(),
    "git cgraph w": {"walk", "write"},
    "git cgraph write --sp": {"--split"},
    "git cgraph write --k": {"--keep-filters"},
    "git cgraph verify --sp": set(),
    "git cgraph verify --if": {"--if-exists"},
    "git cgraph list --if": {"--if-exists"},
    "git cgraph find --if": set(),
    "git cgraph -C su": {"sub"},
    "git cgraph verify --object-dir su": {"sub"},
}
"""Beginnings of command lines, and the words that may follow in the place of the last one."""

ZSH = """
PROMPT= RPROMPT=
fpath=({functions} $fpath)
autoload -Uz compinit && compinit -u -D
compadd() {{
  [[ ${{@[1,(i)(-|--)]}} == *-[OAD]\\ * ]] || {{ local -a hits; builtin compadd -A hits "$@"; print -rl -- $hits >>$OUT }}
  builtin compadd "$@"
}}
capture() {{ _main_complete; compstate[insert]= compstate[list]=; print -r -- 'the end' >>$OUT }}
zle -C capture list-choices capture
bindkey '^T' capture
bindkey '^U' kill-whole-line
print ready >>$OUT
"""
"""Settings of zsh by which the key Ctrl-T writes into a file what might follow."""

SECONDS = 30


def check_all(results):
    """The checks of both, with what building/install puts into a prefix."""
    with tempfile.TemporaryDirectory() as folder:
        clone = Clone(folder)
        for name in PROGRAMS:
            clone.put_program(name, "exit 1\n")
        clone.put_library()
        repository = os.fsdecode(make_repository(clone, os.path.join(folder, "repository").encode()))
        prefix = os.path.join(folder, "prefix")
        answer = clone.run(["building/install", prefix])
        results.check("building/install, for completion", None if answer.status == 0 else "it is %r" % (answer,))
        variables = clone.surroundings(PATH=os.path.join(prefix, "bin") + ":" + os.environ["PATH"])
        for shell, check in (("zsh", check_zsh), ("fish", check_fish)):
            if shutil.which(shell):
                check(results, repository, os.path.join(prefix, "share"), variables)
            else:
                print("left out, since there is no %s: its completion of git cgraph" % shell)


def check_fish(results, repository, share, variables):
    """What fish offers, which says the words with their meaning after a tab.

    It is asked about the command `git-cgraph`: fish 3.6.0 itself misses all commands of this kind after `git`.
    """
    paths = {"XDG_DATA_DIRS": share + ":/usr/local/share:/usr/share", "XDG_CONFIG_HOME": os.path.dirname(share)}
    for line, offered in ASKED.items():
        command = "complete -C '%s'" % line.replace("git cgraph", "git-cgraph")
        answer = run([shutil.which("fish"), "-c", command], {**variables, **paths}, cwd=repository)
        words = {word.split("\t")[0].rstrip("/=") for word in answer.out.splitlines()}
        complaint = None if words == offered and not answer.err else "it is %r" % (answer,)
        results.check("completion in fish of %r" % line, complaint)


def check_zsh(results, repository, share, variables):
    """What zsh offers, at a terminal."""
    out = os.path.join(os.path.dirname(repository), "out")
    settings = os.path.join(os.path.dirname(repository), "settings")
    with open(settings, "w", encoding="utf-8") as file:
        file.write(ZSH.format(functions=os.path.join(share, "zsh/site-functions")))
    child, terminal = pty.fork()
    if child == 0:
        os.chdir(repository)
        os.execve(shutil.which("zsh"), ["zsh", "-f", "-i"], {**variables, "OUT": out, "TERM": "dumb"})
    typed(terminal, "source '%s'\n" % settings)
    results.check("zsh starts", "it does not" if read_until(terminal, out, "ready") is None else None)
    for line, offered in ASKED.items():
        with open(out, "wb"):
            pass
        typed(terminal, "\x15%s\x14" % line)
        words = read_until(terminal, out, "the end")
        right = words is not None and {word.rstrip("/=") for word in words} == offered
        results.check("completion in zsh of %r" % line, None if right else "it is %s" % (words,))
    typed(terminal, "\x15exit\n")
    os.close(terminal)
    os.waitpid(child, 0)


def typed(terminal, text):
    """Types a text."""
    os.write(terminal, text.encode())


def read_until(terminal, out, last):
    """The lines of a file before this one, or None where it does not come in time. What the terminal shows is passed over."""
    end = time.monotonic() + SECONDS
    while time.monotonic() < end:
        if select.select([terminal], [], [], 0.02)[0]:
            os.read(terminal, 65536)
        if os.path.exists(out):
            with open(out, encoding="utf-8") as file:
                lines = file.read().splitlines()
            if last in lines:
                return [line for line in lines[: lines.index(last)] if line]
    return None
