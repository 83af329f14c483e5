"""Repositories in which pasted.py tries commands: each is made by the real Git, asked in its own way, and stands beside others."""

import hashlib
import os
import shutil
import stat
import sys

from wrappers.clone import Clone, run

ODD = "-a 'b\" $(id)\n\\*;"
"""The name of a folder that a shell would read as other words."""

SPOTS = ("plain", "odd", "worktree", "bare", "fork")
PROGRAMS = os.path.join(os.path.dirname(os.path.abspath(__file__)), "programs.py")
COMMITS = 6
GRAPH, CHAINS = "commit-graph", "commit-graphs"
CHAIN = CHAINS + "/commit-graph-chain"


def quoted(path):
    """A path as one word of a shell."""
    return "'%s'" % path.replace("'", "'\\''")


def history():
    """A stream for `git fast-import` of some commits in a row."""
    lines = []
    for number in range(1, COMMITS + 1):
        lines += ["commit refs/heads/main", "committer A <a@example.com> %d +0000" % (1700000000 + number), "data 2", "m%d" % number]
        lines += ["M 100644 inline file%d" % (number % 2), "data 2", "f%d" % number]
    return "\n".join(lines + ["", ""]).encode()


class Spot:
    """A repository of some commits. `common` is its own folder, and `before` stands before the word `cgraph`."""

    def __init__(self, clone, root, kind):
        self.clone, self.root, self.kind = clone, root, kind
        self.before, self.variables, self.more = [], {}, {}
        self.filters = False
        self.put_programs()
        getattr(self, "make_" + kind)()
        self.common = os.path.realpath(self.common)
        self.info = os.path.join(self.common, "objects/info")
        os.makedirs(self.info, exist_ok=True)

    def put_programs(self):
        """Puts the programs there, and `mv` as it is."""
        link = os.path.join(self.clone.folder, "bin", "mv")
        if not os.path.islink(link):
            os.remove(link)
            os.symlink(shutil.which("mv"), link)
        for name in ("graphtool", "historytool"):
            self.clone.put_program(name, "exec '%s' '%s' %s \"$@\"\n" % (sys.executable, PROGRAMS, name), asks=True)

    def make(self, name, *words):
        """Makes a repository, and gives its folder."""
        folder = os.path.join(self.root, name)
        self.run("git", "init", "-q", *words, "--", folder)
        self.run("git", "-C", folder, "symbolic-ref", "HEAD", "refs/heads/main")
        self.run("git", "-C", folder, "fast-import", "--quiet", input=history())
        return folder

    def make_plain(self):
        """A repository, asked in its folder."""
        self.folder = self.cwd = self.make("plain")
        self.common = os.path.join(self.folder, ".git")

    def make_odd(self):
        """A repository of an odd name, asked with -C from the folder above it."""
        self.folder, self.cwd = self.make(ODD), self.root
        self.before, self.common = ["-C", ODD], os.path.join(self.folder, ".git")

    def make_worktree(self):
        """A worktree beside its repository, asked in its folder."""
        main = self.make("of worktrees")
        self.folder = self.cwd = os.path.join(self.root, "a worktree")
        self.run("git", "-C", main, "worktree", "add", "-q", "-b", "side", self.folder, "main")
        self.common = os.path.join(main, ".git")

    def make_bare(self):
        """A bare repository, asked with GIT_DIR from the folder above it."""
        self.folder, self.cwd = self.make("bare one.git", "--bare"), self.root
        self.common, self.variables = self.folder, {"GIT_DIR": "bare one.git"}

    def make_fork(self):
        """A fork of another repository, asked in its folder."""
        self.pool = self.make("a pool")
        self.folder = self.cwd = os.path.join(self.root, "its fork's")
        self.run("git", "clone", "-q", "-s", "-n", self.pool, self.folder)
        self.common, self.pool_info = os.path.join(self.folder, ".git"), os.path.join(self.pool, ".git/objects/info")

    def run(self, *words, **streams):
        """The answer of a command there, with `git cgraph` on the PATH."""
        path = self.clone.folder + ":" + os.path.join(self.clone.folder, "bin")
        person = {"GIT_%s_%s" % (who, what): "a@example.com" for who in ("AUTHOR", "COMMITTER") for what in ("NAME", "EMAIL")}
        variables = self.clone.surroundings(PATH=path, PWD=getattr(self, "cwd", self.root), **person)
        return run(words, {**variables, **streams.pop("variables", {})}, cwd=streams.pop("cwd", self.root), **streams)

    def git(self, *words, folder=None):
        """What a Git command writes in the repository, which has to succeed."""
        answer = self.run("git", *words, cwd=folder or self.folder)
        if answer.status:
            raise RuntimeError("git %s: %s" % (" ".join(words), answer.err))
        return answer.out.rstrip("\n")

    def ask(self, *words, **streams):
        """The answer of `git cgraph`."""
        return self.run("git", *self.before, "cgraph", *words, cwd=self.cwd, variables=self.variables, **streams)

    def paste(self, commands):
        """The answer of a shell in which commands are pasted."""
        return self.run("sh", cwd=self.cwd, input=(commands + "\n").encode("utf-8", "surrogateescape"))

    def path(self, name):
        """A path below the info folder."""
        return os.path.join(self.info, name)

    def write(self, *options, folder=None):
        """Lets Git write a commit-graph."""
        self.git("commit-graph", "write", "--reachable", *options, folder=folder)
        self.filters = "--changed-paths" in options

    def commit(self, parent="HEAD"):
        """Makes a commit to which nothing leads, and gives its id."""
        self.more["count"] = self.more.get("count", 0) + 1
        return self.git("commit-tree", "-m", "later %d" % self.more["count"], "-p", parent, parent + "^{tree}")

    def advance(self):
        """Makes a commit to which a branch leads."""
        self.git("update-ref", "refs/heads/later", self.commit())

    def layers(self, info=None):
        """The files of the layers of the chain."""
        folder = os.path.join(info or self.info, CHAINS)
        return sorted(os.path.join(folder, name) for name in os.listdir(folder) if name.endswith(".graph"))

    def loose(self, commit):
        """The file of an object."""
        return os.path.join(self.common, "objects", commit[:2], commit[2:])

    def words(self):
        """What stands for the names in the commands of a row."""
        git = here = "git"
        if self.kind == "odd":
            git, here = "git --git-dir=" + quoted(self.common), "git -C " + quoted(os.path.realpath(self.folder))
        elif self.kind == "bare":
            git = here = "git --git-dir=" + quoted(self.common)
        names = {"file": GRAPH, "chains": CHAINS, "lock": GRAPH + ".lock", "info": self.info, "temporary": self.clone.temporary}
        words = {name: quoted(path if os.path.isabs(path) else self.path(path)) for name, path in names.items()}
        return {"git": git, "here": here, **words, **self.more}

    def verdict(self):
        """A complaint where Git does not find the commit-graph right and whole, or filters are not there that were."""
        answer = self.run("git", "commit-graph", "verify", cwd=self.folder)
        if answer.status or answer.err:
            return "Git finds %r" % (answer,)
        if os.path.lexists(self.path(GRAPH)):
            files = [self.path(GRAPH)]
        elif os.path.exists(self.path(CHAIN)):
            files = self.layers()
        else:
            return "there is no commit-graph"
        content = [read(name) for name in files]
        wanted = self.git("rev-list", "--all" if self.more.get("heads") else "--glob=refs/*").split()
        lacking = [commit for commit in wanted if not any(bytes.fromhex(commit) in part for part in content)]
        if lacking and self.kind != "fork":
            return "it lacks %s" % lacking
        return "filters are gone" if self.filters and not all(b"BDAT" in part[:256] for part in content) else None


def read(path):
    """The bytes of a file."""
    with open(path, "rb") as file:
        return file.read()


def put(path, content):
    """Writes a file, in the place of one that may only be read."""
    os.makedirs(os.path.dirname(path), exist_ok=True)
    if os.path.exists(path):
        os.chmod(path, 0o644)
    with open(path, "wb") as file:
        file.write(content)


def damage(path):
    """Changes the last bit of a file."""
    content = read(path)
    put(path, content[:-1] + bytes([content[-1] ^ 1]))


def listing(folder, but=None):
    """What stands below a folder, one folder left out: each path with its kind, and what it has."""
    found = {}
    for at, folders, names in os.walk(folder):
        folders[:] = [name for name in folders if os.path.realpath(os.path.join(at, name)) != but or os.path.islink(os.path.join(at, name))]
        for name in folders + names:
            path = os.path.join(at, name)
            mode = os.lstat(path).st_mode
            has = os.readlink(path) if stat.S_ISLNK(mode) else hashlib.sha1(read(path)).hexdigest() if stat.S_ISREG(mode) else ""
            found[path] = stat.S_IFMT(mode), has
    return found


def clear(root):
    """Removes all below a folder, whatever rights it has."""
    for at, folders, _ in os.walk(root):
        for name in folders:
            if not os.path.islink(os.path.join(at, name)):
                os.chmod(os.path.join(at, name), 0o755)
    shutil.rmtree(root)
    os.mkdir(root)


def new_clone(folder):
    """A copy of the scripts with the tools that these checks need besides."""
    clone = Clone(folder)
    for tool in ("df", "ls"):
        os.symlink(shutil.which(tool), os.path.join(clone.folder, "bin", tool))
    return clone
