"""Checks building/install, the manual pages and the completion for bash."""

import os
import shutil
import subprocess
import tempfile

import version
from wrappers.clone import BUILT, PROGRAMS, TOP, Clone, exactly, run
from wrappers.questions import make_repository
from wrappers.table import commands, usage
from wrappers.tools import read, usage_of

ODD_PREFIX = "a prefix's \"$(name)\" *\n;"
USAGE = "usage: building/install [--library] PREFIX | --remove PREFIX\n"
INSTALLED = {
    *("bin/git-cgraph", "bin/graphtool", "bin/historytool"),
    *("share/man/man1/git-cgraph.1", "share/man/man1/graphtool.1", "share/man/man1/historytool.1"),
    *("share/zsh/site-functions/_git-cgraph", "share/fish/vendor_completions.d/git-cgraph.fish"),
    *("share/bash-completion/completions/git-cgraph", "lib/git-cgraph/installed", "lib/git-cgraph/VERSION"),
    *("lib/git-cgraph/git-cgraph", "lib/git-cgraph/graphtool", "lib/git-cgraph/historytool"),
    *("lib/git-cgraph/programs/graphtool", "lib/git-cgraph/programs/historytool"),
    *("lib/git-cgraph/tables/refusals.tsv", "lib/git-cgraph/shell/explain.awk"),
    *("lib/git-cgraph/shell/answers.sh", "lib/git-cgraph/shell/usage.sh", "lib/git-cgraph/tables/commands"),
    *("share/doc/git-cgraph/LICENSE-MIT", "share/doc/git-cgraph/LICENSE-APACHE", "share/doc/git-cgraph/DIFFERENCES.md"),
    "share/doc/git-cgraph/REFUSALS.md",
}
OF_LIBRARY = {
    *("include/commitgraph.h", "include/commitgraph_path.h", "lib/libcommitgraph.a", "lib/libcommitgraph.so", "lib/libcommitgraph.so.1"),
    *("lib/libcommitgraph.so." + version.number(), "lib/pkgconfig/commitgraph.pc", "share/man/man3/commitgraph.3"),
    *("lib/cmake/commitgraph/commitgraph-config.cmake", "lib/cmake/commitgraph/commitgraph-config-version.cmake"),
}
"""What is installed besides with `--library`."""
OF_ANOTHER = {"graphtool": ("--unchecked", "merge-base", "FROM TO"), "historytool": ("list reads",)}
"""What belongs on the page of the other program."""

COMPLETIONS = ("/usr/share/bash-completion/completions/git", "/etc/bash_completion.d/git", "/usr/share/git/completion/git-completion.bash")
"""Where Git's own completion mostly is."""

PROVES = """#!/bin/sh
top=${1%/building/*}
shift
echo "$@" >>"$top/runs"
for name; do
    mkdir -p "$top/crates/$name/out"
    case $name in commitgraph_c) made=lib$name.a ;; *) made=$name ;; esac
    echo made >"$top/crates/$name/out/$made"
done
"""
"""A `python3` in the place of building/proving.py: it notes the names of each run, and makes a file for each name."""
MAKES = "#!/bin/sh\nwhile [ $# -gt 1 ]; do case $1 in -o | rcD) echo made >\"$2\" ;; esac; shift; done\n"
"""A tool that makes what it is asked for."""

RT = "#!/bin/sh\n[ \"$1\" != doc ] || echo \"${0%/bin/rt}/kit/START-HERE.md\"\n"
"""An `rt` that says where the kit is."""

OF_KIT = "kit/toolchain/bin/"
"""Where the tools of that kit are."""

COMPLETE = """
. "$1"
. "$2"
shift 2
COMP_WORDS=("$@") COMP_CWORD=$(($# - 1)) COMP_LINE="$*" COMP_TYPE=9
COMP_POINT=${#COMP_LINE}
__git_wrap__git_main
printf '%s\\n' "${COMPREPLY[@]}"
"""
"""A script for bash: completes the words after Git's completion and ours."""


def check_all(results):
    """The checks of the installation, on copies whose programs write their words."""
    with tempfile.TemporaryDirectory() as folder:
        clone = Clone(folder)
        for name in PROGRAMS:
            clone.put_program(name, "printf '<%s>' \"$@\"\n")
        check_alone(results, clone, os.path.join(folder, "prefix"))
        clone.put_library()
        repository = make_repository(clone, os.path.join(folder, "repository").encode())
        check_words(results, clone)
        check_fresh(results, clone, os.path.join(folder, ODD_PREFIX))
        check_again(results, clone, os.path.join(folder, "prefix"))
        check_older(results, clone, os.path.join(folder, "prefix"))
        check_beside(results, clone, os.path.join(folder, "prefix"))
        check_pages(results, clone, os.path.join(folder, "prefix"))
        check_completion(results, clone, repository)
        check_away(results, clone, folder, repository)
        results.check("building/install, nothing is left over", clone.left_over())
    with tempfile.TemporaryDirectory() as folder:
        check_library(results, folder)
    for words in ([], ["--library"]):
        with tempfile.TemporaryDirectory() as folder:
            check_run(results, folder, words)


def install(clone, *words, **streams):
    """The answer of building/install."""
    return clone.run(["building/install", *words], **streams)


def below(prefix):
    """The files below a folder, as paths from it, and the folders, with a slash at the end."""
    found = set()
    for folder, folders, files in os.walk(prefix):
        found |= {os.path.relpath(os.path.join(folder, name), prefix) for name in files}
        found |= {os.path.relpath(os.path.join(folder, name), prefix) + "/" for name in folders}
    return found


def check_words(results, clone):
    """Other words than a prefix end with the usage text."""
    taken = ([], [""], ["a", "b"], ["--help"], ["--remove"], ["--remove", "a", "b"], ["--library"], ["--library", "a", "b"])
    for words in (*taken, ["--library", "--remove", "a"], ["--remove", "--library", "a"], ["a", "--library"]):
        results.check("building/install %s" % " ".join(words), exactly(install(clone, *words), 2, "", USAGE))
    answer = install(clone, "--remove", clone.folder)
    right = answer[:2] == (1, "") and "nothing was put below" in answer.err
    results.check("building/install --remove, where nothing was put", None if right else "it is %r" % (answer,))


def files_below(prefix):
    """The files below a folder, as paths from it."""
    return {path for path in below(prefix) if not path.endswith("/")}


def check_put(results, title, answer, prefix, files):
    """An installation put just these files."""
    complaint = None if answer.status == 0 and files_below(prefix) == files else "it is %r with %s" % (answer, sorted(files_below(prefix) ^ files))
    results.check("building/install, " + title, complaint)


def check_removed(results, title, clone, prefix):
    """What was put is taken away, with the prefix that was made for it."""
    answer = install(clone, "--remove", prefix)
    left = os.path.lexists(prefix) and below(prefix)
    complaint = exactly(answer, 0, "") or (None if left is False else "it left %s" % left)
    results.check("building/install --remove, " + title, complaint)


def check_alone(results, clone, prefix):
    """The programs are put where no library is built; with it, nothing is put, since it cannot be built."""
    answer = install(clone, "--library", prefix)
    right = answer[:2] == (1, "") and "rt" in answer.err and not os.path.lexists(prefix)
    results.check("building/install --library, with no library built and no rt", None if right else "it is %r" % (answer,))
    check_put(results, "with no library built and no rt", install(clone, prefix), prefix, INSTALLED)
    check_removed(results, "with no library built", clone, prefix)


def check_fresh(results, clone, prefix):
    """A prefix that is not there yet is made, and taken away again; the second time over what is there."""
    for words, files in (([], INSTALLED), (["--library"], INSTALLED | OF_LIBRARY)):
        for title in ("into a fresh prefix", "over what is there"):
            check_put(results, " ".join([*words, title]), install(clone, *words, prefix), prefix, files)
        check_removed(results, " ".join([*words, "of a prefix that it made"]), clone, prefix)


def check_again(results, clone, prefix):
    """A library that was put stays as it was where the programs alone are put again, and goes with them. A later one replaces it."""
    kept = os.path.join(prefix, "lib/libcommitgraph.a")
    install(clone, "--library", prefix)
    with open(kept, "w", encoding="ascii") as file:
        file.write("put before\n")
    for title in ("over one with the library", "over that once more"):
        answer = install(clone, prefix)
        check_put(results, title, answer, prefix, INSTALLED | OF_LIBRARY)
        right = version.read("lib/libcommitgraph.a", prefix) == "put before\n" and "the library for C stays" in answer.err
        results.check("building/install, %s: the library stays" % title, None if right else "it is %r" % (answer,))
    check_removed(results, "of a library that stayed", clone, prefix)
    install(clone, prefix)
    answer = install(clone, "--library", prefix)
    check_put(results, "--library over one without it", answer, prefix, INSTALLED | OF_LIBRARY)
    check_removed(results, "of a library that came later", clone, prefix)


def check_older(results, clone, prefix):
    """What an older version put, by its list, is taken away by another: of its library only where there is a new one."""
    older = {"lib/libcommitgraph.so.0.0.1", "lib/git-cgraph/shell/older.sh", "lib/git-cgraph/older/words"}
    for words, files in (([], INSTALLED | OF_LIBRARY | {"lib/libcommitgraph.so.0.0.1"}), (["--library"], INSTALLED | OF_LIBRARY)):
        install(clone, "--library", prefix)
        os.mkdir(os.path.join(prefix, "lib/git-cgraph/older"))
        noted = version.read("lib/git-cgraph/installed", prefix) + "folder lib/git-cgraph/older\n"
        for path in sorted(older):
            version.write(path, "", prefix)
            noted += "file %s\n" % path
        version.write("lib/git-cgraph/installed", noted, prefix)
        title = " ".join([*words, "over what an older version put"])
        check_put(results, title, install(clone, *words, prefix), prefix, files)
        left = os.path.lexists(os.path.join(prefix, "lib/git-cgraph/older"))
        results.check("building/install, %s: its folder" % title, "it is there" if left else None)
        check_removed(results, title, clone, prefix)


def check_beside(results, clone, prefix):
    """Files and folders of others stay as they are, and a file of theirs is not replaced."""
    for folder in ("bin", "lib", "share/man/man1", "empty"):
        os.makedirs(os.path.join(prefix, folder))
    for name in ("bin/other", "share/man/man1/other.1"):
        with open(os.path.join(prefix, name), "w", encoding="ascii") as file:
            file.write("other\n")
    before = below(prefix)
    answer = install(clone, "prefix/bin/other/prefix", cwd=os.path.dirname(prefix))
    right = answer[:2] == (1, "") and "install: '%s/bin/other' is not a folder" % prefix in answer.err and below(prefix) == before
    results.check("building/install, below a file", None if right else "it is %r" % (answer,))
    check_closed(results, clone, prefix)
    os.symlink("other", os.path.join(prefix, "bin", "graphtool"))
    answer = install(clone, "prefix", cwd=os.path.dirname(prefix))
    right = answer[:2] == (1, "") and "bin/graphtool is there" in answer.err and below(prefix) == before | {"bin/graphtool"}
    results.check("building/install, beside a file of the same name", None if right else "it is %r" % (answer,))
    os.remove(os.path.join(prefix, "bin", "graphtool"))
    answer = install(clone, "prefix", cwd=os.path.dirname(prefix))
    right = answer.status == 0 and INSTALLED < below(prefix) and not OF_LIBRARY & below(prefix)
    results.check("building/install, beside other files", None if right else "it is %r" % (answer,))
    check_header(results, clone, prefix)
    answer = install(clone, "--remove", prefix)
    complaint = exactly(answer, 0, "") or (None if below(prefix) == before else "there is %s" % sorted(below(prefix) ^ before))
    results.check("building/install --remove, beside other files", complaint)


def check_header(results, clone, prefix):
    """A header of others is not replaced, also where the programs are there."""
    before = below(prefix)
    os.mkdir(os.path.join(prefix, "include"))
    version.write("include/commitgraph.h", "other\n", prefix)
    answer = install(clone, "--library", prefix)
    added = below(prefix) - before
    right = answer[:2] == (1, "") and "include/commitgraph.h is there" in answer.err and added == {"include/", "include/commitgraph.h"}
    results.check("building/install --library, beside a header of others", None if right else "it is %r" % (answer,))
    shutil.rmtree(os.path.join(prefix, "include"))


def check_closed(results, clone, prefix):
    """A prefix that may not be written is refused before anything is proved. Whoever may write everywhere is not asked."""
    folder = os.path.join(prefix, "lib")
    os.chmod(folder, 0o555)
    if not os.access(folder, os.W_OK):
        answer = install(clone, prefix)
        right = answer[:2] == (1, "") and "install: the folder '%s' may not be written" % folder in answer.err
        results.check("building/install, where nothing may be written", None if right else "it is %r" % (answer,))
    os.chmod(folder, 0o755)


def check_pages(results, clone, prefix):
    """The manual pages are rendered without a warning, have all words, and are what Git and `man` show."""
    install(clone, prefix)
    pages = os.path.join(prefix, "share", "man", "man1")
    variables = {**clone.surroundings(), "PATH": os.path.join(prefix, "bin") + ":" + os.environ["PATH"], "MANWIDTH": "300"}
    for tool in ("man", "groff"):
        if not shutil.which(tool):
            print("left out, since there is no %s: the manual pages as it shows them" % tool)
            continue
        for name in ("git-cgraph", *PROGRAMS):
            page = os.path.join(pages, name + ".1")
            shown = {"man": [["man", "--warnings", "-l", page], ["man", name]], "groff": [["groff", "-ww", "-man", "-Tascii", "-P-c", page]]}[tool]
            for command in shown + [["git", "help", "cgraph"]] * (name == "git-cgraph" and tool == "man"):
                answer = run([shutil.which(command[0]), *command[1:]], variables)
                # Lines are filled up with spaces to the width of the page.
                shown_words = " ".join(answer.out.split())
                missing = [word for word in words_of_page(name) if word not in shown_words] if tool == "man" else []
                strange = [word for word in OF_ANOTHER.get(name, ()) if word in shown_words]
                right = answer.status == 0 and name.upper() + "(1)" in answer.out and not answer.err and not missing + strange
                results.check("the manual page of %s, by %s" % (name, " ".join(command[:2])), None if right else "it is %r" % (answer,))
    install(clone, "--remove", prefix)


def check_library(results, folder):
    """Where the proofs of changed sources fail, no library is made of what was proved before."""
    clone = Clone(folder)
    clone.put("bin/rt", RT)
    for tool in ("bin/ld", "bin/objcopy", "bin/ar", OF_KIT + "clang"):
        clone.put(tool, MAKES)
    proved = "crates/commitgraph_c/out/libcommitgraph_c.a"
    clone.put(proved, "")
    clone.put("bin/python3", "#!/bin/sh\necho 'no proof' >&2\nexit 1\n")
    answer = clone.run(["building/library"])
    right = answer.status == 0 and answer.out.endswith("/libcommitgraph.a\n")
    results.check("building/library, of what is proved", None if right else "it is %r" % (answer,))
    clone.put("crates/graph_walks/src/lib.rt", "")
    for name in (proved, "crates/commitgraph_c/out/libcommitgraph.a"):
        os.utime(os.path.join(clone.folder, name), (0, 0))
    answer = clone.run(["building/library"])
    right = answer.status == 1 and not answer.out and answer.err.endswith("no proof\n")
    results.check("building/library, where the proofs fail", None if right else "it is %r" % (answer,))


def check_run(results, folder, words):
    """Where nothing is built, one run proves all that is put; where it fails, nothing is put."""
    clone, prefix = Clone(folder), os.path.join(folder, "prefix")
    title = " ".join(["building/install", *words])
    wanted = [*PROGRAMS, *(["commitgraph_c"] if words else [])]
    clone.put("bin/rt", RT)
    if words:
        clone.put("bin/python3", PROVES)
        answer = install(clone, *words, prefix)
        right = answer[:2] == (1, "") and "the command ld has to be" in answer.err and not os.path.lexists(os.path.join(clone.folder, "runs"))
        results.check(title + ", with no ld, nothing is proved", None if right else "it is %r" % (answer,))
    for tool in ("bin/ld", "bin/objcopy", "bin/ar", OF_KIT + "clang"):
        clone.put(tool, MAKES)
    clone.put("bin/python3", "#!/bin/sh\necho 'no proof' >&2\nexit 1\n")
    answer = install(clone, *words, prefix)
    right = answer[:2] == (1, "") and answer.err.endswith("no proof\n") and not os.path.lexists(prefix)
    results.check(title + ", where the proofs fail", None if right else "it is %r" % (answer,))
    clone.put("bin/python3", PROVES)
    for number in ("first", "second"):
        answer = install(clone, *words, prefix)
        check_put(results, " ".join([*words, "the %s time in a clone" % number]), answer, prefix, INSTALLED | (OF_LIBRARY if words else set()))
    runs = version.read("runs", clone.folder)
    results.check(title + ", all is proved in one run", None if runs == " ".join(wanted) + "\n" else "the runs are %r" % runs)


def words_of_page(name):
    """What the page of a command has to have: each of its commands, of a program with its operands."""
    if name == "git-cgraph":
        return [command.word for command in commands() if command.by_git]
    return usage(name).replace("usage: %s " % name, "").split(" | ") + [command.about[1:] for command in commands(name)]


def check_completion(results, clone, repository):
    """The words and the revisions that Git's completion offers after `git cgraph`."""
    theirs = next(filter(os.path.exists, COMPLETIONS), None)
    if not theirs or not shutil.which("bash"):
        print("left out, since there is no completion of Git's for bash: that of git cgraph")
        return
    ours = os.path.join(clone.folder, "completion")
    with open(ours, "wb") as file:
        subprocess.run([os.path.join(TOP, BUILT[1]), "completion", "bash"], stdout=file, check=True)
    for words, offered in {
        ("ver",): {"verify"},
        ("",): {command.word for command in commands() if command.by_git},
        ("--h",): {"--help"},
        ("--q",): {"--quiet"},
        ("--js",): {"--json"},
        ("find", "anno"): {"annotated"},
        ("-C", "..", "walk", "HEAD", "HE"): {"HEAD"},
        ("merge-base", "--v"): {"--verbose", "--version"},
        ("-C", "su"): {"sub"},
        ("verify", ""): set(),
        ("verify", "--a"): {"--all-checks"},
        ("verify", "--ob"): {"--objects", "--object-dir"},
        ("merge-base", "--a"): {"--all"},
        ("is-ancestor", "--u"): {"--unchecked"},
        ("walk", "--u"): {"--unchecked"},
        ("walk", "--g"): {"--graph-only"},
        ("ask", "--g"): set(),
        ("merge-base", "--u"): {"--unchecked"},
        ("ask", "--u"): {"--unchecked"},
        ("find", "--u"): set(),
        ("ask", "--js"): set(),
        ("find", "-q", "anno"): {"annotated"},
        ("--object-dir", "su"): {"sub"},
    }.items():
        command = [shutil.which("bash"), "-c", COMPLETE, "bash", theirs, ours, "git", "cgraph", *words]
        folder = os.path.join(repository, b"sub") if "-C" in words and ".." in words else repository
        answer = run(command, {**clone.surroundings(), "PATH": os.environ["PATH"]}, cwd=folder)
        complaint = None if set(answer.out.split()) == offered and not answer.err else "it is %r" % (answer,)
        results.check("completion of git cgraph " + " ".join(words), complaint)


def check_away(results, clone, folder, repository):
    """What was installed works where the clone is not any more, by the path of the command and by Git."""
    prefix = os.path.join(folder, "moved")
    install(clone, os.path.join(folder, "before"))
    os.rename(os.path.join(folder, "before"), prefix)
    variables = clone.surroundings()
    variables["PATH"] = os.path.join(prefix, "bin") + ":" + variables["PATH"].replace(clone.folder, folder + "/away")
    os.rename(clone.folder, folder + "/away")
    asked = "<verify><info/commit-graph>"
    for command, *wanted in (
        (["git", "cgraph", "verify"], 0, asked),
        (["git-cgraph", "verify"], 0, asked),
        (["graphtool", "verify", "."], 0, "<verify><.>"),
        (["historytool", "walk", ".", "0", "1"], 0, "<walk><.><0><1>"),
        (["historytool", "bogus"], 2, "", usage_of("historytool")),
        (["graphtool", "--version"], 0, "graphtool " + read("VERSION")),
        (["git-cgraph", "--version"], 0, "git-cgraph " + read("VERSION")),
    ):
        path = shutil.which(command[0], path=variables["PATH"])
        answer = run([path, *command[1:]], variables, cwd=repository)
        results.check("installed, without the clone: " + " ".join(command), exactly(answer, *wanted))
    os.rename(folder + "/away", clone.folder)
    for name in PROGRAMS:
        os.remove(os.path.join(clone.folder, "crates", name, "out", name))
    answer = install(clone, prefix + " 2")
    right = answer.status == 1 and "rt" in answer.err and not os.path.lexists(prefix + " 2")
    results.check("building/install, with nothing built and no rt", None if right else "it is %r" % (answer,))
