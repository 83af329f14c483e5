"""Checks building/package: an archive and a package for Debian, unpacked and taken away in folders of their own."""

import os
import shutil
import subprocess
import tarfile
import tempfile

import version
from wrappers.clone import PROGRAMS, Clone, exactly, run
from wrappers.installs import INSTALLED, OF_LIBRARY, below

TOOLS = ("gzip", "tar", "uname", "dpkg", "dpkg-deb")
LIST = "lib/git-cgraph/installed"
"""What building/install notes for its own use."""
PACKED = INSTALLED | OF_LIBRARY


def check_all(results):
    """The checks of both packages, made by a copy whose programs write their words."""
    with tempfile.TemporaryDirectory() as folder:
        clone = Clone(folder)
        for name in PROGRAMS:
            clone.put_program(name, "printf '<%s>' \"$@\"\n")
        clone.put_library()
        for tool in TOOLS:
            if shutil.which(tool):
                os.symlink(shutil.which(tool), os.path.join(clone.folder, "bin", tool))
        for words in ([], [""], ["--help"], ["a", "b"]):
            usage = "usage: building/package FOLDER\n"
            results.check("building/package %s" % " ".join(words), exactly(clone.run(["building/package", *words]), 2, "", usage))
        made = os.path.join(folder, "packages")
        answer = clone.run(["building/package", made])
        results.check("building/package", None if answer[:2] == (0, "") else "it is %r" % (answer,))
        check_archive(results, clone, made, os.path.join(folder, "unpacked"))
        if shutil.which("dpkg-deb") and os.geteuid() == 0:
            check_debian(results, clone, made, os.path.join(folder, "root"))
        else:
            print("left out, since there is no dpkg-deb or no right to install: the package for Debian")
        results.check("building/package, nothing is left over", clone.left_over())


def check_archive(results, clone, made, folder):
    """The archive has one folder with the files of an installation, in which the commands run."""
    name = "git-cgraph-%s-%s-linux" % (version.number(), os.uname().machine)
    with tarfile.open(os.path.join(made, name + ".tar.gz")) as archive:
        archive.extractall(folder)
    files = {path for path in below(folder) if not path.endswith("/")}
    right = files == {os.path.join(name, path) for path in PACKED - {LIST}}
    results.check("the archive has what is installed", None if right else "it has %s" % sorted(files))
    check_commands(results, clone, "the archive", os.path.join(folder, name))


def check_debian(results, clone, made, root):
    """The package for Debian is installed in a bare folder, where the commands run, and taken away again."""
    package = next(os.path.join(made, name) for name in os.listdir(made) if name.endswith(".deb"))
    told = subprocess.run(["dpkg-deb", "--field", package], stdout=subprocess.PIPE, check=True, text=True).stdout
    right = "\nVersion: %s\n" % version.number() in told and "\nSection: vcs\n" in told
    results.check("the package for Debian tells its version and section", None if right else told)
    for path in ("var/lib/dpkg/info", "var/lib/dpkg/updates"):
        os.makedirs(os.path.join(root, path))
    for path in ("status", "available"):
        version.write(os.path.join("var/lib/dpkg", path), "", root)
    dpkg = ["dpkg", "--root=" + root, "--log=/dev/null", "--force-depends", "--force-script-chrootless"]
    variables = {**clone.surroundings(), "PATH": os.environ["PATH"]}
    answer = run([*dpkg, "--install", package], variables)
    files = {path[len("usr/"):] for path in below(root) if path.startswith("usr/") and not path.endswith("/")}
    documents = "share/doc/git-cgraph/"
    pages = {path for path in PACKED if path.startswith("share/man/")}
    left = {documents + "LICENSE-MIT", documents + "LICENSE-APACHE", "share/zsh/site-functions/_git-cgraph", *pages, LIST}
    more = {documents + "copyright", "share/zsh/vendor-completions/_git-cgraph", *(page + ".gz" for page in pages)}
    right = answer.status == 0 and files == PACKED - left | more
    results.check("the package for Debian is installed", None if right else "it is %r with %s" % (answer, sorted(files)))
    check_commands(results, clone, "the package for Debian", os.path.join(root, "usr"))
    answer = run([*dpkg, "--purge", "git-cgraph"], variables)
    left = {path for path in below(root) if path.startswith("usr/")}
    results.check("the package for Debian is taken away", None if answer.status == 0 and not left else "it is %r, with %s" % (answer, left))


def check_commands(results, clone, title, prefix):
    """The commands run by themselves, without the clone that made them."""
    os.rename(clone.folder, clone.folder + " away")
    variables = {**clone.surroundings(), "PATH": os.environ["PATH"]}
    answer = run([os.path.join(prefix, "bin", "graphtool"), "verify", "."], variables)
    results.check(title + ", graphtool", exactly(answer, 0, "<verify><.>"))
    answer = run([os.path.join(prefix, "bin", "git-cgraph"), "--version"], variables)
    results.check(title + ", git-cgraph", exactly(answer, 0, "git-cgraph " + version.read("VERSION")))
    os.rename(clone.folder + " away", clone.folder)
