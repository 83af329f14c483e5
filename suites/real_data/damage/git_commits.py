"""Commits of all shapes, with what Git reads of each, and bytes that it refuses.

They follow the line of the empty tree. A parent is told by one digit, of which its id consists: `[1]` is the id, and `{1}` the line of
this parent. Git 2.39.5 made the ids of all of them by `git hash-object --literally`: they are the digests of the word `commit`, the
number of the bytes and the bytes. Trees and parents are those that its `git log --no-walk --format='%T %P'` printed.
"""

import re

from expected.objects import DIGITS

AUTHOR = b"author A <a@x> 1 +0000\n"
PEOPLE = AUTHOR + b"committer C <c@x> 5 +0000\n"
SIGNATURE = b"gpgsig -----BEGIN PGP SIGNATURE-----\n \n iQ==\n =x\n -----END PGP SIGNATURE-----\n"

READABLE = (
    # Lines of parents before the lines of people.
    ("a root", PEOPLE + b"\nm\n", "", 5),
    ("a parent", b"{1}" + PEOPLE + b"\nm\n", "1", 5),
    ("a parent twice", b"{1}{1}" + PEOPLE + b"\nm\n", "11", 5),
    ("no line feed at the end", b"{1}" + PEOPLE + b"\nm", "1", 5),
    ("a signature", b"{1}" + PEOPLE + SIGNATURE + b"\nm\n", "1", 5),
    ("digits of upper case", b"{A}{b}" + PEOPLE + b"\nm\n", "ab", 5),
    # Such lines elsewhere, and words that only begin like those of a parent.
    (
        "a tag that was merged, with a line on a parent in it, and one behind it",
        b"{1}{2}" + PEOPLE + b"mergetag object [2]\n type commit\n tag v1\n tagger T <t@x> 4 +0000\n \n {3}{3}\nm\n",
        *("12", 5),
    ),
    ("a parent behind the author", b"{1}" + AUTHOR + b"{2}committer C <c@x> 5 +0000\n\nm\n", "1", 0),
    ("a parent behind an empty line", b"{1}\n{2}", "1", 0),
    ("a second tree", b"tree [4]\n{1}" + PEOPLE + b"\nm\n", "", 0),
    ("a word that goes on", b"parentx\n" + PEOPLE + b"\nm\n", "", 0),
    ("a word without a space", b"parent\n" + PEOPLE + b"\nm\n", "", 0),
    ("one byte behind the parents", b"{1}x", "1", 0),
)
"""Names, bytes, the parents, and the time."""

UNREADABLE = (
    ("nothing behind the tree", b""),
    ("nothing behind a parent", b"{1}"),
    ("no line feed behind a parent", b"parent [1] " + PEOPLE + b"\nm\n"),
    ("a carriage return", b"parent [1]\r\n" + PEOPLE + b"\nm\n"),
    ("a digit too many", b"parent [1]1\n" + PEOPLE + b"\nm\n"),
    ("bytes that are no digits", b"{g}" + PEOPLE + b"\nm\n"),
    ("two spaces", b"parent  [1]\n" + PEOPLE + b"\nm\n"),
    ("digits too few, in the second line", b"{1}parent 1\n" + PEOPLE + SIGNATURE + b"\nm\n"),
)
"""What Git refuses by `bogus commit object` or `bad parents in commit`."""

TREELESS = (
    b"",
    b"tree ",
    b"tree [e]",
    b"Tree [e]\n" + AUTHOR,
    b"parent [e]\n" + AUTHOR,
    b"\ntree [e]\n" + AUTHOR,
)
"""Bytes that begin with no line of a tree."""

TIMES = (
    # Numbers behind an address.
    (AUTHOR + b"committer C <c@x> 1234567890 +0000\n\nm\n", 1234567890, 1234567890),
    (AUTHOR + b"committer C <c@x> 1234\n\nm\n", 1234, 1234),
    (AUTHOR + b"committer C <c@x>1234 +0000\n\nm\n", 1234, 1234),
    (AUTHOR + b"committer C <c@x>\t1234 +0000\n\nm\n", 1234, 1234),
    (AUTHOR + b"committer C <c> 00012 +0000\n\nm\n", 12, 12),
    (AUTHOR + b"committer C <c> 12foo\n\nm\n", 12, 12),
    # Brackets elsewhere, and lines that end early.
    (AUTHOR + b"committer C <c@x>> 77 +0000\n\nm\n", 77, 0),
    (AUTHOR + b"committer <A> <b@c> 5 +0000\n\nm\n", 5, 0),
    (AUTHOR + b"committer C <a> 5 +0000 <b> 6 +0000\n\nm\n", 6, 5),
    (AUTHOR + b"committer C c@x 99 +0000\n\nm\n", 0, 0),
    (AUTHOR + b"committer C <c@x>   \n\n123 message\n", 0, 123),
    (AUTHOR + b"committer C c@x 99 +0000\n\nm > 7 x\nmore\n", 0, 7),
    (AUTHOR + b"committer C <c@x> 55 +0000\n", 55, 0),
    (AUTHOR + b"committer C <c@x> 55 +0000", 0, 0),
    # What stands before a number, and the greatest one that a record holds.
    (AUTHOR + b"committer C <c@x>\n68 +0000\n\nm\n", 0, 68),
    (AUTHOR + b"committer C <c@x> +66 +0000\n\nm\n", 0, 66),
    (AUTHOR + b"committer C <c@x> ++66 +0000\n\nm\n", 0, 0),
    (AUTHOR + b"committer C <c@x> + 66 +0000\n\nm\n", 0, 0),
    (AUTHOR + b"committer C <c@x> \r67 +0000\n\nm\n", 67, 67),
    (AUTHOR + b"committer C <c@x> \x1c67 +0000\n\nm\n", 0, 0),
    (AUTHOR + b"committer C <c@x> 17179869183 +0000\n\nm\n", 17179869183, 17179869183),
    # Other words at the beginning of a line.
    (AUTHOR + b"committerC <c@x> 69 +0000\n\nm\n", 69, 69),
    (AUTHOR + b"Committer C <c@x> 70 +0000\n\nm\n", 0, 0),
    (AUTHOR + b"committer>72\nx", 72, 72),
    (AUTHOR + b"committer\n>71\nx", 0, 71),
    # Other lines before that of the committer, or none.
    (AUTHOR + b"encoding x\ncommitter C <c@x> 73 +0000\n\nm\n", 0, 0),
    (AUTHOR + b"committer C <c@x> 75 +0000\nencoding x > 76\n\nm\n", 75, 75),
    (b"committer C <c@x> 1 +0000\n\nm\n", 0, 0),
    (b"\ncommitter C <c@x> 1 +0000\n\nm\n", 0, 0),
    (b"author", 0, 0),
    (b"author\ncommitter > 8\nx", 8, 8),
    (b"authored > 9\ncommitter > 10\nx", 10, 10),
)
"""Bytes, the time as Git from 2.41 on reads it, and as Git before. The last is the time in the file that `git commit-graph write
--stdin-commits` of 2.39.5 wrote. The one before is meant for Git from 2.41 on, which was not run: libgit2 1.5.1 answers it too
(`git_commit_time`) where it reads the committer's line, but 234 for `<c@x>1234`, and 66 for `+66`."""

LARGE = (
    *(b"17179869185", b"18446744073709551616", b"100000000000000000000000"),
    *(b"-5", b"-17179869184", b"-18446744073709551616", b"-100000000000000000000000"),
)
"""Times that no record holds. Git 2.39.5 stores their low 34 bits: of a number with a minus sign those of 2^64 less it, so 2^34 - 5 of
the first such, and of all that 64 bits do not hold those of 2^64 - 1. It refuses these files."""

SMALL = b"{1}" + PEOPLE + b"\nm\n"
"""A commit with one parent."""


def spelled(kind, text):
    """Bytes with ids of this kind in them."""
    text = re.sub(rb"\{(.)\}", rb"parent [\1]\n", text)
    return re.sub(rb"\[([0-9a-gA-F])\]", lambda match: match[1] * DIGITS[kind], text)
