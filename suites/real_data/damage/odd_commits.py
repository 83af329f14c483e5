"""Commits that Git's own commands do not make, and the time that each of them has.

The older of two times is the one that Git 2.39.5 was seen to read and to store. The newer one follows the sources of Git from 2.41 on,
which was not run.
"""

from typing import NamedTuple, Tuple

AUTHOR = b"author A <a@x> 1 +0000\n"


class Odd(NamedTuple):
    """What follows the parents in a commit, and its times, the newer reading first."""

    name: str
    rest: bytes
    times: Tuple[int, ...]


def committed(name, line, *times, after=b"\n\nmessage\n"):
    """A commit whose committer's line is this one."""
    return Odd(name, AUTHOR + b"committer " + line + after, times)


LARGE = 17179869185
"""A time that no record holds."""

GREATEST = 2**64 - 1
"""The greatest time of Git, and what it takes for all numbers that are greater."""

FIVE_SHORT = 2**64 - 5
"""With a minus sign this is 5 to Git, and 5 is this."""

ODD = [
    committed("a plain time", b"C <c@x> 1234567890 +0000", 1234567890),
    committed("a time without a zone", b"C <c@x> 1234", 1234),
    committed("no space before the time", b"C <c@x>1234 +0000", 1234),
    committed("a tab before the time", b"C <c@x>\t1234 +0000", 1234),
    committed("zeros before the time", b"C <c> 00012 +0000", 12),
    committed("letters behind the time", b"C <c> 12foo", 12),
    committed("two ends of an address", b"C <c@x>> 77 +0000", 77, 0),
    committed("an address for a name", b"<A> <b@c> 5 +0000", 5, 0),
    committed("two addresses and times", b"C <a> 5 +0000 <b> 6 +0000", 6, 5),
    committed("no address", b"C c@x 99 +0000", 0),
    committed("a minus sign", b"C <c> -5 +0000", FIVE_SHORT),
    committed("a minus sign before a great number", b"C <c> -%d +0000" % FIVE_SHORT, 5),
    committed("a minus sign before 0", b"C <c> -0 +0000", 0),
    committed("a minus sign behind spaces", b"C <c>  \t \r-%d +0000" % FIVE_SHORT, 5),
    committed("a minus sign behind no space", b"C <c>-%d" % FIVE_SHORT, 5),
    committed("a minus sign behind the time", b"C <c> 5-3", 5),
    committed("a minus sign alone", b"C <c> - +0000", 0),
    committed("a minus sign that ends the line", b"C <c> -", 0, after=b"\n5\n"),
    committed("a minus sign in the next line", b"C <c>", 0, 5, after=b"\n-%d\n\nmessage\n" % FIVE_SHORT),
    committed("a space behind a minus sign", b"C <c> - 5 +0000", 0),
    committed("a space behind a minus sign, before a great number", b"C <c> - %d +0000" % FIVE_SHORT, 0),
    committed("two minus signs", b"C <c> --5 +0000", 0),
    committed("a plus sign behind a minus sign", b"C <c> -+%d +0000" % FIVE_SHORT, 0),
    committed("a plus sign", b"C <c> +5 +0000", 0, 5),
    committed("a space behind a plus sign", b"C <c> + 5 +0000", 0),
    committed("a minus sign behind a plus sign", b"C <c> +-%d +0000" % FIVE_SHORT, 0),
    committed("the greatest time", b"C <c> %d +0000" % GREATEST, GREATEST),
    committed("a greater number", b"C <c> %d +0000" % 2**64, GREATEST),
    committed("a number of 40 digits", b"C <c> " + 40 * b"7", GREATEST),
    committed("the greatest time with a minus sign", b"C <c> -%d +0000" % GREATEST, 1),
    committed("a greater number with a minus sign", b"C <c> -%d +0000" % 2**64, GREATEST),
    committed("a number of 40 digits with a minus sign", b"C <c> -" + 40 * b"7", GREATEST),
    committed("zeros behind a minus sign", b"C <c> -%060d +0000" % FIVE_SHORT, 5),
    committed("a vertical tab before the time", b"C <c> \v5 +0000", 0, 5),
    committed("a form feed before the time", b"C <c>\f5 +0000", 0, 5),
    committed("a vertical tab before a minus sign", b"C <c>\v-%d +0000" % FIVE_SHORT, 0, 5),
    committed("a carriage return before the time", b"C <c> \r5 +0000", 5),
    committed("no digit", b"C <c> x +0000", 0),
    committed("nothing behind the address", b"C <c>", 0),
    committed("a time past 34 bits", b"C <c> %d +0000" % LARGE, LARGE),
    committed("blanks, and a number in the message", b"C <c@x>   ", 0, 123, after=b"\n\n123 message\n"),
    committed("an address in the message", b"C c@x 99 +0000", 0, 7, after=b"\n\nm > 7 x\nmore\n"),
    committed("a line end that is the last byte", b"C <c@x> 55 +0000", 55, 0, after=b"\n"),
    committed("no line end", b"C <c@x> 56 +0000", 0, after=b""),
    Odd("no author", b"committer C <c@x> 57 +0000\n\nmessage\n", (0,)),
    Odd("a line between author and committer", AUTHOR + b"odd\ncommitter C <c@x> 58 +0000\n\nmessage\n", (0,)),
    committed("a message of 1 MB", b"C <c@x> 60 +0000", 60, after=b"\n\n" + b"0123456789abcde\n" * 65536),
    committed("no line end at its end", b"C <c@x> 61 +0000", 61, after=b"\n\nmessage"),
    committed("a signature", b"C <c@x> 62 +0000", 62, after=b"\ngpgsig -----BEGIN PGP SIGNATURE-----\n \n abc=\n -----END\n\nm\n"),
    committed("a tag with a line on a parent", b"C <c@x> 63 +0000", 63, after=b"\nmergetag object 00\n type commit\n parent 00\n\nm\n"),
    committed("a parent in the message", b"C <c@x> 64 +0000", 64, after=b"\n\nparent 00\n"),
    committed("another encoding", b"C\xff <c@x> 65 +0000", 65, after=b"\nencoding latin-1\n\nm\xe4\0\n"),
]


def unreadable(tree):
    """Bytes that are not those of a commit, with a name for each."""
    rest = AUTHOR + b"committer C <c@x> 1 +0000\n\nmessage\n"
    parent = b"0" * len(tree)
    return {
        "no byte": b"",
        "no tree": rest,
        "a tree without a line end": b"tree " + tree,
        "a tree of too few digits": b"tree " + tree[1:] + b"\n" + rest,
        "a tree of too many digits": b"tree " + tree + b"0\n" + rest,
        "a tree with a letter": b"tree " + tree[1:] + b"g\n" + rest,
        "nothing behind the tree": b"tree " + tree + b"\n",
        "nothing behind a parent": b"tree " + tree + b"\nparent " + parent + b"\n",
        "a parent of too few digits": b"tree " + tree + b"\nparent " + parent[1:] + b"\n" + rest,
        "a parent without digits": b"tree " + tree + b"\nparent \n" + rest,
        "a parent without a line end": b"tree " + tree + b"\nparent " + parent,
    }
