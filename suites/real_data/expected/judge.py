"""What an answer of `graphtool list` may be.

Each judge takes the answer last, and says None where it is right, or else a complaint.
"""

import re

from expected.listing import first_difference

REFUSAL = re.compile(rb"refused file (5 chunk [1-7]|[1-46-9]|1[0-9])\n")
"""The line that refuses a file: the number of the condition, for the chunk table with its own."""

UNOPENED = re.compile(r"refused open 5 layer 0 file (5(?= chunk [1-7]\n)|[1-46-9]|1[0-9])(?:(?<= 5) chunk [1-7])?\n")
"""The line that refuses to open a graph for what is wrong with its lowest layer."""

CHECK_REFUSAL = re.compile(
    rb"refused (open 5 layer 0 file (5 chunk [1-7]|[1-46-9]|1[0-9])"
    rb"|verify (2 layer 0|4 layer 0 fault ([12]|3 byte \d+)|5 position \d+ fault [1-3]"
    rb"|6 position \d+ error [1-4]|7 position \d+ parent \d+|8 position \d+ expected \d+))\n"
)
"""The line by which `verify` refuses a single file."""

COUNTS = re.compile(rb"ok commits \d+ longest (\d+|none)\n(parents \d+ commits \d+\n)*")
"""The lines that tell what is in a right graph."""

HEAD = re.compile(rb"layer (?:(sha1)|sha256) bases (\d+) commits (\d+)")
PARENTS = rb"(?:-|!1|!2|\d+(?:,\d+)*(?:,!3|,!4)?)"


def line_forms(digits):
    """The forms of a base's and of a commit's line, with ids of so many digits."""
    base = re.compile(rb"base [0-9a-f]{%d}" % digits)
    commit = re.compile(rb"\d+ [0-9a-f]{%d} [0-9a-f]{%d} \d+ \d+ %s" % (digits, digits, PARENTS))
    return base, commit


FORMS_OF_SHA1, FORMS_OF_SHA256 = line_forms(40), line_forms(64)


def exactly(status, out, err, answer):
    """The answer is this status and these texts."""
    if answer.status != status:
        return "status %s and %r, expected %d" % (answer.status, answer.out[:60], status)
    return first_difference(answer.out.decode(), out) or first_difference(answer.err.decode(), err)


def same(listing, answer):
    """The answer is this very listing."""
    return exactly(0, listing, "", answer)


def verdict(text, answer):
    """The answer is this text, with the status 0 where the text says that a graph is right, else 1."""
    return exactly(0 if text.startswith("ok ") else 1, text, "", answer)


def refused_by(conditions, answer):
    """The answer is the refusal by one of these conditions."""
    lines = ["refused file %s\n" % condition for condition in conditions]
    if answer.status == 1 and answer.out.decode() in lines and not answer.err:
        return None
    return "status %s and %r, expected 1 and one of %r" % (answer.status, answer.out[:60], lines)


def refused_in_checks(conditions, line, answer):
    """The answer is the refusal of a lowest layer by one of these conditions of opening, or this line."""
    out = answer.out.decode()
    match = UNOPENED.fullmatch(out)
    if answer.status == 1 and not answer.err and (out == line or match and int(match.group(1)) in conditions):
        return None
    return "status %s and %r, expected 1 and %r" % (answer.status, answer.out[:60], line)


def refused_or_same(conditions, listing, answer):
    """The answer is the refusal by one of these conditions, or this very listing."""
    return same(listing, answer) if answer.status == 0 else refused_by(conditions, answer)


def differs_in_one_line(listing, answer):
    """The answer is a listing that differs from this one in at most one line."""
    if answer.status != 0:
        return "status %s and %r, expected a listing" % (answer.status, answer.out[:60])
    lines, expected = answer.out.decode().split("\n"), listing.split("\n")
    if len(lines) != len(expected):
        return "%d lines, expected %d" % (len(lines) - 1, len(expected) - 1)
    changed = sum(line != other for line, other in zip(lines, expected))
    return "%d lines differ" % changed if changed > 1 else in_form(answer)


def in_form_of_check(commits, answer):
    """The answer of `verify` to a file is one refusal, or all that is counted in a graph of so many commits."""
    if answer.err or not (CHECK_REFUSAL if answer.status == 1 else COUNTS).fullmatch(answer.out):
        return "status %s and %r" % (answer.status, answer.out[:60])
    numbers = [int(number) for number in re.findall(rb"commits (\d+)", answer.out)]
    whole = answer.status == 1 or answer.status == 0 and numbers[0] == sum(numbers[1:]) == commits
    return None if whole else "status %s and the counts %s" % (answer.status, numbers)


def in_form(answer):
    """The answer is a whole listing or one refusal, and nothing else."""
    if answer.err:
        return "%r on standard error" % answer.err[:60]
    if answer.status == 0:
        return in_form_of_listing(answer.out)
    if answer.status == 1 and REFUSAL.fullmatch(answer.out):
        return None
    return "status %s and %r" % (answer.status, answer.out[:60])


def in_form_of_listing(text):
    """The text has all lines of a listing, each in its form."""
    head, *lines = text.split(b"\n")
    match = HEAD.fullmatch(head)
    if not match:
        return "first line %r" % head
    bases, commits = int(match.group(2)), int(match.group(3))
    if len(lines) != bases + commits + 1 or lines[-1]:
        return "%d further lines after %r" % (len(lines) - 1, head)
    base, commit = FORMS_OF_SHA1 if match.group(1) else FORMS_OF_SHA256
    forms = [base] * bases + [commit] * commits
    odd = [line for form, line in zip(forms, lines) if not form.fullmatch(line)]
    return "line %r" % odd[0] if odd else None
