"""Checks each byte of three small files, changed to other values, against the slow reading."""

from checks import many
from damage import built

FILES = {"the diamond": built.diamond, "extra edges": built.octopus, "a base, sha256": built.root_on_a_base}
SOME_MASKS = (0x01, 0x80)
"""The bits that are changed where not all 255 other values are tried."""

PART = 60
"""Bytes that one process changes before it takes the next."""


def check_all(program, results, every_value=False):
    """A check for each file: changed, and changed and sealed again. `list` is run on the first, which shows
    all that is read of a layer, and `verify` on the second, since it refuses a wrong checksum before all else."""
    masks = tuple(range(1, 256)) if every_value else SOME_MASKS
    for name, make in FILES.items():
        content = make()
        starts = range(0, len(content), PART)
        for command, title in (("list", "changed"), ("verify", "changed and sealed")):
            parts = [(program.path, content, command, masks, start) for start in starts]
            answers = many.in_processes(try_part, parts)
            wrong = [odd for _, odd in answers if odd]
            complaint = "%d parts, first %s of %s" % (len(wrong), wrong[0].complaint, wrong[0].content.hex()) if wrong else None
            runs = sum(count for count, _ in answers)
            results.check("each byte of a file, %s, %s, %s (%d runs)" % (name, title, command, runs), complaint)


def try_part(program, content, command, masks, start):
    """Tries some bytes of a file, from one on."""
    return many.first_odd(program, changed(content, command, masks, range(start, min(start + PART, len(content)))))


def changed(content, command, masks, places):
    """The file with each of some bytes changed, sealed again for `verify`."""
    seal = many.sealed if command == "verify" else bytes
    for at in places:
        for mask in masks:
            edited = content[:at] + bytes([content[at] ^ mask]) + content[at + 1 :]
            yield seal(edited), (command,)
