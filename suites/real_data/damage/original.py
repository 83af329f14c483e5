"""A right file of a commit-graph, and the ways to change one thing in it."""

from damage.layer import ENTRY, HEADER, Outline, big_endian, exact_fan

CHUNKS = ("OIDF", "OIDL", "CDAT", "EDGE", "end")
"""The entries of the chunk table, in their order."""

GENERATION, TIME, PARENTS = 3, 4, 5
"""Columns of a commit's line."""

NO_PARENT = 0x70000000
TOP_BIT = 0x80000000


class Original:
    """A right file and its listing, from which the damaged ones are made."""

    def __init__(self, layer, object_format, listing):
        self.layer = layer
        self.object_format = object_format
        self.outline = Outline(layer, object_format)
        self.listing = listing
        self.rows = [line.split(" ") for line in listing.splitlines()]
        self.parents = [row[PARENTS].split(",") for row in self.rows[1:]]
        self.generations = [int(row[GENERATION]) for row in self.rows[1:]]

    def patched(self, *patches):
        """The file with other bytes at some offsets."""
        edited = bytearray(self.layer)
        for at, new in patches:
            edited[at : at + len(new)] = new
        return bytes(edited)

    def with_id(self, chunk, new):
        """The file with another id in the chunk table."""
        return self.patched((self.entry(chunk), new))

    def with_offsets(self, **moves):
        """The file with the offsets of some chunks moved."""
        places = {self.entry(chunk) + 4: more for chunk, more in moves.items()}
        return self.patched(*((at, big_endian(self.number_at(at, 8) + more, 8)) for at, more in places.items()))

    def with_fan(self, byte, count):
        """The file with another count in the fan."""
        return self.patched((self.outline.chunks["OIDF"].start + 4 * byte, big_endian(count, 4)))

    def with_ids(self, changes):
        """The file with other ids, given by position, and with the fan that counts them."""
        ids = [changes.get(position, self.id_at(position)) for position in range(len(self.parents))]
        fan = b"".join(big_endian(count, 4) for count in exact_fan(ids))
        chunks = self.outline.chunks
        return self.patched((chunks["OIDF"].start, fan), (chunks["OIDL"].start, b"".join(ids)))

    def with_tree(self, position, new):
        """The file with another root tree of a commit."""
        return self.patched((self.fields(position) - self.outline.id_length, new))

    def with_parent(self, position, field, new):
        """The file with another first or second parent field, which are 0 and 1."""
        return self.patched((self.fields(position) + 4 * field, big_endian(new, 4)))

    def with_date(self, position, new):
        """The file with another generation and time, the eight bytes after the parent fields."""
        return self.patched((self.fields(position) + 8, new))

    def with_generations(self, generations):
        """The file with other generations of all commits."""
        places = [self.fields(position) + 8 for position in range(len(generations))]
        times = [self.number_at(at, 8) % 2**34 for at in places]
        dates = [big_endian(generation * 2**34 + time, 8) for generation, time in zip(generations, times)]
        return self.patched(*zip(places, dates))

    def with_edge(self, word, change):
        """The file with a word of the extra edges changed by a function; word -1 is the last."""
        at = self.outline.chunks["EDGE"][::4][word]
        return self.patched((at, big_endian(change(self.number_at(at, 4)), 4)))

    def relisted(self, changes):
        """The listing with other texts, given by position and column."""
        rows = [list(row) for row in self.rows]
        for position, columns in changes.items():
            for column, text in columns.items():
                rows[position + 1][column] = text
        return "".join(" ".join(row) + "\n" for row in rows)

    def parent_places(self):
        """The places of each commit's parents, as a new list."""
        return [[int(item) for item in items if item != "-"] for items in self.parents]

    def with_parents_of_number(self, count):
        """The first commit that has so many parents."""
        return [len(parents) for parents in self.parent_places()].index(count)

    def childless(self):
        """The first commit that is no parent."""
        parents = {parent for parents in self.parent_places() for parent in parents}
        return min(set(range(len(self.parents))) - parents)

    def regenerated(self, position, change):
        """The generations of all commits, with that of one changed by a function."""
        return [change(old) if at == position else old for at, old in enumerate(self.generations)]

    def entry(self, chunk):
        """Where the chunk's entry in the table begins."""
        return HEADER + ENTRY * CHUNKS.index(chunk)

    def id_at(self, position):
        """The bytes of the id of a commit."""
        size = self.outline.id_length
        start = self.outline.chunks["OIDL"].start + position * size
        return self.layer[start : start + size]

    def fields(self, position):
        """Where the parent fields of a commit's record begin."""
        size = self.outline.id_length
        return self.outline.chunks["CDAT"].start + position * (size + 16) + size

    def number_at(self, at, size):
        """The number in the bytes at an offset."""
        return int.from_bytes(self.layer[at : at + size], "big")
