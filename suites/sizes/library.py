"""The calls of the library for C, as its header declares them."""

import ctypes
import os
import re

TOP = os.path.dirname(os.path.dirname(os.path.dirname(os.path.abspath(__file__))))
HEADER = os.path.join(TOP, "bindings", "c", "commitgraph.h")
STRUCT = re.compile(r"typedef struct (\w+) \{(.*?)\} \1;", re.DOTALL)
CALL = re.compile(r"^(?!static|typedef)([\w ]+) (cg_\w+)\(([^;{()]*)\)(?:\s+CG_NONNULL\(\([\d, ]*\)\))?;", re.MULTILINE)
CODE = re.compile(r"(CG_\w+) = (\d+)")
COMMENT = re.compile(r"/\*.*?\*/", re.DOTALL)
VERSION = re.compile(r"^#define CG_VERSION (\d+)$", re.MULTILINE)
SCALARS = {
    **{"uint8_t": ctypes.c_uint8, "uint32_t": ctypes.c_uint32, "uint64_t": ctypes.c_uint64},
    **{"size_t": ctypes.c_size_t, "bool": ctypes.c_bool},
}
NOWHERE, EVERYTHING = 0xFFFFFFFF, 2**64 - 1


def header():
    """The text of the header, without comments."""
    with open(HEADER, encoding="utf-8") as file:
        return COMMENT.sub("", file.read())


def names():
    """The names of all calls."""
    return [name for _, name, _ in CALL.findall(header())]


class Library:
    """The shared library at a path. Its calls, structs and codes are attributes of the names in the header. The calls may have other names
    in the library, with a prefix."""

    def __init__(self, path, prefix=""):
        self.calls, self.types, text = {}, dict(SCALARS), header()
        functions = ctypes.CDLL(path)
        self.version = int(VERSION.search(text).group(1))
        for name, fields in STRUCT.findall(text):
            self.types[name] = type(name, (ctypes.Structure,), {"_fields_": list(self.fields(fields))})
        for result, name, taken in CALL.findall(text):
            call = self.calls[name] = getattr(functions, prefix + name)
            call.restype = self.types[result.split()[-1]]
            call.argtypes = [self.type_of(word) for word in parameters(taken)]
        vars(self).update({name: int(number) for name, number in CODE.findall(text)})

    def __getattr__(self, name):
        if name not in self.calls:
            raise AttributeError(name)
        return self.calls[name]

    def fields(self, text):
        """The fields of a struct, as pairs of a name and a type."""
        for part in filter(None, map(str.strip, text.split(";"))):
            first, *others = part.split(",")
            *_, name = first.replace("*", " * ").split()
            for field in (name, *map(str.strip, others)):
                yield field.strip("*"), self.type_of(first)

    def type_of(self, declared):
        """The type of a field or a parameter, by the words of its declaration."""
        if "*" in declared:
            return ctypes.c_void_p
        return self.types[[word for word in declared.split() if word != "const"][-2]]

    def room(self, name, count):
        """Room for so many values of a type, at least one."""
        return (self.types[name] * max(1, count))()


def parameters(taken):
    """The declarations of the parameters of a call."""
    return [word.strip() for word in taken.split(",") if word.strip() != "void"]


def wrappers(prefix):
    """The text of a C file with a function for each call, which has its name behind a prefix, and does nothing but call it."""
    yield '#include "commitgraph.h"\n'
    for result, name, taken in CALL.findall(header()):
        handed = ", ".join(re.findall(r"\w+", word)[-1] for word in parameters(taken))
        yield "%s %s%s(%s) { return %s(%s); }\n" % (result, prefix, name, taken, name, handed)


def told(value):
    """A value that a call answers: of a struct its fields."""
    if isinstance(value, ctypes.Structure):
        return tuple(told(getattr(value, name)) for name, _ in value._fields_)
    return value
