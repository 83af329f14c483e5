"""What bindings/c/commitgraph.h declares, and what is made of it: `python3 gate/declarations.py --write` writes the structs and
calls of bindings/rust/src/sys.rs and of bindings/python/commitgraph.py anew, and without a word it says which are not those of the
header. The library is for 64 bits, and so are the sizes.
"""

import os
import re
import sys
from typing import List, NamedTuple, Tuple

TOP = os.path.dirname(os.path.dirname(os.path.abspath(__file__)))
HEADER = "bindings/c/commitgraph.h"
RUST, PYTHON = "bindings/rust/src/sys.rs", "bindings/python/commitgraph.py"

COMMENT = re.compile(r"/\*.*?\*/", re.DOTALL)
STRUCT = re.compile(r"^typedef struct (cg_\w+) \{(.*?)\} \1;$", re.MULTILINE | re.DOTALL)
CALL = re.compile(r"^(?:CG_NODISCARD\s+)?([\w ]+?)\s+(cg_\w+)\(([^;()]*)\)(?:\s+CG_NONNULL\(\([\d, ]*\)\))?;$", re.MULTILINE)
ENUM = re.compile(r"^enum cg_\w+ \{ (.*) \};$", re.MULTILINE)
"""An enum on one line. That of the numbers of causes has many, and comes from the table of refusals."""

DECLARED = re.compile(r"((?:const )?(?:struct )?\w+) (\*?)(\w+)")
WHOLE = re.compile(r"(static )?inline const char \*(cg_\w+)\((\w+) (\w+)\) \{")
"""A call that the header has whole, and the library has too."""

SHORT = {"cg_layer_info": "Layer"}
"""The name elsewhere of a struct that is not called after the one of the header."""


class Named(NamedTuple):
    """A field or what a call takes: its name, the type of C or of what it points to, and whether it points, to what may be written."""

    name: str
    kind: str
    points: bool
    is_constant: bool


class Struct(NamedTuple):
    """A struct with its fields."""

    name: str
    fields: List[Named]


class Call(NamedTuple):
    """A call: what it answers, its name, and what it takes."""

    answer: str
    name: str
    taken: List[Named]


def declared(text):
    """The structs and the calls of the header, in their order."""
    text = COMMENT.sub("", text)
    structs = [Struct(name, list(fields(body))) for name, body in STRUCT.findall(text)]
    calls = [Call(answer, name, list(map(named, split(taken)))) for answer, name, taken in CALL.findall(text)]
    return structs, calls


def constants(text):
    """The names of the small enums of the header, with their numbers."""
    return [(name, int(number)) for body in ENUM.findall(text) for name, number in re.findall(r"CG_(\w+) = (\d+)", body)]


def fields(body):
    """The fields of a struct: after a type there may be several."""
    for line in filter(None, map(str.strip, body.replace("\n", " ").split(";"))):
        first, *more = line.split(", ")
        one = named(first)
        yield one
        yield from (one._replace(name=name) for name in more)


def split(taken):
    """The declarations of what a call takes."""
    return [] if taken == "void" else [" ".join(one.split()) for one in taken.split(",")]


def named(text):
    """A declaration of one name."""
    kind, star, name = DECLARED.fullmatch(text.strip()).groups()
    return Named(name, kind.replace("const ", "").replace("struct ", ""), bool(star), kind.startswith("const "))


def title(name):
    """The name of a struct in other languages."""
    return SHORT.get(name) or "".join(part.capitalize() for part in name[len("cg_") :].split("_"))


# How the structs lie in memory.

SIZES = {"bool": 1, "uint8_t": 1, "uint32_t": 4, "uint64_t": 8, "size_t": 8}


def layout(struct, structs) -> Tuple[int, List[int]]:
    """The size of a struct, and where each field begins."""
    at, places = 0, []
    for field in struct.fields:
        size, even = size_of(field, structs)
        at += -at % even
        places.append(at)
        at += size
    return at + -at % alignment(struct, structs), places


def size_of(field, structs):
    """The size of a field, and the number that its place is a multiple of."""
    inner = next((one for one in structs if one.name == field.kind), None)
    if field.points or inner is None:
        size = 8 if field.points else SIZES[field.kind]
        return size, size
    return layout(inner, structs)[0], alignment(inner, structs)


def alignment(struct, structs):
    """The number that the place and the size of a struct are multiples of."""
    return max(size_of(field, structs)[1] for field in struct.fields)


def assertions(text):
    """A program in C that is compiled only where the compiler lays the header's structs so as the bindings have them."""
    structs, _ = declared(text)
    lines = ['#include "commitgraph.h"']
    for struct in structs:
        size, places = layout(struct, structs)
        lines.append('_Static_assert(sizeof(%s) == %d, "%s");' % (struct.name, size, struct.name))
        for field, place in zip(struct.fields, places):
            where = "%s, %s" % (struct.name, field.name)
            lines.append('_Static_assert(offsetof(%s) == %d, "%s");' % (where, place, where))
    return "\n".join(lines) + "\n"


# Rust.

IN_RUST = re.compile(r"(?<=\n// What follows is made of `commitgraph\.h` by `gate/declarations\.py`\.\n).*", re.DOTALL)
RUST_KINDS = {"bool": "bool", "char": "u8", "uint8_t": "u8", "uint32_t": "u32", "uint64_t": "u64", "size_t": "usize", "void": "c_void"}
WIDEST = 120
"""The columns that `rustfmt` takes, by bindings/rust/rustfmt.toml."""


def rust(header, text):
    """The module for Rust with the structs and calls of the header."""
    structs, calls = declared(header)
    parts = ["".join("pub const %s: u32 = %d;\n" % constant for constant in constants(header))]
    parts += [struct_in_rust(struct, structs) for struct in structs]
    parts.append('extern "C" {\n%s}\n' % "".join(map(call_in_rust, calls)))
    parts.append(layout_in_rust(structs))
    return IN_RUST.sub(lambda found: "\n" + "\n".join(parts), text)


def type_in_rust(one):
    """The type of a field, of what a call takes, or of what it answers."""
    kind = RUST_KINDS.get(one.kind) or title(one.kind)
    return "*%s %s" % ("const" if one.is_constant else "mut", kind) if one.points else kind


def struct_in_rust(struct, structs):
    """The struct in Rust. One without pointers has a value to begin with."""
    traits = "Clone, Copy, Debug" + ("" if has_pointers(struct, structs) else ", Default")
    lines = "".join("    pub %s: %s,\n" % (field.name, type_in_rust(field)) for field in struct.fields)
    return "#[repr(C)]\n#[derive(%s)]\npub struct %s {\n%s}\n" % (traits, title(struct.name), lines)


def has_pointers(struct, structs):
    """Whether a field of a struct, or of one within it, is a pointer."""
    inner = [one for one in structs for field in struct.fields if one.name == field.kind and not field.points]
    return any(field.points for field in struct.fields) or any(has_pointers(one, structs) for one in inner)


def call_in_rust(call):
    """The call in Rust, on one line if that is not too wide."""
    taken = ["%s: %s" % (one.name, type_in_rust(one)) for one in call.taken]
    answer = type_in_rust(Named("", call.answer, False, False))
    line = "    pub fn %s(%s) -> %s;\n" % (call.name, ", ".join(taken), answer)
    if len(line) <= WIDEST + 1:
        return line
    return "    pub fn %s(\n%s    ) -> %s;\n" % (call.name, "".join("        %s,\n" % one for one in taken), answer)


LAYOUT = '''/// The sizes and offsets of these structs, as `commitgraph.h` has them on a machine of 64 bits.
#[cfg(target_pointer_width = "64")]
mod layout {
    use super::*;
    use std::mem::{offset_of, size_of};

    macro_rules! laid_out {
        ($name:ident, $size:literal, $($field:ident $offset:literal),*) => {
            const _: () = assert!(size_of::<$name>() == $size $(&& offset_of!($name, $field) == $offset)*);
        };
    }

%s}
'''


def layout_in_rust(structs):
    """The module that is compiled only where the structs lie so as in C."""
    lines = []
    for struct in structs:
        size, places = layout(struct, structs)
        told = ["%s %d" % (field.name, place) for field, place in zip(struct.fields, places)]
        half = len(told) if len(told) <= 6 else (len(told) + 1) // 2
        for part in filter(None, (told[:half], told[half:])):
            lines.append("    laid_out!(%s, %d, %s);\n" % (title(struct.name), size, ", ".join(part)))
    return LAYOUT % "".join(lines)


# Python.

IN_PYTHON = re.compile(
    r"(?<=\n# gate/declarations\.py makes these numbers, structs and calls of commitgraph\.h\.\n).*?(?=\"\"\"What each call that is used here)",
    re.DOTALL,
)
PYTHON_KINDS = {"bool": "c_bool", "uint8_t": "c_uint8", "uint32_t": "c_uint32", "uint64_t": "c_uint64", "size_t": "c_size_t"}
WIDEST_IN_PYTHON = 128


def python(header, text):
    """The module for Python with the calls of the header that it makes, and with the structs that these need."""
    by_hand = IN_PYTHON.sub("", text)
    structs, calls = declared(header)
    calls = [call for call in calls if re.search(r"_library\.%s\b|\"%s\"" % (call.name, call.name), by_hand)]
    used = {struct.name for struct in structs if re.search(r"\b_%s\b" % title(struct.name), by_hand)}
    used |= {call.answer for call in calls} | {one.kind for call in calls for one in call.taken if not one.points}
    used |= {field.kind for struct in structs if struct.name in used for field in struct.fields}
    used &= {struct.name for struct in structs}
    parts = ["\n%s" % struct_in_python(struct) for struct in structs if struct.name in used]
    named = ["%s = %d\n" % (name, number) for name, number in constants(header) if re.search(r"\b%s\b" % name, by_hand)]
    parts[0] = "".join(named) + "\n" + parts[0]
    taken = [(call.name, python_kind(call.answer), [type_in_python(one, used) for one in call.taken]) for call in calls]
    taken += [(name, "c_char_p", [PYTHON_KINDS[kind]]) for _, name, kind, _ in WHOLE.findall(header) if "_library.%s(" % name in by_hand]
    lines = "".join(line_in_python(*call) for call in taken)
    return IN_PYTHON.sub(lambda found: "\n" + "\n".join(parts) + "\n\nCALLS = {\n%s}\n" % lines, text)


def python_kind(kind):
    """The type of a value."""
    return PYTHON_KINDS.get(kind) or "_" + title(kind)


def type_in_python(one, used):
    """The type of what a call takes. Where what it points to is no struct of this module, it is an address."""
    if not one.points:
        return python_kind(one.kind)
    return "POINTER(_%s)" % title(one.kind) if one.kind in used else "c_void_p"


def struct_in_python(struct):
    """The struct in Python."""
    told = ['("%s", %s)' % (field.name, "c_void_p" if field.points else python_kind(field.kind)) for field in struct.fields]
    line = "    _fields_ = (%s)\n" % ", ".join(told)
    if len(line) > WIDEST_IN_PYTHON:
        line = "    _fields_ = (\n%s    )\n" % "".join("        %s,\n" % one for one in told)
    return "class _%s(ctypes.Structure):\n%s" % (title(struct.name), line)


def line_in_python(name, answer, taken):
    """The row of a call."""
    words = "(%s%s)" % (", ".join(taken), "," * (len(taken) == 1))
    line = '    "%s": (%s, %s),\n' % (name, answer, words)
    return line if len(line) <= WIDEST_IN_PYTHON else '    "%s": (\n        %s,\n        %s,\n    ),\n' % (name, answer, words)


MADE = {RUST: rust, PYTHON: python}
"""What is made of the header, by the file that has it."""


def stale(texts):
    """The files that have other structs or calls than the header makes of them."""
    for path, made in MADE.items():
        if made(texts[HEADER], texts[path]) != texts[path]:
            yield path


def main(words):
    """Writes what the header makes, or says what is not that, and answers the exit status."""
    if words not in ([], ["--write"]):
        print("usage: gate/declarations.py [--write]", file=sys.stderr)
        return 2
    texts = {}
    for path in [HEADER, *MADE]:
        with open(os.path.join(TOP, path), encoding="utf-8", newline="") as file:
            texts[path] = file.read()
    others = list(stale(texts))
    for path in others:
        print(path)
        if words:
            with open(os.path.join(TOP, path), "w", encoding="utf-8", newline="") as file:
                file.write(MADE[path](texts[HEADER], texts[path]))
    return 0 if words or not others else 1


if __name__ == "__main__":
    sys.exit(main(sys.argv[1:]))
